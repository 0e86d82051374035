"""Messages of routers at examples/diamond.toml: LSPs from A to D, over B or over C."""
import pcep

A, B, C, D = (bytes([10, 0, 0, number]) for number in (1, 2, 3, 4))
# the ways from A to D, each link by the second byte of its addresses, which is one more than its number
OVER_B, OVER_C = (1, 2), (3, 4)
# setup at 7, hold at 0
ATTRIBUTES = pcep.attributes(7, 0)


def lsp(plsp: int, flags: int, lsp_id: int, tunnel: int) -> bytes:
    """An LSP object from A to D; without an LSP-ID its identifiers are zero."""
    return pcep.lsp(plsp, flags, pcep.identifiers(A, lsp_id, tunnel, D) if lsp_id else pcep.NO_IDENTIFIERS)


def route(*links: int) -> bytes:
    """An ERO over these links."""
    return pcep.route(pcep.ERO, [bytes([10, link, 0, 2]) for link in links])


def report(plsp: int, value: float, links=OVER_B, flags: int = 0x18, lsp_id: int = 1, request: int | None = None) -> bytes:
    """A state report of a path of this bandwidth, under the SRP-ID of a request if there is one."""
    first = [pcep.srp(request)] if request is not None else []
    return pcep.message(pcep.PCRPT, *first, lsp(plsp, flags, lsp_id, plsp), route(*links), ATTRIBUTES, pcep.bandwidth(value))


def removal(plsp: int, lsp_id: int = 1) -> bytes:
    return pcep.message(pcep.PCRPT, lsp(plsp, pcep.REMOVE, lsp_id, plsp), route())


def request(number: int, value: float = 600000.0) -> bytes:
    """A request for a path from A to D."""
    return pcep.message(pcep.PCREQ, pcep.rp(number), pcep.end_points(A, D), pcep.bandwidth(value, pcep.MUST))


def number_of(reply: bytes) -> int:
    """The number of the RP or the SRP that a message begins with; more than 32 bits if its flags aren't zero."""
    return int.from_bytes(reply[8:16], "big")
