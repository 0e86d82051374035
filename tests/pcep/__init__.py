"""Messages of PCEP (RFC 5440, 8231, 8281, 5420), written and read once for all test programs, benchmarks and tools.

This module writes them, `pcep.reading` reads what a server sends, and `pcep.diamond` has messages about examples/diamond.toml.
Two readers share nothing with it, on purpose: `simulator` and `reader`, with which the program's own reader is compared.
"""
import socket
import struct

# types of messages
OPEN_TYPE, KEEPALIVE_TYPE, PCREQ, PCREP, PCNTF, PCERR, CLOSE_TYPE, PCRPT, PCUPD, PCINITIATE = 1, 2, 3, 4, 5, 6, 7, 10, 11, 12
# classes of objects
OPEN_OBJECT, RP, NO_PATH, END_POINTS, BANDWIDTH, METRIC, ERO, RRO, LSPA, PCEP_ERROR, CLOSE_OBJECT, LSP, SRP = 1, 2, 3, 4, 5, 6, 7, 8, 9, 13, 15, 32, 33
# types of TLVs
STATEFUL, NAME, IDENTIFIERS, ERROR_CODE, RSVP_ERROR = 16, 17, 18, 20, 21
# flags of the LSP object (RFC 8231 section 7.3, RFC 8281 section 5.3.1), and its states
DELEGATE, SYNC, REMOVE, ADMIN, CREATE = 0x01, 0x02, 0x04, 0x08, 0x80
DOWN, UP, ACTIVE, GOING_DOWN, GOING_UP = range(5)
STATES = "down", "up", "active", "going down", "going up"
# the P flag of an object (RFC 5440 section 7.2), the flag of LSPA by which local protection is wished (section 7.11), and that of an
# SRP by which an LSP is to be removed (RFC 8281 section 5.2)
MUST = 0x02
LOCAL_PROTECTION = 0x01
TO_REMOVE = 0x01


def packed(address: str | bytes) -> bytes:
    """The four bytes of an address, which may be in words or in bytes."""
    return address if isinstance(address, bytes) else socket.inet_aton(address)


def make_object(kind: int, body: bytes, variant: int = 1, flags: int = 0) -> bytes:
    """An object of this class and type."""
    return struct.pack(">BBH", kind, variant << 4 | flags, 4 + len(body)) + body


def tlv(kind: int, value: bytes) -> bytes:
    return struct.pack(">HH", kind, len(value)) + value + bytes(-len(value) % 4)


def message(kind: int, *objects: bytes) -> bytes:
    body = b"".join(objects)
    return struct.pack(">BBH", 0x20, kind, 4 + len(body)) + body


def opening(keepalive: int = 30, dead_timer: int = 120, capabilities: int | None = 5) -> bytes:
    """An Open with these timers, in seconds, and with the capabilities of RFC 8231 section 7.1.1 (None: without them)."""
    stateful = b"" if capabilities is None else tlv(STATEFUL, struct.pack(">I", capabilities))
    return message(OPEN_TYPE, make_object(OPEN_OBJECT, struct.pack(">BBBB", 0x20, keepalive, dead_timer, 0) + stateful))


# the Open of the server, and of most routers here
OPEN = opening()
KEEPALIVE = message(KEEPALIVE_TYPE)


def close(reason: int) -> bytes:
    return message(CLOSE_TYPE, make_object(CLOSE_OBJECT, bytes([0, 0, 0, reason])))


CLOSE = close(1)


def hop(address: str | bytes) -> bytes:
    """A subobject of a host address, strict (RFC 3209 section 4.3.3.2)."""
    return struct.pack(">BB4sBB", 1, 8, packed(address), 32, 0)


def route(kind: int, addresses) -> bytes:
    """An ERO or an RRO of host addresses."""
    return make_object(kind, b"".join(map(hop, addresses)))


def labels(count: int) -> bytes:
    """An RRO that records labels only (RFC 3209 section 4.4.1.3)."""
    return make_object(RRO, b"".join(struct.pack(">BBBBI", 3, 8, 1, 1, 16 + number) for number in range(count)))


def srp(number: int, flags: int = 0) -> bytes:
    return make_object(SRP, struct.pack(">II", flags, number))


def rp(number: int) -> bytes:
    return make_object(RP, struct.pack(">II", 0, number), flags=MUST)


def end_points(source: str | bytes, destination: str | bytes) -> bytes:
    return make_object(END_POINTS, packed(source) + packed(destination), flags=MUST)


def bandwidth(value: float, flags: int = 0) -> bytes:
    """In bytes a second."""
    return make_object(BANDWIDTH, struct.pack(">f", value), flags=flags)


def metric(kind: int, value: float, flags: int) -> bytes:
    return make_object(METRIC, struct.pack(">HBBf", 0, flags, kind, value))


def attributes(setup: int, hold: int, protects: bool = False) -> bytes:
    """An LSPA with these priorities, which takes links of any colour."""
    return make_object(LSPA, struct.pack(">IIIBBBB", 0, 0, 0, setup, hold, LOCAL_PROTECTION if protects else 0, 0))


def identifiers(source, lsp_id: int, tunnel: int, destination, extended=None) -> bytes:
    """The TLV that names a path (RFC 8231 section 7.3.1); its extended tunnel ID is the source unless another is given."""
    ends = packed(source), lsp_id, tunnel, packed(source if extended is None else extended), packed(destination)
    return tlv(IDENTIFIERS, struct.pack(">4sHH4s4s", *ends))


NO_IDENTIFIERS = tlv(IDENTIFIERS, bytes(16))


def lsp(plsp: int, flags: int, *tlvs: bytes) -> bytes:
    """An LSP object; the state is among the flags, from the fifth bit on."""
    return make_object(LSP, struct.pack(">I", plsp << 12 | flags) + b"".join(tlvs))


def rsvp_error(node, code: int, value: int) -> bytes:
    """RSVP-ERROR-SPEC with an ERROR_SPEC of IPv4 (RFC 8231 section 7.3.4, RFC 2205 appendix A.5)."""
    return tlv(RSVP_ERROR, struct.pack(">HBB4sBBH", 12, 6, 1, packed(node), 0, code, value))


END_OF_SYNC = message(PCRPT, lsp(0, 0, NO_IDENTIFIERS), route(ERO, ()))


def error(kind: int, value: int, number: int | None = None) -> bytes:
    """A PCErr, about the request of this SRP-ID if there is one."""
    return message(PCERR, *([] if number is None else [srp(number)]), make_object(PCEP_ERROR, bytes([0, 0, kind, value])))
