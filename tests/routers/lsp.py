"""What a router has: its temper, and its LSPs with their paths."""
from dataclasses import dataclass, field

import pcep


@dataclass(frozen=True)
class Temper:
    """What a router does that others do differently."""
    # in which reports it repeats the SRP-ID of what it answers: "every", or "first" (RFC 8231 section 6.2); or it answers
    # "never", or by a PCErr ("error")
    answers: str = "first"
    # the state of its first report of a new path: going up, DOWN as FRR's pathd has it, or at once UP
    begins: int = pcep.GOING_UP
    # seconds from its first report of a new path to the next one, and from then until the old path is removed
    signals: float = 0.05
    late: float = 0.05
    # each setup fails, and the LSP stays as it was
    refuses: bool = False
    # what it records of a path that is up: None, "interfaces", "nodes" or "labels"
    records: str | None = "interfaces"
    # it comes back with other PLSP-IDs
    renumbers: bool = False
    # how many times it loses its connection in place of an answer
    drops: int = 0
    # its LSPs wish local protection
    protects: bool = False
    # the KeepaliveTimer and the DeadTimer of its Open, in seconds, and its capabilities, if not all
    timers: tuple = (30, 120)


@dataclass
class Path:
    """A path of an LSP, as the router last reported it."""
    state: int
    way: tuple
    bandwidth: int
    # the links that its last report names: of an RRO without addresses a link that joins the ends, if there is one
    shown_way: tuple = ()


@dataclass
class Lsp:
    name: str
    source: str
    destination: str
    tunnel: int
    bandwidth: int
    setup: int = 7
    hold: int = 7
    delegated: bool = True
    created: bool = False
    admin: bool = True
    protects: bool = False
    lsp_id: int = 1
    # by LSP-ID
    paths: dict = field(default_factory=dict)
    # the TLVs of its reports that say why it failed
    why: tuple = ()

    current = property(lambda self: self.paths.get(self.lsp_id))


def settle(lsp):
    """Ends what was begun: a path that is being set up is up, and one that it takes the place of is gone."""
    standing = [lsp_id for lsp_id, path in lsp.paths.items() if path.state != pcep.DOWN]
    if lsp.current.state == pcep.DOWN and standing:
        lsp.lsp_id = standing[-1]
    lsp.paths = {lsp.lsp_id: lsp.current}
    if lsp.current.state in (pcep.GOING_UP, pcep.GOING_DOWN):
        lsp.current.state = pcep.UP
