"""Paths, records, peers and tickets as plain values, the limits, and why events are refused."""

from dataclasses import dataclass

from .sums import Constraints

MOST_PEERS, MOST_PATHS, MOST_TICKETS, MOST_TRIES = 64, 16_384, 1_024, 4
LAST_NUMBER = 0xFFFFFFFE

# refusals, by their numbers in docs/FORMAT.md
UNKNOWN_PEER, PEER_UP, PEER_DOWN, UNKNOWN_LSP, NOT_DELEGATED, PENDING, NO_UPDATE, NO_INITIATE = range(1, 9)
NOT_CREATED, MANY_TICKETS, MANY_PATHS, MANY_PEERS, UNKNOWN_NODE, UNKNOWN_TICKET, NOT_TAKEN = range(9, 16)
NAME_IN_USE, NUMBER_IN_USE, SYNCING, BAD_REPORT, UNKNOWN_LINK = range(16, 21)


class Refusal(Exception):
    """The event is refused, and changes nothing."""

    def __init__(self, why, ends=None):
        super().__init__(why)
        self.why, self.ends = why, ends


def need(holds, why):
    if not holds:
        raise Refusal(why)


@dataclass(frozen=True)
class Path:
    peer: int
    plsp: int
    # the LSP ID of a reported path, or None
    lsp: int | None
    # the SRP-ID of a grant, or None
    srp: int | None
    tunnel: tuple
    hold: int
    bandwidth: int
    links: tuple
    fresh: bool = True


@dataclass
class Record:
    name: bytes
    delegated: bool
    created: bool
    asked: Constraints
    tunnel: tuple
    removing: int | None


@dataclass
class Peer:
    up: bool = False
    session: int = 0
    update: bool = False
    create: bool = False
    syncing: bool = False
    last_srp: int = 0
    outgoing: tuple = ()


@dataclass
class Ticket:
    number: int
    peer: int
    session: int
    # update, initiate or answer; with the PLSP-ID, the name, or the request's number
    purpose: str
    of: object
    # the PLSP-ID that a request names
    plsp: int | None
    asked: Constraints
    tries: int = 0
    seen: int = 0
    taken: bool = False
    # what was asked for with the purpose, if it isn't what is asked of the path
    wanted: Constraints | None = None
