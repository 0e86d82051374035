"""What a server asks of a router, read from its messages."""
import socket
import struct
from dataclasses import dataclass

from . import BANDWIDTH, DELEGATE, END_POINTS, ERO, LOCAL_PROTECTION, LSP, LSPA, NAME, PCEP_ERROR, PCINITIATE, PCUPD, SRP, TO_REMOVE


@dataclass
class Ask:
    """What one PCUpd or PCInitiate asks for; or a PCErr, with its type and value."""
    kind: int
    moment: float
    # the number of the router's session, from 1
    session: int
    srp: int = 0
    removes: bool = False
    plsp: int = 0
    flags: int = 0
    name: bytes = b""
    ends: tuple = ()
    hops: list | None = None
    setup: int = 7
    hold: int = 7
    protects: bool = False
    bandwidth: float | None = None
    error: tuple = ()

    delegates = property(lambda self: bool(self.flags & DELEGATE))
    is_creation = property(lambda self: self.kind == PCINITIATE and not self.removes)
    is_move = property(lambda self: self.kind == PCUPD and self.delegates)


def objects_of(body: bytes):
    """The class and the body of each object."""
    while body:
        kind, _, length = struct.unpack(">BBH", body[:4])
        if length < 4 or length > len(body):
            raise ValueError(f"an object of class {kind} has a length of {length}, and {len(body)} bytes are left")
        yield kind, body[4:length]
        body = body[length:]


def tlvs_of(body: bytes) -> dict:
    """The first value of each type."""
    found = {}
    while len(body) >= 4:
        kind, length = struct.unpack(">HH", body[:4])
        found.setdefault(kind, body[4:4 + length])
        body = body[4 + length + -length % 4:]
    return found


def addresses_of(body: bytes) -> list:
    """The addresses of a route, None for each hop that is no host."""
    found = []
    while body:
        is_host = body[0] & 0x7F == 1 and body[1] == 8 and body[6] == 32
        found.append(socket.inet_ntoa(body[2:6]) if is_host else None)
        body = body[max(2, body[1]):]
    return found


def put(ask: Ask, kind: int, body: bytes):
    """Takes an object into what is asked."""
    if kind == LSP:
        number, tlvs = struct.unpack(">I", body[:4])[0], tlvs_of(body[4:])
        ask.plsp, ask.flags, ask.name = number >> 12, number & 0xFFF, tlvs.get(NAME, b"")
    elif kind == END_POINTS:
        ask.ends = socket.inet_ntoa(body[:4]), socket.inet_ntoa(body[4:8])
    elif kind == ERO:
        ask.hops = addresses_of(body)
    elif kind == LSPA:
        ask.setup, ask.hold, ask.protects = body[12], body[13], bool(body[14] & LOCAL_PROTECTION)
    elif kind == BANDWIDTH:
        ask.bandwidth = struct.unpack(">f", body)[0]
    elif kind == PCEP_ERROR:
        ask.error = body[2], body[3]


def asks_of(heard: bytes, moment: float, session: int) -> list[Ask]:
    """What a PCUpd, a PCInitiate or a PCErr asks for or says: an item for each SRP, or one."""
    kind, items = heard[1], []
    for number, body in objects_of(heard[4:]):
        if number == SRP:
            flags, srp_id = struct.unpack(">II", body[:8])
            items.append(Ask(kind, moment, session, srp=srp_id, removes=bool(flags & TO_REMOVE)))
        else:
            if not items:
                items.append(Ask(kind, moment, session))
            put(items[-1], number, body)
    return items
