"""Messages of PCEP: the objects of each type in their order, and the error that answers what is wrong (RFC 5440
section 6, RFC 8231 section 6)."""
import struct
from dataclasses import dataclass, field
from typing import Any

from . import objects as o

M_OPEN, M_KEEPALIVE, M_PCREQ, M_PCREP, M_PCNTF, M_PCERR, M_CLOSE = range(1, 8)
M_PCRPT, M_PCUPD, M_PCINITIATE = 10, 11, 12
DOWN, UP, ACTIVE = 0, 1, 2


class Malformed(Exception):
    """An object is broken: the session can't go on."""


class Refused(Exception):
    """The message is answered with this error, about a request (RP), a state report (SRP) or neither."""

    def __init__(self, kind, value, about=None):
        self.error = kind, value, about


class NoIdentifiers(Refused):
    """An LSP without its identifiers, after which the session doesn't go on."""


@dataclass(slots=True)
class Constraints:
    source: Any = None
    destination: Any = None
    bandwidth: int = 0
    setup: int = 7
    hold: int = 7
    colours: tuple = (0, 0, 0)
    is_protected: bool = False
    minimise: int = 2
    bounds: dict = field(default_factory=dict)

    def take_lspa(self, lspa):
        """Priorities above 7 count as 7, and the holding priority is never worse than the setup priority."""
        if lspa is not None:
            self.colours, self.setup = lspa[:3], min(lspa[3], 7)
            self.hold = min(self.setup, min(lspa[4], 7))
            self.is_protected = bool(lspa[5] & 1)


@dataclass(slots=True)
class Request:
    number: int
    is_reoptimization: bool
    about: tuple
    ends: Any = None
    plsp: Any = None
    lspa: Any = None
    bandwidths: list = field(default_factory=list)
    metrics: list = field(default_factory=list)
    has_rro: bool = False

    def finished(self):
        if self.ends is None:
            raise Refused(6, 3, self.about)
        if self.is_reoptimization and not self.has_rro and any(value > 0 for _, value in self.bandwidths):
            raise Refused(6, 2, self.about)
        asked = Constraints(*self.ends, max((value for sort, value in self.bandwidths if sort == 1), default=0))
        asked.take_lspa(self.lspa)
        asked.minimise = next((metric for is_bound, metric, _ in self.metrics if not is_bound and metric in (1, 2, 3)), 2)
        for is_bound, metric, value in self.metrics:
            if is_bound and metric in (1, 2, 3):
                asked.bounds[metric] = min(value, asked.bounds.get(metric, value))
        return self.number, self.plsp, asked


@dataclass(slots=True)
class Report:
    srp: Any = None
    awaits_lsp: bool = False
    plsp: Any = None
    flags: int = 0
    name: Any = None
    identifiers: Any = None
    ero: Any = None
    rro: Any = None
    lspa: Any = None
    bandwidths: list = field(default_factory=list)

    @property
    def about(self):
        return None if self.srp is None else (o.SRP, self.srp)

    @property
    def is_removed(self):
        return self.flags & 0x4 != 0

    @property
    def operational(self):
        """5 to 7 count as up."""
        state = self.flags >> 4 & 7
        return UP if state > 4 else state

    @property
    def ends_synchronization(self):
        return self.plsp == 0 and not self.flags & 0x2 and not self.ero

    def finished(self):
        if self.plsp is None:
            raise Refused(6, 8, self.about)
        if self.ero is None and not self.is_removed:
            raise Refused(6, 9, self.about)
        return self


def requests_of(pcep_objects):
    current, done = None, []
    for pcep_object in pcep_objects:
        about = current and current.about
        if not pcep_object.is_known:
            if pcep_object.p:
                raise Refused(3, 2 if pcep_object.kind in o.TYPES else 1, about)
        elif pcep_object.kind == o.RP:
            if current:
                done.append(current.finished())
            flags, number = pcep_object.says
            current = Request(number, flags & 0x8 != 0, (o.RP, number))
            if not pcep_object.p:
                raise Refused(10, 1, current.about)
        elif current is None and pcep_object.kind != o.SVEC:
            raise Refused(6, 1)
        elif pcep_object.kind in (o.SVEC, o.IRO, o.LOAD_BALANCING):
            if pcep_object.p:
                raise Refused(4, 1, about)
        elif pcep_object.kind == o.END_POINTS and current.ends is None:
            if not pcep_object.p:
                raise Refused(10, 1, about)
            current.ends = pcep_object.says
        elif pcep_object.kind == o.LSP and current.plsp is None:
            current.plsp = pcep_object.says >> 12
        elif pcep_object.kind == o.LSPA and current.lspa is None:
            current.lspa = pcep_object.says
        elif pcep_object.kind == o.BANDWIDTH:
            current.bandwidths.append((pcep_object.sort, pcep_object.says))
        elif pcep_object.kind == o.METRIC:
            current.metrics.append(pcep_object.says)
        elif pcep_object.kind == o.RRO:
            current.has_rro = True
    if current is None:
        raise Refused(6, 1)
    return [*done, current.finished()]


def take_lsp(item, pcep_object):
    item.awaits_lsp = False
    item.plsp, item.flags = pcep_object.says >> 12, pcep_object.says & 0xFFF
    item.name = pcep_object.tlvs.get(o.SYMBOLIC_NAME)
    if o.LSP_IDENTIFIERS in pcep_object.tlvs:
        # sender, LSP ID, Tunnel ID, Extended Tunnel ID, endpoint
        item.identifiers = struct.unpack(">IHHII", pcep_object.tlvs[o.LSP_IDENTIFIERS])
    elif item.plsp != 0:
        raise NoIdentifiers(6, 11, item.about)


def reports_of(pcep_objects):
    item, done = None, []
    for pcep_object in pcep_objects:
        if not pcep_object.is_known:
            continue
        if pcep_object.kind == o.SRP:
            if item:
                done.append(item.finished())
            item = Report(srp=pcep_object.says[1] or None, awaits_lsp=True)
        elif pcep_object.kind == o.LSP:
            if item is None or not item.awaits_lsp:
                if item:
                    done.append(item.finished())
                item = Report()
            take_lsp(item, pcep_object)
        elif pcep_object.kind in (o.ERO, o.RRO, o.LSPA, o.BANDWIDTH):
            if item is None:
                raise Refused(6, 8)
            item.awaits_lsp = False
            if pcep_object.kind == o.BANDWIDTH:
                item.bandwidths.append(pcep_object.says)
            elif pcep_object.kind == o.ERO:
                item.ero = pcep_object.says if item.ero is None else item.ero
            elif pcep_object.kind == o.RRO:
                item.rro = pcep_object.says if item.rro is None else item.rro
            elif item.lspa is None:
                item.lspa = pcep_object.says
    if item is None:
        raise Refused(6, 8)
    return [*done, item.finished()]


def body_of(kind, data):
    """What a message of this type says. Types that no session takes are read as nothing."""
    try:
        if kind == M_PCREQ:
            return requests_of(o.pcep_objects_in(data))
        if kind == M_PCRPT:
            return reports_of(o.pcep_objects_in(data))
        pcep_objects = [pcep_object for pcep_object in o.pcep_objects_in(data) if pcep_object.is_known]
    except o.Broken:
        raise Malformed from None
    if kind == M_PCERR:
        return [pcep_object.says[1] for pcep_object in pcep_objects if pcep_object.kind == o.SRP]
    if kind == M_OPEN:
        first = next((pcep_object for pcep_object in pcep_objects if pcep_object.kind == o.OPEN), None)
        if first is None:
            raise Malformed
        word = first.tlvs.get(o.STATEFUL_CAPABILITY)
        capabilities = None if word is None else (word[3] & 0x1 != 0, word[3] & 0x4 != 0)
        return first.says, capabilities
    return None


# messages that the server writes

def message(kind, *parts):
    body = b"".join(parts)
    return struct.pack(">BBH", 0x20, kind, 4 + len(body)) + body


def pcep_object(kind, body, sort=1, flags=0):
    return struct.pack(">BBH", kind, sort << 4 | flags, 4 + len(body)) + body


OWN_OPEN = message(M_OPEN, pcep_object(o.OPEN, bytes([0x20, 30, 120, 0, 0, 16, 0, 4, 0, 0, 0, 5])))
KEEPALIVE = message(M_KEEPALIVE)


def close(reason):
    return message(M_CLOSE, pcep_object(o.CLOSE, bytes([0, 0, 0, reason])))


def error(kind, value, about=None):
    named = [pcep_object(about[0], struct.pack(">II", 0, about[1]))] if about else []
    return message(M_PCERR, *named, pcep_object(o.PCEP_ERROR, bytes([0, 0, kind, value])))
