"""PCEP messages as bytes (RFC 5440, 8231, 8281): what a router's say, and those that the server writes."""

import struct
from dataclasses import dataclass, field

from . import words

OPEN, KEEPALIVE, REQUEST, REPLY, NOTIFY, ERROR, CLOSE, REPORT, UPDATE, INITIATE = 1, 2, 3, 4, 5, 6, 7, 10, 11, 12
DOWN, UP, ACTIVE, GOING_DOWN, GOING_UP = 0, 1, 2, 3, 4

# what an error is about: nothing, an RP or an SRP with its number
NOTHING, RP, SRP = "nothing", "rp", "srp"


class Malformed(Exception):
    """An object breaks its own form."""


class Unrecognized(Exception):
    """An object of an unknown class (value 1) or type (value 2) that has to be taken into account."""

    def __init__(self, value, about):
        super().__init__(value)
        self.value, self.about = value, about


class Refused(Exception):
    """A message breaks a rule; the error's type and value, and what it is about."""

    def __init__(self, kind, value, about=(NOTHING, 0)):
        super().__init__(kind, value)
        self.kind, self.value, self.about = kind, value, about


# ---- what is read


@dataclass
class Open:
    keepalive: int
    dead_timer: int
    # whether updates and initiations are taken, or None where the capability isn't there
    capabilities: tuple | None


@dataclass
class Report:
    plsp: int
    flags: int
    srp: int | None = None
    name: bytes | None = None
    # sender, LSP ID, tunnel ID, extended tunnel ID, endpoint
    identifiers: tuple = (0, 0, 0, 0, 0)
    ero: list | None = None
    rro: list | None = None
    bandwidth: int = 0
    setup: int = 7
    hold: int = 7
    colours: tuple = (0, 0, 0)
    is_protected: bool = False

    delegated = property(lambda self: bool(self.flags & 1))
    syncing = property(lambda self: bool(self.flags & 2))
    removed = property(lambda self: bool(self.flags & 4))
    created = property(lambda self: bool(self.flags & 0x80))

    @property
    def operational(self):
        """The O field; 5 to 7 count as up."""
        value = self.flags >> 4 & 7
        return value if value <= GOING_UP else UP


@dataclass
class Request:
    number: int
    source: int = 0
    destination: int = 0
    plsp: int | None = None
    bandwidth: int = 0
    setup: int = 7
    hold: int = 7
    colours: tuple = (0, 0, 0)
    is_protected: bool = False
    minimise: int = 2
    # the least bound on each metric that is bounded
    bounds: dict = field(default_factory=dict)


def objects_in(body):
    """The objects of a message: class, type, whether P is set, body."""
    place = 0
    while place < len(body):
        if len(body) - place < 4:
            raise Malformed
        kind, second, size = struct.unpack_from(">BBH", body, place)
        if size < 4 or size % 4 or place + size > len(body):
            raise Malformed
        yield kind, second >> 4, bool(second & 2), body[place + 4 : place + size]
        place += size


def tlvs_in(body):
    """The first value of each type."""
    found, place = {}, 0
    while place < len(body):
        if len(body) - place < 4:
            raise Malformed
        kind, size = struct.unpack_from(">HH", body, place)
        if place + 4 + (size + 3) // 4 * 4 > len(body):
            raise Malformed
        found.setdefault(kind, body[place + 4 : place + 4 + size])
        place += 4 + (size + 3) // 4 * 4
    return found


def number_in(body):
    """The number of an RP or SRP, behind its flags; the TLVs behind it have to be whole."""
    (number,) = struct.unpack_from(">I", body, 4)
    tlvs_in(body[8:])
    return number


def hops_in(body, kinds=0x7F):
    """The addresses of the hosts; subobjects of other kinds use no link, and are None. The first bit of a kind is L in an ERO."""
    hops, place = [], 0
    while place < len(body):
        kind, size = body[place] & kinds, body[place + 1]
        if size < 4 or size % 4 or place + size > len(body) or kind == 1 and size != 8:
            raise Malformed
        host = kind == 1 and body[place + 6] == 32
        hops.append(struct.unpack_from(">I", body, place + 2)[0] if host else None)
        place += size
    return hops


def put_attributes(item, body):
    """What an LSPA says. The holding priority in force is never worse than the setup priority."""
    exclude, any_of, all_of, setup, hold, flags = struct.unpack_from(">IIIBBB", body)
    item.colours, item.is_protected = (exclude, any_of, all_of), bool(flags & 1)
    item.setup, item.hold = min(setup, 7), min(setup, hold, 7)


def read_open(body):
    for kind, variant, _, content in objects_in(body):
        if (kind, variant) == (1, 1):
            _, keepalive, dead_timer, _ = struct.unpack_from(">BBBB", content)
            flags = tlvs_in(content[4:]).get(16)
            known = None if flags is None else (bool(flags[3] & 1), bool(flags[3] & 4))
            return Open(keepalive, dead_timer, known)
    raise Refused(0, 0)


def lsp_of(srp, body):
    (number,) = struct.unpack_from(">I", body)
    tlvs = tlvs_in(body[4:])
    report = Report(number >> 12, number & 0xFFF, srp, tlvs.get(17))
    if 18 in tlvs:
        sender, lsp, tunnel, extended, endpoint = struct.unpack(">IHHII", tlvs[18])
        report.identifiers = sender, lsp, tunnel, extended, endpoint
    elif report.plsp:
        raise Refused(6, 11, about_srp(srp))
    return report


def about_srp(srp):
    return (SRP, srp) if srp else (NOTHING, 0)


def read_reports(body):
    """The items of a PCRpt: an SRP starts one, and so does an LSP that isn't right behind an SRP."""
    items, srp, behind_srp = [], None, False
    for kind, variant, _, content in objects_in(body):
        if (kind, variant) == (33, 1):
            if behind_srp:
                raise Refused(6, 8, about_srp(srp))
            end_report(items)
            srp, behind_srp = number_in(content) or None, True
            continue
        if (kind, variant) == (32, 1):
            if not behind_srp:
                end_report(items)
                srp = None
            items.append(lsp_of(srp, content))
        elif (kind, variant) in ((7, 1), (8, 1), (9, 1), (5, 1), (5, 2)):
            if behind_srp or not items:
                raise Refused(6, 8, about_srp(srp))
            put_in_report(items[-1], kind, content)
        else:
            continue
        behind_srp = False
    if behind_srp or not items:
        raise Refused(6, 8, about_srp(srp))
    end_report(items)
    return items


def put_in_report(item, kind, content):
    if kind == 7 and item.ero is None:
        item.ero = hops_in(content)
    elif kind == 8 and item.rro is None:
        item.rro = hops_in(content, 0xFF)
    elif kind == 9 and not hasattr(item, "has_attributes"):
        item.has_attributes = True
        put_attributes(item, content)
    elif kind == 5:
        item.bandwidth = max(item.bandwidth, words.bandwidth(struct.unpack(">I", content)[0]))


def end_report(items):
    if items and items[-1].ero is None and not items[-1].removed:
        raise Refused(6, 9, about_srp(items[-1].srp))


def read_requests(body):
    """The requests of a PCReq, each an RP and what is behind it."""
    requests, ends = [], False
    for kind, variant, must, content in objects_in(body):
        if (kind, variant) == (2, 1):
            end_request(requests, ends)
            number = number_in(content)
            if not must:
                raise Refused(10, 1, (RP, number))
            requests.append(Request(number))
            ends = False
        elif not requests:
            raise Refused(6, 1)
        elif (kind, variant) == (4, 1) and not ends:
            if not must:
                raise Refused(10, 1, (RP, requests[-1].number))
            requests[-1].source, requests[-1].destination = struct.unpack(">II", content)
            ends = True
        else:
            put_in_request(requests[-1], kind, variant, must, content)
    if not requests:
        raise Refused(6, 1)
    end_request(requests, ends)
    return requests


def put_in_request(item, kind, variant, must, content):
    if (kind, variant) == (32, 1):
        if item.plsp is None:
            item.plsp = struct.unpack_from(">I", content)[0] >> 12
    elif (kind, variant) == (9, 1):
        if not hasattr(item, "has_attributes"):
            item.has_attributes = True
            put_attributes(item, content)
    elif (kind, variant) == (5, 1):
        item.bandwidth = max(item.bandwidth, words.bandwidth(struct.unpack(">I", content)[0]))
    elif (kind, variant) == (6, 1):
        put_metric(item, content)
    elif kind in (10, 11, 14) and must:
        raise Refused(4, 1, (RP, item.number))
    elif kind not in (1, 2, 3, 4, 5, 6, 7, 8, 9, 10, 11, 12, 13, 14, 15, 32, 33) and must:
        raise Unrecognized(1, (RP, item.number))


def put_metric(item, content):
    _, flags, metric, word = struct.unpack(">HBBI", content)
    if flags & 1:
        bound = words.metric_bound(word)
        item.bounds[metric] = min(item.bounds.get(metric, bound), bound)
    elif metric in (1, 2, 3) and not hasattr(item, "has_metric"):
        item.has_metric = True
        item.minimise = metric


def end_request(requests, ends):
    if requests and not ends:
        raise Refused(6, 3, (RP, requests[-1].number))


def read_refusals(body):
    """The SRP-IDs that a PCErr names."""
    return [number_in(content) for kind, variant, _, content in objects_in(body) if (kind, variant) == (33, 1)]


READERS = {OPEN: read_open, REQUEST: read_requests, ERROR: read_refusals, REPORT: read_reports}


def read(message):
    """The kind of a whole message, and what it says."""
    kind, body = message[1], message[4:]
    try:
        if kind in READERS:
            return kind, READERS[kind](body)
        if kind in (KEEPALIVE, CLOSE, NOTIFY):
            return kind, list(objects_in(body))
    except (words.BadNumber, struct.error, IndexError) as fault:
        raise Malformed from fault
    return kind, None


# ---- what is written


def obj(kind, variant, body, must=False):
    return struct.pack(">BBH", kind, variant << 4 | must << 1, len(body) + 4) + body


def message(kind, *objects):
    body = b"".join(objects)
    return struct.pack(">BBH", 0x20, kind, len(body) + 4) + body


def tlv(kind, value):
    return struct.pack(">HH", kind, len(value)) + value + bytes(-len(value) % 4)


def route(addresses):
    return obj(7, 1, b"".join(struct.pack(">BBIBB", 1, 8, address, 32, 0) for address in addresses))


def srp(number, removes=False):
    return obj(33, 1, struct.pack(">II", removes, number))


def lsp(plsp, flags, tlvs=b""):
    return obj(32, 1, struct.pack(">I", plsp << 12 | flags) + tlvs)


def attributes(asked, is_protected):
    return obj(9, 1, struct.pack(">IIIBBBB", *asked.colours, asked.setup, asked.hold, is_protected, 0))


def bandwidth(value):
    return obj(5, 1, struct.pack(">I", words.word(value)))


KEEPALIVE_MESSAGE = message(KEEPALIVE)


def open_message(keepalive=30, dead_timer=120, capabilities=(True, True)):
    known = b"" if capabilities is None else tlv(16, struct.pack(">I", capabilities[0] | capabilities[1] << 2))
    return message(OPEN, obj(1, 1, struct.pack(">BBBB", 0x20, keepalive, dead_timer, 0) + known))


def close(reason):
    return message(CLOSE, obj(15, 1, struct.pack(">HBB", 0, 0, reason)))


def error(kind, value, about=(NOTHING, 0)):
    named = {NOTHING: lambda n: b"", SRP: srp, RP: lambda n: obj(2, 1, struct.pack(">II", 0, n))}
    return message(ERROR, named[about[0]](about[1]), obj(13, 1, struct.pack(">BBBB", 0, 0, kind, value)))


def update(number, plsp, addresses, asked):
    return message(UPDATE, srp(number), lsp(plsp, 9), route(addresses), attributes(asked, asked.is_protected), bandwidth(asked.bandwidth))


def give_back(number, plsp):
    return message(UPDATE, srp(number), lsp(plsp, 8), route([]))


def initiate(number, name, addresses, asked):
    ends = obj(4, 1, struct.pack(">II", asked.source, asked.destination), must=True)
    head = srp(number), lsp(0, 9, tlv(17, name)), ends
    return message(INITIATE, *head, route(addresses), attributes(asked, False), bandwidth(asked.bandwidth))


def delete(number, plsp):
    return message(INITIATE, srp(number, True), lsp(plsp, 1))


def answer(request, addresses, metric, cost):
    computed = obj(6, 1, struct.pack(">HBBI", 0, 2, metric, words.word(cost)))
    return message(REPLY, obj(2, 1, struct.pack(">II", 0, request), must=True), route(addresses), computed)


def no_path(request, vector=None):
    why = b"" if vector is None else tlv(1, struct.pack(">I", vector))
    return message(REPLY, obj(2, 1, struct.pack(">II", 0, request), must=True), obj(3, 1, bytes(4) + why))
