"""The one spelling of a PCRpt of one report and of a PCReq of one request, as a journal has them."""

import struct

from . import wire, words

HOST, HOST_SIZE, HOST_PREFIX = 1, 8, 32
NAME, IDENTIFIERS, ERROR_CODE, RSVP_ERROR = 17, 18, 20, 21
TE, HOPS, LEAST = 2, 3, (1, 3)
# of a LSP's word: the PLSP-ID, and the flags C, A, R, S and D
LSP_BITS = 0xFFFFF08F
RSVP_ERROR_FORM = bytes.fromhex("000c0601")


def object_of(kind, variant, body, must=False):
    return wire.obj(kind, variant, body, must)


# ---- one report


def reports_of(body):
    """The objects of each report: an SRP begins one, and so does an LSP that isn't right behind an SRP."""
    reports, last = [], None
    for kind, variant, _, content in wire.objects_in(body):
        if kind == 33 or kind == 32 and last != 33:
            reports.append([])
        if reports:
            reports[-1].append((kind, variant, content))
        last = kind
    return reports


def report_bytes(objects):
    """The PCRpt of a report of these objects. What is said twice counts once, and what says nothing is left out."""
    first = {}
    for kind, variant, body in objects:
        first.setdefault(kind, body)
    number = struct.unpack_from(">I", first[33], 4)[0] if 33 in first else 0
    lsp = lsp_body(first[32])
    removed = bool(struct.unpack_from(">I", lsp)[0] & 4)
    parts = [wire.srp(number)] if number else []
    parts.append(object_of(32, 1, lsp))
    if first.get(7) or not removed:
        parts.append(object_of(7, 1, hops_body(first[7], 0x7F)))
    if 8 in first:
        parts.append(object_of(8, 1, hops_body(first[8], 0xFF)))
    return wire.message(wire.REPORT, *parts, *wishes(objects, first, 1))


def lsp_body(body):
    """A number of operation above 4 counts as 1, and TLVs stand in one order, each once."""
    (word,) = struct.unpack_from(">I", body)
    operation = word >> 4 & 7
    tlvs = wire.tlvs_in(body[4:])
    kept = [wire.tlv(NAME, tlvs[NAME])] if NAME in tlvs else []
    kept += [wire.tlv(kind, tlvs[kind]) for kind in (IDENTIFIERS, ERROR_CODE) if kind in tlvs]
    if tlvs.get(RSVP_ERROR, b"")[:4] == RSVP_ERROR_FORM:
        kept.append(wire.tlv(RSVP_ERROR, tlvs[RSVP_ERROR]))
    return struct.pack(">I", word & LSP_BITS | (operation if operation <= 4 else 1) << 4) + b"".join(kept)


def hops_body(body, kinds):
    """A host has no flags behind its prefix length."""
    hops, place = b"", 0
    while place < len(body):
        kind, size = body[place], body[place + 1]
        hop = body[place : place + size]
        is_host = kind & kinds == HOST and size == HOST_SIZE and hop[6] == HOST_PREFIX
        hops += hop[:7] + b"\0" if is_host else hop
        place += size
    return hops


def wishes(objects, first, flags):
    """LSPA and BANDWIDTH, each where it says something."""
    parts = []
    if 9 in first:
        *colours, setup, hold, given = struct.unpack_from(">IIIBBB", first[9])
        setup, hold, given = min(setup, 7), min(setup, hold, 7), given & flags
        if (*colours, setup, hold, given) != (0, 0, 0, 7, 7, 0):
            parts.append(object_of(9, 1, struct.pack(">IIIBBBB", *colours, setup, hold, given, 0)))
    asked = [words.bandwidth(struct.unpack(">I", body)[0]) for kind, _, body in objects if kind == 5]
    if asked and max(asked):
        parts.append(wire.bandwidth(max(asked)))
    return parts


# ---- one request


def request_bytes(request):
    """The PCReq of this request."""
    ends = object_of(4, 1, struct.pack(">II", request.source, request.destination), True)
    parts = [object_of(2, 1, struct.pack(">II", 0, request.number), True), ends]
    if request.plsp is not None:
        parts.append(wire.lsp(request.plsp, 0))
    asked = (*request.colours, request.setup, request.hold)
    if asked != (0, 0, 0, 7, 7):
        parts.append(object_of(9, 1, struct.pack(">IIIBBBB", *asked, 0, 0)))
    if request.bandwidth:
        parts.append(wire.bandwidth(request.bandwidth))
    if request.minimise in LEAST:
        parts.append(metric(0, request.minimise, 0))
    parts += [metric(1, kind, request.bounds[kind]) for kind in (1, TE, HOPS) if kind in request.bounds]
    return wire.message(wire.REQUEST, *parts)


def metric(flags, kind, value):
    return object_of(6, 1, struct.pack(">HBBI", 0, flags, kind, words.word(value)))
