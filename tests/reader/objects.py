"""Objects of PCEP as bytes (RFC 5440 section 7, RFC 8231 section 7): each is read, or found to be broken or unknown."""
import struct
from dataclasses import dataclass
from typing import Any

from .numbers import bandwidth_of, bound_of

OPEN, RP, NO_PATH, END_POINTS, BANDWIDTH, METRIC, ERO, RRO, LSPA, IRO, SVEC, NOTIFICATION, PCEP_ERROR, LOAD_BALANCING, CLOSE = range(1, 16)
LSP, SRP = 32, 33
TYPES = {number: (1,) for number in (*range(1, 16), LSP, SRP)} | {BANDWIDTH: (1, 2)}

NO_PATH_VECTOR, STATEFUL_CAPABILITY, SYMBOLIC_NAME, LSP_IDENTIFIERS = 1, 16, 17, 18
# the TLVs that an object may have and that are looked at, and their lengths
TLVS = {
    OPEN: {STATEFUL_CAPABILITY: 4},
    NO_PATH: {NO_PATH_VECTOR: 4},
    LSP: {SYMBOLIC_NAME: None, LSP_IDENTIFIERS: 16},
}
# where the TLVs of an object begin in its body
BEFORE_TLVS = {OPEN: 4, RP: 8, NO_PATH: 4, LSPA: 16, NOTIFICATION: 4, PCEP_ERROR: 4, CLOSE: 4, LSP: 4, SRP: 8}
WHOLE_BODY = {END_POINTS: 8, BANDWIDTH: 4, METRIC: 8}


class Broken(Exception):
    """Bytes that are no object."""


@dataclass(slots=True)
class PcepObject:
    """An object: its class and type, whether it has to be processed (P), and what its body says."""

    kind: int
    sort: int
    p: bool
    is_known: bool
    says: Any = None
    tlvs: Any = None


def tlvs_of(kind, data):
    """The first TLV of each type that this object may have."""
    wanted, found, at = TLVS.get(kind, {}), {}, 0
    while at < len(data):
        if len(data) - at < 4:
            raise Broken
        number, length = struct.unpack_from(">HH", data, at)
        if at + 4 + (length + 3) // 4 * 4 > len(data):
            raise Broken
        if number in wanted:
            if wanted[number] not in (None, length):
                raise Broken
            found.setdefault(number, data[at + 4 : at + 4 + length])
        at += 4 + (length + 3) // 4 * 4
    return found


def hops_of(data, is_ero):
    """The hops: an address for a node or link end, nothing for any other subobject."""
    hops, at = [], 0
    while at < len(data):
        kind, length = data[at], data[at + 1]
        if length < 4 or length % 4 or at + length > len(data):
            raise Broken
        if (kind & 0x7F if is_ero else kind) == 1:
            if length != 8:
                raise Broken
            address, prefix = struct.unpack_from(">IB", data, at + 2)
            hops.append(address if prefix == 32 else None)
        else:
            hops.append(None)
        at += length
    return hops


def number_in(read, data, at):
    value = read(struct.unpack_from(">I", data, at)[0])
    if value is None:
        raise Broken
    return value


def says(kind, data):
    """What the body says, where this reader needs it."""
    if kind == OPEN:
        return data[2]
    if kind in (RP, SRP, END_POINTS):
        return struct.unpack_from(">II", data)
    if kind == BANDWIDTH:
        return number_in(bandwidth_of, data, 0)
    if kind == METRIC:
        return data[2] & 1 != 0, data[3], number_in(bound_of, data, 4)
    if kind in (ERO, RRO):
        return hops_of(data, kind == ERO)
    if kind == LSPA:
        return struct.unpack_from(">IIIBBB", data)
    if kind == LSP:
        return struct.unpack_from(">I", data)[0]
    return None


def pcep_object_at(data, at):
    """The object at this place and its length. One of an unknown class or type isn't looked into."""
    if len(data) - at < 4:
        raise Broken
    kind, second, length = struct.unpack_from(">BBH", data, at)
    if length < 4 or length % 4 or at + length > len(data):
        raise Broken
    pcep_object = PcepObject(kind, second >> 4, second & 2 != 0, second >> 4 in TYPES.get(kind, ()))
    if pcep_object.is_known:
        body = data[at + 4 : at + length]
        if len(body) < BEFORE_TLVS.get(kind, 0) or len(body) != WHOLE_BODY.get(kind, len(body)):
            raise Broken
        pcep_object.says = says(kind, body)
        if kind in BEFORE_TLVS:
            pcep_object.tlvs = tlvs_of(kind, body[BEFORE_TLVS[kind] :])
    return pcep_object, length


def pcep_objects_in(data):
    """The objects one after another; it raises `Broken` at the first that is none."""
    at = 0
    while at < len(data):
        pcep_object, length = pcep_object_at(data, at)
        yield pcep_object
        at += length
