#!/usr/bin/env python3
# A small router (a PCC) at A of the diamond: it reports an LSP of 750,000 bytes per second by B, and does what it is asked. Run it
# while `pced serve` runs (README.md), and look at its line for each message that it sends or hears, after `pced tell control` with
# `update 127.0.1.1 1`, with `initiate 127.0.1.1 t1 10.0.0.1 10.0.0.4 500000 7 0`, and with `delete 127.0.1.1 2`.
import argparse
import itertools
import select
import socket
import struct
import time
from typing import NamedTuple

# types of messages, classes of objects, and TLVs and flags of the LSP object (RFC 5440, 8231, 8281)
OPEN, KEEPALIVE, PCERR, CLOSE, PCRPT, PCUPD, PCINITIATE = 1, 2, 6, 7, 10, 11, 12
TYPES = {1: "Open", 2: "Keepalive", 6: "PCErr", 7: "Close", 10: "PCRpt", 11: "PCUpd", 12: "PCInitiate"}
END_POINTS, BANDWIDTH, ERO, LSPA, PCEP_ERROR, CLOSE_OBJECT, LSP, SRP = 4, 5, 7, 9, 13, 15, 32, 33
NAME, IDENTIFIERS = 17, 18
DELEGATED, SYNC, REMOVED, ADMIN, UP, CREATED = 0x01, 0x02, 0x04, 0x08, 0x10, 0x80


def pack_object(kind, body):
    return struct.pack(">BBH", kind, 0x10, 4 + len(body)) + body


def pack_tlv(kind, value):
    return struct.pack(">HH", kind, len(value)) + value + bytes(-len(value) % 4)


def objects_of(body):
    """The class and the body of each object of a message."""
    while body:
        kind, _, length = struct.unpack(">BBH", body[:4])
        yield kind, body[4:length]
        body = body[length:]


def parts_of(lsp):
    """The PLSP-ID, the flags and the TLVs of an LSP object."""
    number, rest, tlvs = int.from_bytes(lsp[:4], "big"), lsp[4:], {}
    while rest:
        kind, length = struct.unpack(">HH", rest[:4])
        tlvs[kind], rest = rest[4:4 + length], rest[4 + length + -length % 4:]
    return number >> 12, number & 0xFFF, tlvs


def lsp_in_words(body):
    """What an LSP object says; in reports it has a name and identifiers."""
    plsp_id, flags, tlvs = parts_of(body)
    if plsp_id == 0:
        return f"new LSP {tlvs[NAME].decode()}" if NAME in tlvs else "end of synchronization"
    delegated = "delegated" if flags & DELEGATED else "not delegated"
    if IDENTIFIERS not in tlvs:
        return f"PLSP-ID {plsp_id} {delegated}"
    lsp_id, state = int.from_bytes(tlvs[IDENTIFIERS][4:6], "big"), "removed" if flags & REMOVED else "up"
    return f"PLSP-ID {plsp_id} {tlvs[NAME].decode()} {delegated}, LSP-ID {lsp_id} {state}"


IN_WORDS = {
    SRP: lambda body: f"SRP-ID {int.from_bytes(body[4:8], 'big')}{' to remove' if body[3] & 1 else ''}",
    LSP: lsp_in_words,
    ERO: lambda body: "hops " + " ".join(socket.inet_ntoa(body[hop + 2:hop + 6]) for hop in range(0, len(body), 8)),
    LSPA: lambda body: f"setup {body[12]} hold {body[13]}",
    BANDWIDTH: lambda body: f"{struct.unpack('>f', body)[0]:.0f} bytes per second",
    PCEP_ERROR: lambda body: f"type {body[2]} value {body[3]}",
    CLOSE_OBJECT: lambda body: f"reason {body[3]}",
}


def say(verb, kind, body):
    words = ", ".join(IN_WORDS[each](content) for each, content in objects_of(body) if content and each in IN_WORDS)
    print(f"{verb} {TYPES.get(kind, kind)} {words}".rstrip(), flush=True)


class Path(NamedTuple):
    """A path of an LSP, as the router has it."""
    plsp_id: int
    name: bytes
    ends: bytes
    bodies: dict  # those of its ERO, LSPA and BANDWIDTH
    flags: int = ADMIN | DELEGATED
    lsp_id: int = 1


def path_by_b():
    """An LSP of 750,000 bytes per second from A by B to D."""
    hops = b"".join(bytes([1, 8, 10, link, 0, 2, 32, 0]) for link in (1, 2))
    bodies = {ERO: hops, LSPA: bytes([0] * 12 + [7, 0, 0, 0]), BANDWIDTH: struct.pack(">f", 750_000)}
    return Path(1, b"a-to-d", bytes([10, 0, 0, 1, 10, 0, 0, 4]), bodies)


class Router:
    """A router with these paths, numbered from 1. `say` is told of each message that it sends or hears."""

    def __init__(self, address, server, paths=(), say=say):
        self.paths, self.say = {path.plsp_id: path for path in paths}, say
        self.free_plsp_ids = itertools.count(1 + len(paths))
        self.socket = socket.create_connection(server, source_address=(address, 0))

    def send(self, kind, body=b""):
        self.say("sends", kind, body)
        self.socket.sendall(struct.pack(">BBH", 0x20, kind, 4 + len(body)) + body)
        self.sent = time.monotonic()

    def report(self, path, state, srp_id=0):
        """Reports a path (RFC 8231 section 6.1)."""
        identifiers = path.ends[:4] + struct.pack(">HH", path.lsp_id, path.plsp_id) + path.ends
        tlvs = pack_tlv(IDENTIFIERS, identifiers) + pack_tlv(NAME, path.name)
        bodies = {SRP: struct.pack(">II", bool(state & REMOVED), srp_id)} if srp_id else {}
        bodies |= {LSP: struct.pack(">I", path.plsp_id << 12 | path.flags | state) + tlvs}
        bodies |= {ERO: b""} if state & REMOVED else path.bodies
        self.send(PCRPT, b"".join(pack_object(kind, body) for kind, body in bodies.items()))

    def hear(self):
        """The type and the body of the next message. A Keepalive goes out when nothing else did for 30 s."""
        while not select.select([self.socket], [], [], max(0, self.sent + 30 - time.monotonic()))[0]:
            self.send(KEEPALIVE)
        head = self.socket.recv(4, socket.MSG_WAITALL)
        if len(head) < 4:
            raise SystemExit("the server has closed")
        body = self.socket.recv(int.from_bytes(head[2:], "big") - 4, socket.MSG_WAITALL)
        self.say("hears", head[1], body)
        return head[1], body

    def obey(self, asked, is_initiation):
        """Does what is asked, and reports it (RFC 8231 section 6.2, RFC 8281 sections 5.3 and 5.4)."""
        srp_flags, srp_id = struct.unpack(">II", asked[SRP][:8])
        plsp_id, flags, tlvs = parts_of(asked[LSP])
        bodies = {kind: asked[kind] for kind in (ERO, LSPA, BANDWIDTH) if kind in asked}
        old = self.paths.get(plsp_id)
        if is_initiation and not srp_flags & 1:
            new = Path(next(self.free_plsp_ids), tlvs[NAME], asked[END_POINTS], bodies, ADMIN | DELEGATED | CREATED)
        elif old is None:
            return self.send(PCERR, pack_object(SRP, asked[SRP]) + pack_object(PCEP_ERROR, bytes([0, 0, 19, 3])))
        elif is_initiation:
            del self.paths[plsp_id]
            return self.report(old, REMOVED, srp_id)
        elif flags & DELEGATED:
            new = old._replace(bodies=old.bodies | bodies, lsp_id=old.lsp_id % 0xFFFF + 1)
        else:  # the server returns the delegation
            new = old._replace(flags=old.flags & ~DELEGATED)
        self.paths[new.plsp_id] = new
        self.report(new, UP, srp_id)
        if old and old.lsp_id != new.lsp_id:  # make-before-break (RFC 3209 section 2.5): the old path goes after the new one is up
            self.report(old, REMOVED)

    def run(self):
        self.send(OPEN, bytes.fromhex("01100010 201e7800 00100004 00000005"))  # STATEFUL-PCE-CAPABILITY: update and initiation
        kind, is_up = OPEN, False
        while kind not in (PCERR, CLOSE):
            kind, body = self.hear()
            if kind == OPEN:
                self.send(KEEPALIVE)
            elif kind == KEEPALIVE and not is_up:
                # all that stands, and the end of that (RFC 8231 section 5.6)
                for path in self.paths.values():
                    self.report(path, UP | SYNC)
                self.send(PCRPT, pack_object(LSP, bytes(4) + pack_tlv(IDENTIFIERS, bytes(16))) + pack_object(ERO, b""))
                is_up = True
            elif kind in (PCUPD, PCINITIATE):
                self.obey(dict(objects_of(body)), kind == PCINITIATE)


if __name__ == "__main__":
    words = argparse.ArgumentParser(description="A small router at A of examples/diamond.toml.")
    words.add_argument("--from", dest="address", metavar="ADDRESS", default="127.0.1.1", help="the router's address")
    words.add_argument("--to", metavar="ADDR:PORT", default="127.0.0.1:4189", help="where the server listens")
    words.add_argument("--bare", action="store_true", help="begin without an LSP")
    chosen = words.parse_args()
    host, _, port = chosen.to.rpartition(":")
    if not port.isdecimal():
        raise SystemExit(f"--to takes ADDR:PORT, and not {chosen.to}")
    try:
        Router(chosen.address, (host, int(port)), [] if chosen.bare else [path_by_b()]).run()
    except ConnectionRefusedError:
        raise SystemExit(f"no server listens at {chosen.to}: start `pced serve --listen {chosen.to} ..` first")
    except OSError as fault:
        raise SystemExit(f"cannot speak from {chosen.address} with a server at {chosen.to}: {fault.strerror}")
    except KeyboardInterrupt:
        raise SystemExit("interrupted")
