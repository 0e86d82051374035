"""What routers say, drawn at random: reports, requests, refusals, and messages that break a rule."""

import struct

from . import wire, words

AMOUNTS = (0, 1, 20_000, 50_000, 50_000, 100_000, 100_000, 200_000, 250_000, 300_000, 123_457, 400_000, 600_000, 1_000_000)
# zero below zero, the least above zero, a half, more than half a million by a fraction, the greatest
ODD_WORDS = (0x80000000, 1, 0x3F000000, 0x48F42401, 0x577FFFFF)
ODD_HOPS = (
    bytes((3, 8, 0, 1, 0, 0, 0, 16)),
    bytes((32, 4, 0, 7)),
    bytes((1, 8, 10, 0, 0, 1, 24, 0)),
    bytes((1, 8, 9, 9, 9, 9, 32, 0)),
)
BREAKS_A_RULE = (
    "20630004",
    "20040004",
    "20010014011000102015780000100004",
    "20030003",
    "400a0004",
    "20020004",
    "20050010 0c10000c 00000101 00110000",
    "200a0004",
    "200a000c 20100008 00001018",
    "200a0010 20100008 00001018 07100004",
    "200a0020 2010001c 00001018 00120010 0a000001 00010001 0a000001 0a000002",
    "200a0010 2110000c 00000000 00000009",
    "200a000c 07100004 20100006",
    "20030004",
    "20030010 0212000c 00000000 00000007",
    "2003001c 0210000c 00000000 00000007 0412000c 0a000001 0a000002",
    "2003001c 0212000c 00000000 00000007 0410000c 0a000001 0a000002",
    "20030024 0212000c 00000000 00000007 63120008 00000000 0412000c 0a000001 0a000002",
    "20060010 2110000c 00000000 00000000",
)
SYNCHRONIZED = bytes.fromhex("2010001c 00000000 00120010 00000000 00000000 00000000 00000000 07100004")


class Routers:
    def __init__(self, draw, script, most_plsp):
        self.draw, self.network, self.state = draw, script.network, script.state
        self.most_plsp = most_plsp

    def chance(self, share):
        return self.draw.random() < share

    # ---- parts

    def node_address(self, node):
        """One of the addresses that the node owns."""
        if self.chance(0.8):
            return self.network.nodes[node][1]
        return self.draw.choice([number for number, owner in self.network.owners.items() if owner == node])

    def ends(self):
        """Two nodes, mostly such that a path leads from one to the other."""
        for _ in range(4):
            start, end = self.draw.sample(range(len(self.network.nodes)), 2)
            if self.network.simple_paths(start, end):
                break
        return start, end

    def hops(self, way):
        """Subobjects of a route over the links: by their far ends, by both ends, of one link or of two, or by the nodes, and some that say nothing."""
        for number in way:
            link, kind = self.network.links[number], self.draw.random()
            if self.chance(0.04):
                yield self.draw.choice(ODD_HOPS)
            if kind < 0.1:
                yield from (self.host(link.local), self.host(self.network.nodes[link.end][1]))
            elif kind < 0.2:
                twins = [twin for twin in self.network.links if (twin.start, twin.end) == (link.start, link.end)]
                yield from (self.host(self.draw.choice(twins).local), self.host(link.remote))
            else:
                yield self.host(link.remote if kind < 0.7 else self.network.nodes[link.end][1])

    def host(self, number):
        return struct.pack(">BBIBB", 0x81 if self.chance(0.05) else 1, 8, number, 32, 0)

    def way(self, start, end):
        ways = self.network.simple_paths(start, end)
        if ways and self.chance(0.93):
            return self.draw.choice(ways)
        return [self.draw.randrange(len(self.network.links)) for _ in range(self.draw.randint(1, 4))]

    def word(self):
        return self.draw.choice(ODD_WORDS) if self.chance(0.02) else words.word(self.draw.choice(AMOUNTS))

    def bandwidths(self, item=b""):
        """Mostly one, of either type; of several the greatest counts."""
        for _ in range(self.draw.choice((0, 1, 1, 1, 1, 1, 1, 1, 1, 2))):
            item += wire.obj(5, 2 if self.chance(0.1) else 1, struct.pack(">I", self.word()))
        return item

    def attributes(self):
        colours = [self.draw.randrange(8) if self.chance(0.06) else 0 for _ in range(3)]
        setup = self.draw.randint(0, 7) if self.chance(0.97) else 200
        hold = self.draw.randint(0, min(setup, 7)) if self.chance(0.8) else self.draw.randint(0, 9)
        return wire.obj(9, 1, struct.pack(">IIIBBBB", *colours, setup, hold, self.chance(0.2), 0))

    # ---- reports

    def reports(self, peer):
        """A message of one report or several."""
        return wire.message(wire.REPORT, *(self.report(peer) for _ in range(self.draw.choice((1, 1, 1, 2, 3)))))

    def report(self, peer):
        grants = [path for path in self.state.paths.get(peer, ()) if path.srp is not None]
        removals = [key[1] for key, record in self.state.records.items() if key[0] == peer and record.removing]
        if grants and self.chance(0.5):
            return self.report_of_grant(peer, self.draw.choice(grants))
        if removals and self.chance(0.5):
            return self.removal(peer, self.draw.choice(removals))
        plsp = self.plsp(peer)
        if self.chance(0.13):
            return self.removal(peer, plsp)
        return self.chance(0.08) and self.better_report(peer, plsp) or self.plain_report(peer, plsp)

    def plsp(self, peer):
        if self.chance(0.01):
            return self.draw.choice((0, 0xFFFFF, 0xFFFFE))
        known = [key[1] for key in self.state.records if key[0] == peer]
        return self.draw.choice(known) if known and self.chance(0.5) else self.draw.randint(1, self.most_plsp)

    def identifiers(self, ends):
        """Few tunnels, so that LSPs share them, and few LSP IDs, so that paths take each other's places."""
        start, end = (self.node_address(node) for node in ends)
        if self.chance(0.02):
            end = 0x09090909
        return start, self.draw.randint(0, 3), self.draw.randint(1, 4), self.draw.randint(1, 2), end

    def known_identifiers(self, peer, plsp):
        """Another LSP of the tunnel that is known, for make-before-break."""
        record = self.state.records.get((peer, plsp))
        if record is None or record.tunnel[0] != "signalled" or record.asked.source is None:
            return None
        _, _, endpoint, tunnel, extended = record.tunnel
        return record.asked.source, self.draw.randint(0, 3), tunnel, extended, endpoint

    def lsp(self, plsp, flags, identifiers, name=None):
        sender, lsp, tunnel, extended, endpoint = identifiers
        named = b"" if name is None else wire.tlv(17, name)
        return wire.lsp(plsp, flags, named + wire.tlv(18, struct.pack(">IHHII", sender, lsp, tunnel, extended, endpoint)))

    def srp(self, peer):
        """Now and then a number: the next, one that was used, or none."""
        if self.chance(0.85):
            return b""
        last = self.state.peers[peer].last_srp if peer in self.state.peers else 0
        return wire.srp(self.draw.choice((0, 1, last, last + 1)))

    def plain_report(self, peer, plsp):
        ends = self.ends()
        identifiers = self.identifiers(ends)
        if self.chance(0.35):
            identifiers = self.known_identifiers(peer, plsp) or identifiers
            ends = tuple(self.network.owners.get(identifiers[place], 0) for place in (0, 4))
        if self.chance(0.1):
            identifiers = (0, 0, 0, 0, 0)
        operational = self.draw.choice((0, 1, 1, 1, 1, 2, 3, 4, 6))
        flags = 8 | operational << 4 | self.chance(0.85) | self.chance(0.15) << 1 | self.chance(0.08) << 7
        name = self.draw.choice((b"t1", b"t2", b"t3", b"")) if self.chance(0.2) else None
        ero = b"" if self.chance(0.4 if operational == 0 else 0.05) else b"".join(self.hops(self.way(*ends)))
        item = self.srp(peer) + self.lsp(plsp, flags, identifiers, name) + wire.obj(7, 1, ero)
        if self.chance(0.2):
            item += wire.obj(8, 1, b"".join(self.hops(self.way(*ends))))
        return item + self.bandwidths() + (self.attributes() if self.chance(0.7) else b"")

    def better_report(self, peer, plsp):
        """A path more of a tunnel, down, of the same bandwidth, which is to be held at a better priority than the one it has."""
        identifiers, record = self.known_identifiers(peer, plsp), self.state.records.get((peer, plsp))
        if identifiers is None or not record.asked.hold:
            return None
        hold, setup = self.draw.randrange(record.asked.hold), self.draw.randint(record.asked.hold, 7)
        item = self.lsp(plsp, 9, identifiers) + wire.route([]) + wire.bandwidth(record.asked.bandwidth)
        return item + wire.obj(9, 1, struct.pack(">IIIBBBB", 0, 0, 0, setup, hold, 0, 0))

    def removal(self, peer, plsp):
        paths = [path for path in self.state.paths_of(peer, plsp) if path.lsp is not None]
        identifiers = [0] * 5
        if paths and self.chance(0.6):
            identifiers = [1, self.draw.choice(paths).lsp, 1, 1, 1]
        elif self.chance(0.5):
            identifiers = [1, self.draw.randint(0, 4), 1, 1, 1]
        record = self.state.records.get((peer, plsp))
        named = wire.srp(record.removing) if record and record.removing and self.chance(0.8) else self.srp(peer)
        return named + self.lsp(plsp, 4 | self.chance(0.3), identifiers) + (wire.route([]) if self.chance(0.5) else b"")

    def report_of_grant(self, peer, grant):
        """The peer carries it out, or doesn't: an unbound grant is bound, a bound one is moved or settled."""
        plsp = grant.plsp or self.draw.randint(1, self.most_plsp)
        ends = self.ends()
        if grant.links:
            ends = self.network.links[grant.links[0]].start, self.network.links[grant.links[-1]].end
        identifiers = self.known_identifiers(peer, plsp) if grant.plsp and self.chance(0.7) else None
        named = self.state.name_of(peer, grant.srp)
        name = named[2] if named and self.chance(0.8) else None
        if self.chance(0.12):
            zero = self.chance(0.3)
            flags = 4 | self.draw.choice((0, 1, 3, 4, 4)) << 4
            gone = self.lsp(plsp, flags, [0] * 5 if zero else identifiers or self.identifiers(ends), name)
            return wire.srp(grant.srp) + gone
        operational = self.draw.choice((0, 1, 1, 1, 2, 3, 4, 4, 4))
        flags = 8 | operational << 4 | self.chance(0.9) | (not grant.plsp and self.chance(0.85)) << 7
        item = (wire.srp(grant.srp) if self.chance(0.8) else b"") + self.lsp(plsp, flags, identifiers or self.identifiers(ends), name)
        routeless = operational == 0 and self.chance(0.5)
        item += wire.obj(7, 1, b"" if routeless else b"".join(self.hops(grant.links)))
        if self.chance(0.7):
            return item + wire.bandwidth(grant.bandwidth) + wire.obj(9, 1, struct.pack(">IIIBBBB", 0, 0, 0, 7, grant.hold, 0, 0))
        return item + self.bandwidths() + self.attributes()

    # ---- other messages

    def opening(self):
        capabilities = self.draw.choice(((True, True),) * 8 + ((True, False), (False, True), (False, False), None))
        return wire.open_message(self.draw.choice((0, 30)), self.draw.choice((0, 0, 40, 120)), capabilities)

    def marker(self):
        return wire.message(wire.REPORT, SYNCHRONIZED)

    def metrics(self):
        item = b""
        if self.chance(0.5):
            item += wire.obj(6, 1, struct.pack(">HBBI", 0, 0, self.draw.choice((1, 2, 3, 3, 4)), 0))
        for _ in range(self.draw.choice((0, 0, 0, 0, 1, 2))):
            metric = self.draw.choice((1, 2, 3, 3))
            most = self.draw.randint(1, 5) if metric == 3 else self.draw.randint(3, 40)
            word = words.word(most) + (1 if self.chance(0.1) else 0)
            item += wire.obj(6, 1, struct.pack(">HBBI", 0, 1, metric, word))
        return item

    def request(self, peer, ends=None):
        start, end = (self.node_address(node) for node in ends or self.ends())
        if self.chance(0.06):
            start, end = self.draw.choice(((start, start), (start, 7), (7, end), (7, 8)))
        item = wire.obj(2, 1, struct.pack(">II", 0, self.draw.randint(1, 999)), must=True)
        item += wire.obj(4, 1, struct.pack(">II", start, end), must=True)
        if self.chance(0.4):
            item += wire.obj(32, 1, struct.pack(">I", self.plsp(peer) << 12))
        item += self.attributes() if self.chance(0.6) else b""
        item += wire.obj(5, 1, struct.pack(">I", self.word())) if self.chance(0.8) else b""
        return item + self.metrics()

    def requests(self, peer):
        return wire.message(wire.REQUEST, *(self.request(peer) for _ in range(self.draw.choice((1, 1, 1, 2, 4)))))

    def refusal(self, peer):
        """A PCErr for numbers that something has, and for others."""
        grants = [path.srp for path in self.state.paths.get(peer, ()) if path.srp is not None]
        removals = [record.removing for key, record in self.state.records.items() if key[0] == peer and record.removing]
        numbers = [*grants, *removals, self.draw.randint(0, 5)]
        named = [wire.srp(self.draw.choice(numbers)) for _ in range(self.draw.choice((1, 1, 2)))]
        return wire.message(wire.ERROR, *named, wire.obj(13, 1, struct.pack(">BBBB", 0, 0, 24, 1)))

    def odd(self):
        return bytes.fromhex(self.draw.choice(BREAKS_A_RULE))
