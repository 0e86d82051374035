"""Runs that meet the limits: 64 peers, 1,024 tickets, 16,384 paths, a path of 64 links, and one more of each."""

import struct

from . import wire
from .events import Events
from .facts import MOST_PATHS, MOST_PEERS
from .network import Link, Network, address, dotted
from .networks import draw_network
from .routers import Routers
from .script import Script
from .sums import MOST_LINKS

LSPS = MOST_PATHS // MOST_PEERS


class Limits(Events):
    def __init__(self, draw, _):
        super().__init__(draw, 0)
        self.script = Script(draw_network(draw, 8, 20, 100))
        self.state, self.sessions = self.script.state, self.script.sessions
        self.peers = [1 + number for number in range(MOST_PEERS)]
        self.routers = Routers(draw, self.script, LSPS)

    def lines(self):
        for peer in [*self.peers, MOST_PEERS + 1]:
            yield f"up {peer}"
            if peer in self.sessions:
                yield f"msg {peer} {self.routers.marker().hex()}"
        for peer in self.peers:
            yield self.reports_line(peer, range(1, LSPS + 1))
        yield from self.one_more()
        yield from self.flood()
        yield from self.life_of_one_peer()
        yield from ("book", "history")

    def reports_line(self, peer, plsps):
        return f"msg {peer} {wire.message(wire.REPORT, *(self.small_report(plsp) for plsp in plsps)).hex()}"

    def small_report(self, plsp):
        """A delegated LSP that is up, over a path of few links."""
        ends = self.routers.ends()
        start, end = (self.script.network.nodes[node][1] for node in ends)
        lsp = self.routers.lsp(plsp, 0x19, (start, 1, plsp % 97, 1, end))
        ero = wire.obj(7, 1, b"".join(self.routers.hops(self.routers.way(*ends))))
        return lsp + ero + wire.obj(5, 1, struct.pack(">I", self.routers.word()))

    def one_more(self):
        """A path more is refused, one in a known one's place is booked, and a grant is given up until a path has gone."""
        first, last = self.peers[0], self.peers[-1]
        yield "book"
        yield self.reports_line(first, [LSPS + 1, 1, LSPS + 2])
        for plsp in (2, 3, 4):
            yield f"update {first} {plsp}"
            yield "take"
            number = self.state.last_ticket
            found = self.script.answers.get(number, {None})
            way = min(found, key=str) if found != {None} else ()
            yield f"commit {number} {','.join(map(str, way)) or 'none'}"
            gone = self.routers.lsp(plsp, 4, (1, 1, 1, 1, 1))
            yield f"msg {last} {wire.message(wire.REPORT, gone, wire.route([])).hex()}"
        yield self.reports_line(first, [LSPS + 1, LSPS + 2])
        yield "book"

    def life_of_one_peer(self):
        """Its paths get stale, and go with the end of synchronization; those of another go with it."""
        second, third = self.peers[1:3]
        for line in (f"end {second}", f"up {second}", self.reports_line(second, [3, 4]), "book"):
            yield line
        yield f"msg {second} {self.routers.marker().hex()}"
        for line in ("book", f"end {third}", f"expire {third}", f"up {MOST_PEERS + 1}", "book"):
            yield line
        yield from self.nothing_is_kept(MOST_PEERS + 1)

    def nothing_is_kept(self, peer):
        """Of a peer that was forgotten no name and no ends of an LSP are known."""
        start, end = (node[1] for node in self.script.network.nodes[:2])
        named = self.routers.lsp(5, 0x19, (start, 1, 1, 1, end), b"t9") + wire.route([end])
        nameless = self.routers.lsp(5, 0x19, (0, 0, 0, 0, 0)) + wire.route([end])
        yield f"msg {peer} {wire.message(wire.REPORT, named).hex()}"
        for line in (f"end {peer}", f"expire {peer}", f"up {peer}"):
            yield line
        yield f"msg {peer} {wire.message(wire.REPORT, nameless).hex()}"
        yield f"msg {peer} {self.routers.marker().hex()}"
        for line in (f"update {peer} 5", f"initiate {peer} t9 {dotted(start)} {dotted(end)} 1 7 0"):
            yield line


class Chain(Events):
    """A row of nodes, in which a path may lead from the first to the last but one."""

    def __init__(self, draw, _):
        super().__init__(draw, 0)
        nodes = [(f"n{node}", address("10.0.0.1") + node) for node in range(MOST_LINKS + 2)]
        near = [address("11.0.0.1") + 2 * node for node in range(MOST_LINKS + 1)]
        links = [Link(node, node + 1, local, local + 1, 1, 1, 0, 1_000_000) for node, local in enumerate(near)]
        self.script = Script(Network(nodes, links))
        self.routers = Routers(draw, self.script, 2)

    def lines(self):
        yield "up 1"
        yield f"msg 1 {self.routers.marker().hex()}"
        nodes = self.script.network.nodes
        for number, links in enumerate((MOST_LINKS + 1, MOST_LINKS, MOST_LINKS + 1), 1):
            yield f"initiate 1 t{number} {dotted(nodes[0][1])} {dotted(nodes[links][1])} 300000 7 0"
            yield "take"
            yield f"commit {number} {','.join(map(str, range(links)))}"
        asked = wire.obj(2, 1, bytes(8), must=True) + wire.obj(4, 1, struct.pack(">II", nodes[1][1], nodes[-1][1]), must=True)
        yield f"msg 1 {wire.message(wire.REQUEST, asked).hex()}"
        for line in ("take", "take", f"commit 4 {','.join(map(str, range(1, MOST_LINKS + 1)))}", "book", "history"):
            yield line
