"""Searches drawn at random on networks of 3 to 9 nodes that bear some LSPs: each answer is compared with all simple paths."""

from . import wire
from .events import Events
from .networks import draw_network
from .routers import Routers
from .script import Script, links_text


class Searches(Events):
    """One router reports LSPs, and paths are asked for by all three ways."""

    def __init__(self, draw, searches):
        super().__init__(draw, 0)
        nodes = draw.randint(3, 9)
        self.script = Script(draw_network(draw, nodes, draw.randint(nodes, 2 * nodes + 6), draw.choice((1, 1, 0.2))))
        self.state, self.sessions = self.script.state, self.script.sessions
        self.searches, self.peers = searches, [1, 2]
        self.routers = Routers(draw, self.script, 12)

    def lines(self):
        for peer in self.peers:
            yield f"up {peer}"
            yield f"msg {peer} {self.routers.marker().hex()}"
        while self.searches > 0:
            if 1 not in self.sessions:
                yield "up 1"
                yield f"msg 1 {self.routers.marker().hex()}"
            for _ in range(self.draw.randint(0, 3)):
                yield self.report_line(self.routers.report(1))
            better = self.better_lines() if self.chance(0.3) else None
            yield from better or [self.ask_line()]
            waiting = [ticket for ticket in self.state.tickets if not ticket.taken]
            if waiting:
                self.searches -= 1
                yield "take"
                own = better and self.own_way(waiting[0])
                yield f"commit {waiting[0].number} {links_text(own or self.draw_offer(waiting[0]))}"
            if waiting and self.chance(0.2):
                yield "book"
        yield "book"

    def report_line(self, report):
        return f"msg 1 {wire.message(wire.REPORT, report).hex()}"

    def better_lines(self):
        """An LSP is to be held at a better priority, and updated: what it has at a worse one isn't enough where others hold the rest."""
        known = [key[1] for key, record in self.state.records.items() if key[0] == 1 and not self.state.is_pending(*key)]
        plsp = self.draw.choice(known) if known else None
        report = known and self.routers.better_report(1, plsp)
        return [self.report_line(report), f"update 1 {plsp}"] if report else None

    def ask_line(self):
        chance = self.draw.random()
        if chance < 0.5:
            return f"msg 1 {wire.message(wire.REQUEST, self.routers.request(1)).hex()}"
        return self.update_line() if chance < 0.8 else self.initiate_line()
