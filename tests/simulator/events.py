"""Scripts drawn at random: sessions by bytes, an operator's lines, and offers that are good, stale or no paths at all."""

from . import wire
from .network import dotted
from .networks import draw_network
from .routers import AMOUNTS, Routers
from .script import Script, links_text
from .session import KEEP_WAIT, OPEN_WAIT

# how many peers there are, and how many PLSP-IDs each uses
CROWDS = ((2, 3), (4, 5), (4, 5), (10, 8), (30, 4), (68, 3))
BOOK_EVERY = 4


class Events:
    """Draws lines by what is known, and runs them on the plain state."""

    def __init__(self, draw, steps):
        self.draw, self.steps = draw, steps
        peers, plsps = draw.choice(CROWDS)
        self.script = Script(draw_network(draw, draw.randint(4, 8), draw.randint(10, 20), 1 + peers * plsps // 12))
        self.state, self.sessions = self.script.state, self.script.sessions
        self.peers = [draw.choice((1, 0x0A000000)) + number for number in range(peers)]
        self.routers = Routers(draw, self.script, plsps)
        self.rest = {}

    def chance(self, share):
        return self.draw.random() < share

    def lines(self):
        """The lines of a run. The next is drawn after the one before it was run."""
        for number in range(self.steps):
            yield self.draw_line()
            if number % BOOK_EVERY == 0:
                yield "book"
            if self.chance(0.001):
                yield from ("history", "roll")
        if self.chance(0.2):
            yield from self.flood()
        yield from ("book", "history")

    def draw_line(self):
        chance = self.draw.random()
        for share, line in (
            (0.5, self.peers_line),
            (0.12, self.initiate_line),
            (0.1, self.update_line),
            (0.12, lambda: "take"),
            (0.12, self.commit_line),
            (0.015, lambda: self.lsp_line("return", lambda record: record.delegated)),
            (0.015, lambda: self.lsp_line("delete", lambda record: record.created)),
        ):
            chance -= share
            if chance < 0:
                return line()
        return self.tick_line()

    # ---- routers

    def peers_line(self):
        peer = self.draw.choice(self.peers)
        session, known = self.sessions.get(peer), self.state.peers.get(peer)
        if session is None:
            return self.line_without_session(peer, known)
        if self.rest.get(peer) and self.rest[peer][0] is session:
            return f"msg {peer} {self.rest.pop(peer)[1].hex()}"
        if self.chance(0.05 if self.is_awaited(peer) else 0.01):
            return f"end {peer}"
        return self.message_line(peer, session, self.draw_message(peer, session, known))

    def is_awaited(self, peer):
        """The peer has a ticket or a removal that its session's end leaves behind."""
        removing = any(key[0] == peer and record.removing for key, record in self.state.records.items())
        return removing or any(ticket.peer == peer for ticket in self.state.tickets)

    def line_without_session(self, peer, known):
        chance = self.draw.random()
        if known and not known.up and chance < 0.25:
            return f"expire {peer}"
        if known and known.up or chance < 0.05:
            by_report = f"report {peer} {self.routers.reports(peer).hex()}"
            return by_report if chance < 0.9 else f"open {peer}"
        if chance < 0.1:
            return f"expire {dotted(peer)}"
        return f"up {dotted(peer)}" if chance < 0.8 else f"open {peer}"

    def message_line(self, peer, session, message):
        """A message, now and then two at once, or cut in two."""
        if self.chance(0.05):
            message += self.draw_message(peer, session, self.state.peers.get(peer))
        if self.chance(0.05) and len(message) > 1:
            cut = self.draw.randrange(1, len(message))
            self.rest[peer] = session, message[cut:]
            message = message[:cut]
        return f"msg {peer} {message.hex()}"

    def draw_message(self, peer, session, known):
        routers, chance = self.routers, self.draw.random()
        if session.state == OPEN_WAIT and chance < 0.93:
            return routers.opening() + (wire.KEEPALIVE_MESSAGE if chance < 0.5 else b"")
        if session.state == KEEP_WAIT and chance < 0.93:
            return wire.KEEPALIVE_MESSAGE
        if known and known.syncing and chance < 0.5:
            return routers.marker()
        for share, message in (
            (0.8, lambda: routers.reports(peer)),
            (0.1, lambda: routers.requests(peer)),
            (0.06, lambda: routers.refusal(peer)),
            (0.005, lambda: wire.close(1)),
            (0.02, routers.odd),
        ):
            chance -= share
            if chance < 0:
                return message()
        return routers.marker()

    def flood(self):
        """More requests than may wait."""
        up = [peer for peer, session in self.sessions.items() if session.joined and not session.waiting]
        for peer in up[:1]:
            for _ in range(4):
                requests = [self.routers.request(peer, self.routers.ends()) for _ in range(300)]
                yield f"msg {peer} {wire.message(wire.REQUEST, *requests).hex()}"
            yield from ("take", "take")

    def tick_line(self):
        """Mostly a little later, at times much later, or a smaller moment."""
        now, chance = self.script.moment, self.draw.random()
        if chance < 0.1:
            return f"tick {self.draw.randint(0, now)}"
        return f"tick {now + self.draw.randint(0, 2_000 if chance < 0.6 else 40_000)}"

    # ---- an operator

    def initiate_line(self):
        peer, name = self.draw.choice(self.peers), self.draw.choice((*(f"t{number}" for number in range(1, 16)), "x" * 64))
        start, end = (dotted(self.routers.node_address(node)) for node in self.routers.ends())
        if self.chance(0.04):
            start, end = self.draw.choice(((start, start), ("9.9.9.9", end), (start, "9.9.9.9"), ("9.9.9.9", "9.9.9.8")))
        setup = self.draw.randint(0, 7)
        hold = self.draw.randint(0, setup) if self.chance(0.85) else self.draw.randint(0, 7)
        return f"initiate {peer} {name} {start} {end} {self.draw.choice(AMOUNTS)} {setup} {hold}"

    def update_line(self):
        return self.lsp_line("update", lambda record: record.delegated)

    def lsp_line(self, word, suits):
        known = [key for key, record in self.state.records.items() if suits(record)]
        if known and self.chance(0.8):
            peer, plsp = self.draw.choice(known)
            return f"{word} {peer} {plsp}"
        return f"{word} {self.draw.choice(self.peers)} {self.draw.randint(0, 9)}"

    def commit_line(self):
        taken = [ticket for ticket in self.state.tickets if ticket.taken]
        if not taken or self.chance(0.02):
            number = self.draw.randint(0, self.state.last_ticket + 1)
            return f"commit {number} {self.draw.choice(('none', '0', '1,2'))}"
        ticket = self.draw.choice(taken)
        return f"commit {ticket.number} {links_text(self.draw_offer(ticket))}"

    def draw_offer(self, ticket):
        chance, found = self.draw.random(), self.script.answers[ticket.number]
        if chance < 0.6:
            return self.draw.choice(sorted(found, key=str))
        if chance < 0.66:
            return None
        if chance < 0.74 and (own := self.own_way(ticket)):
            return own
        owners = self.script.network.owners
        ends = owners[ticket.asked.source], owners[ticket.asked.destination]
        way = self.routers.way(*ends) if chance < 0.92 else self.routers.way(*self.routers.ends())
        return tuple(way) if chance < 0.88 else self.spoiled(tuple(way))

    def own_way(self, ticket):
        """A path that the LSP's tunnel has already."""
        paths = self.state.paths.get(ticket.peer, ())
        own = [path.links for path in paths if path.links and path.tunnel == self.state.own_tunnel(ticket)]
        return self.draw.choice(own) if own else None

    def spoiled(self, way):
        """Links that are no path, or are one by chance."""
        links = len(self.script.network.links)
        return self.draw.choice((
            (*way, way[0]),
            self.looped(way),
            self.looped(way),
            way[1:] or way,
            way[::-1],
            way[:-1] + (links + self.draw.randrange(3),),
            way * (65 // len(way) + 1),
            (1 << 63, *way),
            (self.draw.randrange(links),),
            tuple(self.draw.randrange(links) for _ in range(3)),
        ))

    def looped(self, way):
        """The way with a detour over two links that lead back to where it was."""
        links = self.script.network.links
        there = {(link.start, link.end): number for number, link in enumerate(links)}
        detours = [
            (place, (there[node, other], there[other, node]))
            for place, node in enumerate(links[number].start for number in way if number < len(links))
            for other in range(len(self.script.network.nodes))
            if (node, other) in there and (other, node) in there
        ]
        if not detours:
            return (*way, *way)
        place, detour = self.draw.choice(detours)
        return (*way[:place], *detour, *way[place:])
