"""Scripts of many routers that want harm: they share names, numbers and tunnels, end sessions between a search and its
commit, and crowd the server to its limits; the searches' offers are stale, foreign, doubled, disjoint or too long."""

import struct
from collections import deque

from . import wire
from .events import Events
from .facts import LAST_NUMBER, MOST_PATHS, MOST_PEERS, MOST_TICKETS
from .laws import must_hold
from .network import dotted
from .networks import GREATEST, draw_network
from .routers import AMOUNTS, Routers
from .script import Script, links_text
from .sums import MOST_LINKS

# how many peers there are, how many PLSP-IDs each uses, and the limit that the run meets first
SIEGES = (
    (3, 4, None),
    (6, 6, None),
    (6, 6, None),
    (12, 6, None),
    (30, 4, None),
    (MOST_PEERS, 4, None),
    (MOST_PEERS + 3, 2, "peers"),
    (8, 8, "tickets"),
)
PATHS = (MOST_PEERS, 2, "paths")
NAMES = tuple(f"t{number}" for number in range(1, 5))
BOOK_EVERY, LAWS_EVERY, MOST_OFFERS = 12, 4, 60
REQUESTS_OF_A_MESSAGE, REPORTS_OF_A_MESSAGE = 256, 128


class Foes(Routers):
    """Routers that use each other's numbers, names and tunnels."""

    def numbers(self, peer):
        """The SRP-IDs of somebody's grants and removals."""
        owners = [peer] if self.chance(0.6) else list(self.state.peers)
        grants = [path.srp for owner in owners for path in self.state.paths.get(owner, ()) if path.srp is not None]
        return grants + [record.removing for key, record in self.state.records.items() if key[0] in owners and record.removing]

    def srp(self, peer):
        if self.chance(0.75):
            return b""
        numbers = self.numbers(peer)
        return wire.srp(self.draw.choice(numbers)) if numbers and self.chance(0.7) else super().srp(peer)

    def refusal(self, peer):
        numbers = self.numbers(peer) + [self.draw.choice((0, 1, LAST_NUMBER, LAST_NUMBER + 1))]
        named = [wire.srp(self.draw.choice(numbers)) for _ in range(self.draw.choice((1, 1, 2, 3)))]
        return wire.message(wire.ERROR, *named, wire.obj(13, 1, struct.pack(">BBBB", 0, 0, 24, 1)))

    def identifiers(self, ends):
        """Of very few tunnels: now and then those of another LSP, of any peer."""
        known = [record for record in self.state.records.values() if record.tunnel[0] == "signalled"] if self.chance(0.3) else ()
        if not known:
            return super().identifiers(ends)
        record = self.draw.choice(known)
        _, _, endpoint, tunnel, extended = record.tunnel
        return record.asked.source or self.node_address(ends[0]), self.draw.randint(0, 2), tunnel, extended, endpoint


class Enemy(Events):
    """Draws lines until the history has `steps` steps more."""

    def __init__(self, draw, steps, siege=None, reloads=False):
        self.draw, self.steps, self.reloads = draw, steps, reloads
        peers, plsps, self.limit = siege or draw.choice(SIEGES)
        self.script = Script(draw_network(draw, draw.randint(4, 7), draw.randint(8, 16), 1 + peers * plsps // 12))
        self.state, self.sessions = self.script.state, self.script.sessions
        self.peers = [draw.choice((1, 0x0A000000)) + number for number in range(peers)]
        self.routers = Foes(draw, self.script, plsps)
        self.rest, self.plan = {}, deque()
        # what searches found, for whatever ticket
        self.offers = deque(maxlen=MOST_OFFERS)

    def lines(self):
        for line in self.begun():
            yield line
            must_hold(self.state)
        number, most = 0, self.script.steps + self.steps
        while self.script.steps < most:
            number += 1
            yield self.next_line()
            if number % (LAWS_EVERY + len(self.state.records) // 100) == 0:
                must_hold(self.state)
            if number % BOOK_EVERY == 0:
                yield "book"
            if self.chance(0.002):
                yield from ("history", "roll") if self.chance(0.5) else ("roll",)
        yield from ("book", "history")

    # ---- how a run begins

    def begun(self):
        """Mostly all routers are in sync; and the limit is met, if the run has one."""
        if self.limit or self.chance(0.7):
            for peer in self.peers:
                yield f"up {peer}"
                if peer in self.sessions:
                    yield f"msg {peer} {self.routers.marker().hex()}"
        if self.limit == "tickets":
            yield from self.flood()
        if self.limit == "paths":
            yield from self.filled()

    def flood(self):
        """Requests of all peers, until no more may wait."""
        while len(self.state.tickets) < MOST_TICKETS:
            peer = self.draw.choice([peer for peer, session in self.sessions.items() if session.joined])
            requests = [self.routers.request(peer, self.routers.ends()) for _ in range(REQUESTS_OF_A_MESSAGE)]
            yield f"msg {peer} {wire.message(wire.REQUEST, *requests).hex()}"

    def filled(self):
        """Paths of all peers, until no more may stand. Few have links, so that others find room."""
        for number in range(1, MOST_PATHS // MOST_PEERS + 1, REPORTS_OF_A_MESSAGE):
            for peer in self.peers:
                reports = [self.small_report(plsp) for plsp in range(number, number + REPORTS_OF_A_MESSAGE)]
                yield f"msg {peer} {wire.message(wire.REPORT, *reports).hex()}"

    def small_report(self, plsp):
        """One in a hundred is up, and one in eight is delegated."""
        ends = self.routers.ends()
        start, end = (self.script.network.nodes[node][1] for node in ends)
        is_up = plsp % 100 == 0
        lsp = self.routers.lsp(plsp, 8 | is_up << 4 | (plsp % 8 == 1), (start, 1, plsp % 61, 1, end))
        return lsp + wire.obj(7, 1, b"".join(self.routers.hops(self.routers.way(*ends))) if is_up else b"")

    # ---- an operator, and workers

    def next_line(self):
        """Mostly the next of a plan, if it may be sent still."""
        while self.plan and self.chance(0.75):
            line = self.plan.popleft()
            if self.may_be_sent(*line.split(" ")):
                return line
        return self.draw_line()

    def may_be_sent(self, word, peer="0", *_):
        """What a session says or ends by needs one, and `up` needs that there is none."""
        return word not in ("up", "end", "msg") or (int(peer) in self.sessions) == (word != "up")

    def draw_line(self):
        chance = self.draw.random()
        for share, line in (
            (0.05 if self.reloads else 0, self.reload_line),
            (0.35, self.peers_line),
            (0.1, self.initiate_line),
            (0.09, self.update_line),
            (0.18, self.take_line),
            (0.2, self.commit_line),
            (0.02, lambda: self.lsp_line("return", lambda record: record.delegated)),
            (0.03, lambda: self.lsp_line("delete", lambda record: record.created)),
        ):
            chance -= share
            if chance < 0:
                return line()
        return self.tick_line()

    def initiate_line(self):
        """Mostly with a name that somebody has."""
        peer, name = self.draw.choice(self.peers), self.draw.choice(NAMES)
        start, end = (dotted(self.routers.node_address(node)) for node in self.routers.ends())
        setup = self.draw.randint(0, 7)
        return f"initiate {peer} {name} {start} {end} {self.draw.choice(AMOUNTS)} {setup} {self.draw.randint(0, setup)}"

    def take_line(self):
        """A ticket is taken; at times its peer's session ends before the commit, or its LSP is asked for anew."""
        waiting = next((ticket for ticket in self.state.tickets if not ticket.taken), None)
        if waiting and not self.plan and self.chance(0.12):
            self.plan.extend(self.plan_of(waiting))
        return "take"

    def plan_of(self, ticket):
        peer, commit = ticket.peer, f"commit {ticket.number} {links_text(self.likely_offer(ticket))}"
        marker = f"msg {peer} {self.routers.marker().hex()}"
        back = self.draw.choice(((), (f"up {peer}",), (f"up {peer}", marker), (f"expire {peer}", f"up {peer}", marker)))
        asked = f"update {peer} {ticket.of}" if ticket.purpose == "update" else "take"
        return self.draw.choice((
            (f"end {peer}", *back, commit),
            (f"end {peer}", *back, commit, commit),
            (commit, commit, asked, "take"),
            (commit, f"msg {peer} {self.routers.refusal(peer).hex()}", f"end {peer}", *back),
            ("roll", commit, "roll"),
        ))

    def likely_offer(self, ticket):
        owners = self.script.network.owners
        return tuple(self.routers.way(owners[ticket.asked.source], owners[ticket.asked.destination]))

    def draw_offer(self, ticket):
        """Good, stale, foreign, or no path at all."""
        found = self.script.answers[ticket.number]
        self.offers.extend(way for way in found if way)
        chance = self.draw.random()
        if chance < 0.45:
            return self.draw.choice(sorted(found, key=str))
        if chance < 0.7 and self.offers:
            return self.draw.choice(self.offers)
        way = self.likely_offer(ticket)
        return way if chance < 0.8 else self.spoiled(way) if chance < 0.95 else self.harmful(way)

    def harmful(self, way):
        """Doubled, disjoint, or longer than a path may be."""
        links, other = len(self.script.network.links), self.draw.choice(self.offers) if self.offers else way
        return self.draw.choice((
            way * 2,
            (*way, *other),
            (*other[:1], *way[1:]),
            way[:1] * MOST_LINKS,
            tuple(self.draw.randrange(links) for _ in range(MOST_LINKS + 1)),
            tuple(range(links)) * (4096 // links),
            ((1 << 64) - 1,),
        ))

    def reload_line(self):
        links = len(self.script.network.links)
        number = self.draw.randrange(links + 1) if self.chance(0.1) else self.draw.randrange(links)
        metric = self.draw.choice((1, 9, 16_777_215)) if self.chance(0.1) else self.draw.randint(1, 9)
        reservable = self.draw.choice((0, GREATEST)) if self.chance(0.1) else self.draw.choice(AMOUNTS) * self.draw.randint(1, 40)
        return f"reload {number} {metric} {self.draw.randint(1, 9)} {self.draw.randrange(8) if self.chance(0.4) else 0} {reservable}"
