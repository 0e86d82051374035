"""A script of docs/FORMAT.md, line by line: what is to be printed, and how the run is to end."""
from . import messages as m
from .network import Network, address_of
from .numbers import raised
from .searches import Searches, no_path
from .session import CLOSED, UP, Session

MEETING = bytes.fromhex("2001001401100010201e78000010000400000005") + m.KEEPALIVE


class BadLine(Exception):
    pass


class Client:
    """A session, and whether the database knows that it is up."""

    def __init__(self, peer, now, database):
        self.session, self.peer, self.database, self.joined = Session(now), peer, database, False
        self.came_up = False

    def serve(self, piece, now):
        session = self.session
        if session.state == CLOSED:
            return
        session.waiting += piece
        session.now = max(session.now, now)
        while (came := session.next()) is not None:
            self.handle(*came)
        if session.state == UP:
            for queued in self.database.step("drain", self.peer)[1]:
                session.send(queued)

    def handle(self, word, what):
        if word == "up":
            self.begin(what)
        elif word == "down" and self.joined:
            self.joined = False
            self.database.step("down", self.peer)
        elif word == m.M_PCREQ:
            for number, plsp, asked in what:
                self.ask(number, plsp, asked)
        elif word == m.M_PCRPT:
            for report in what:
                self.report(report)
        elif word == m.M_PCERR:
            for srp in what:
                self.database.step("refused", self.peer, srp)

    def begin(self, capabilities):
        reply, _ = self.database.step("up", self.peer, capabilities)
        if reply == "done":
            self.joined = self.came_up = True
        else:
            self.session.close({"refused 2": m.error(9, 0)}.get(reply, m.close(1)))

    def ask(self, number, plsp, asked):
        reply, refusal = self.database.step("ask answer", self.peer, number, plsp, asked)
        if reply == "refused 13":
            self.session.send(no_path(number, refusal.ends))
        elif reply == "refused 10":
            self.session.send(no_path(number, 1))

    def report(self, report):
        if report.ends_synchronization:
            reply, wants = self.database.step("marker", self.peer)
        else:
            reply, wants = self.database.step("report", self.peer, report)
        if reply.startswith("refused"):
            self.session.send(m.error(20, 1, report.about))
        elif wants is True:
            self.database.step("ask update", self.peer, report.plsp)

    def hang_up(self):
        if self.session.state != CLOSED:
            self.session.close()
        while (came := self.session.next()) is not None:
            self.handle(*came)


def links_of(text):
    return None if text == "none" else tuple(int(word) for word in text.split(","))


def links_text(links):
    return "none" if links is None else ",".join(map(str, links))


class Script:
    def __init__(self, link_text):
        self.network = Network(link_text)
        self.database = Searches(self.network)
        self.now, self.clients = 0, {}

    def line(self, text):
        """What the line prints: each line as a text, or as the set of those that it may be."""
        word, *words = text.split(" ")
        if word in ("open", "up", "msg", "end", "expire", "report", "initiate", "update", "return", "delete") and words:
            words[0] = peer_of(words[0])
        printed = getattr(self, f"do_{word}")(*words)
        return printed + self.printed_of_inputs()

    def printed_of_inputs(self):
        """What the sessions that live have to say, in rising order of their peers."""
        lines = []
        for peer in sorted(self.clients):
            client = self.clients[peer]
            output, client.session.output = client.session.output, b""
            if output:
                lines.append(f"out {peer} {output.hex()}")
            if client.session.state == CLOSED:
                lines.append(f"down {peer}")
                del self.clients[peer]
            elif client.came_up:
                lines.append(f"up {peer}")
            client.came_up = False
        return lines

    def serve_all(self, piece=b""):
        for peer in sorted(self.clients):
            self.clients[peer].serve(piece, self.now)
        return []

    def client(self, peer):
        if peer not in self.clients:
            raise BadLine
        return self.clients[peer]

    def do_open(self, peer):
        if peer in self.clients:
            raise BadLine
        self.clients[peer] = Client(peer, self.now, self.database)
        return []

    def do_up(self, peer):
        self.do_open(peer)
        self.clients[peer].serve(MEETING, self.now)
        return []

    def do_msg(self, peer, *octets):
        self.client(peer).serve(bytes.fromhex("".join(octets)), self.now)
        return []

    def do_end(self, peer):
        self.client(peer).hang_up()
        return []

    def do_tick(self, moment):
        self.now = int(moment)
        return self.serve_all()

    def do_report(self, peer, *octets):
        data = bytes.fromhex("".join(octets))
        if len(data) < 4 or data[0] >> 5 != 1 or data[1] != m.M_PCRPT or len(data) % 4 or int.from_bytes(data[2:4], "big") != len(data):
            raise BadLine
        try:
            reports = m.body_of(m.M_PCRPT, data[4:])
        except (m.Malformed, m.Refused):
            raise BadLine from None
        if peer not in self.database.peers or not self.database.peers[peer].up:
            self.database.step("up", peer, (True, True))
            self.database.step("marker", peer)
        return [self.database.step("report", peer, report)[0] for report in reports]

    def do_expire(self, peer):
        return [self.database.step("expire", peer)[0]]

    def do_initiate(self, peer, name, source, destination, bandwidth, setup, hold):
        value = raised(int(bandwidth))
        if value is None:
            raise BadLine
        ends = address_of(source), address_of(destination)
        asked = m.Constraints(*ends, value, int(setup), min(int(setup), int(hold)))
        return [self.database.step("ask initiate", peer, name.encode(), asked)[0]]

    def do_update(self, peer, plsp):
        return [self.database.step("ask update", peer, int(plsp))[0]]

    def do_return(self, peer, plsp):
        reply = self.database.step("return", peer, int(plsp))[0]
        return [reply] + self.serve_all()

    def do_delete(self, peer, plsp):
        reply = self.database.step("delete", peer, int(plsp))[0]
        return [reply] + self.serve_all()

    def do_take(self):
        reply, ticket = self.database.step("take")
        if ticket is None:
            return [reply]
        return [{f"{reply} {links_text(links)}" for links in self.database.found_for(ticket)}]

    def do_commit(self, number, links):
        reply = self.database.step("commit", int(number), links_of(links))[0]
        return [reply] + self.serve_all()

    def do_book(self):
        return self.database.book()

    def do_history(self):
        return [f"step {place} {step}" for place, step in enumerate(self.database.history)]


def peer_of(text):
    return address_of(text) if "." in text else int(text)


def wanted_of(link_text, lines):
    """What each line is to print, and the number of the bad line where one ends the run."""
    script, printed = Script(link_text), []
    before = link_text.count("\n") + 1
    for place, text in enumerate(lines):
        try:
            printed.append(script.line(text))
        except BadLine:
            return printed, before + place + 1
    return printed, None
