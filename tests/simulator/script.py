"""What `pced script` prints for each line, by the plain state."""

from collections import Counter

from . import wire, words
from .network import address
from .session import CLOSED, UP, Session
from .state import State
from .sums import Constraints


class BadLine(Exception):
    """The line is none that a script has."""


def peer_in(word):
    return address(word) if "." in word else int(word)


def offer_in(word):
    return None if word == "none" else tuple(int(number) for number in word.split(","))


def links_text(way):
    return "none" if way is None else ",".join(map(str, way))


def reply_text(reply):
    kind, *rest = reply
    if kind == "booked":
        return "booked wants" if rest[0] else "booked"
    if kind == "out":
        return f"out {len(rest[0])}"
    return f"{kind} {rest[0]}" if rest else kind


class Script:
    """Runs lines; each gives what may be printed for it, a set of texts for each line of output."""

    def __init__(self, network):
        self.network, self.state = network, State(network)
        self.sessions, self.moment = {}, 0
        self.kept, self.rolled = [], 0
        self.answers = {}
        # of those steps that aren't a drain of nothing
        self.steps, self.replies = 0, Counter()

    def submit(self, event, *rest):
        reply = self.state.apply(event, *rest)
        self.kept.append(f"{event} {reply_text(reply)}")
        if reply != ["out", ()]:
            self.steps += 1
            self.replies[reply[0] if reply[0] != "refused" else f"refused {reply[1]}"] += 1
        return reply

    def line(self, text):
        """The texts that may be printed for a line."""
        word, *rest = text.split(" ")
        method = getattr(self, "line_" + word, None)
        if method is None:
            raise BadLine(text)
        return [{line} if isinstance(line, str) else line for line in method(*rest)]

    # ---- sessions

    def line_open(self, peer):
        session = self.begin(peer_in(peer))
        return self.printed([session])

    def line_up(self, peer):
        session = self.begin(peer_in(peer))
        session.serve(wire.open_message() + wire.KEEPALIVE_MESSAGE, self.moment)
        return self.printed([session])

    def begin(self, peer):
        if peer in self.sessions:
            raise BadLine(peer)
        self.sessions[peer] = Session(peer, self.submit, self.moment)
        return self.sessions[peer]

    def line_msg(self, peer, *digits):
        session = self.sessions[peer_in(peer)]
        was_up = session.state == UP
        session.serve(bytes.fromhex("".join(digits)), self.moment)
        return self.printed([session], was_up)

    def line_end(self, peer):
        session = self.sessions[peer_in(peer)]
        session.end()
        return self.printed([session])

    def line_tick(self, moment):
        self.moment = int(moment)
        return self.serve_all()

    def serve_all(self):
        """Every session that lives is served, in rising order of peers."""
        sessions = [self.sessions[peer] for peer in sorted(self.sessions)]
        for session in sessions:
            session.serve(b"", self.moment)
        return self.printed(sessions, True)

    def printed(self, sessions, was_up=False):
        lines = []
        for session in sessions:
            if output := session.take_output():
                lines.append(f"out {session.peer} {output.hex()}")
            if session.state == CLOSED:
                del self.sessions[session.peer]
                lines.append(f"down {session.peer}")
            elif session.state == UP and not was_up:
                lines.append(f"up {session.peer}")
        return lines

    # ---- events

    def reply_to(self, event, *rest):
        return reply_text(self.submit(event, *rest))

    def line_report(self, peer, *digits):
        number = peer_in(peer)
        _, reports = wire.read(bytes.fromhex("".join(digits)))
        known = self.state.peers.get(number)
        if known is None or not known.up:
            self.submit("up", number, (True, True))
            self.submit("marker", number)
        return [self.reply_to("report", number, report) for report in reports]

    def line_reload(self, *numbers):
        return [self.reply_to("reload", *map(int, numbers))]

    def line_expire(self, peer):
        return [self.reply_to("expire", peer_in(peer))]

    def line_initiate(self, peer, name, start, end, bandwidth, setup, hold):
        raised = words.raised(int(bandwidth))
        asked = Constraints(address(start), address(end), raised, int(setup), int(hold))
        return [self.reply_to("ask", peer_in(peer), "initiate", name.encode(), asked)]

    def line_update(self, peer, plsp):
        return [self.reply_to("ask", peer_in(peer), "update", int(plsp), None)]

    def line_return(self, peer, plsp):
        return [self.reply_to("return", peer_in(peer), int(plsp)), *self.serve_all()]

    def line_delete(self, peer, plsp):
        return [self.reply_to("delete", peer_in(peer), int(plsp)), *self.serve_all()]

    def line_take(self):
        reply = self.submit("take")
        if reply[0] == "idle":
            return ["idle"]
        self.answers[reply[1]] = found = self.state.searched(reply[1])
        return [{f"job {reply[1]} {links_text(way)}" for way in found}]

    def line_commit(self, number, links):
        return [self.reply_to("commit", int(number), offer_in(links)), *self.serve_all()]

    # ---- looks

    def line_book(self):
        for number, left in enumerate(self.state.left().unreserved):
            yield f"link {number} " + " ".join(map(str, left))

    def line_history(self):
        return [f"step {self.rolled + place} {step}" for place, step in enumerate(self.kept)]

    def line_roll(self):
        self.rolled += len(self.kept)
        self.kept = []
        return [f"rolled {self.rolled}"]
