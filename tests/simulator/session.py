"""A session of a router with the server (RFC 5440 section 6), and what the server makes of what it says."""

from . import wire
from .network import HOPS, IGP, TE
from .sums import Constraints

OPEN_WAIT, KEEP_WAIT, UP, CLOSED = "open wait", "keep wait", "up", "closed"
WAIT_MS, KEEPALIVE_MS, MINUTE_MS = 60_000, 30_000, 60_000
READ_WHEN_UP = (wire.KEEPALIVE, wire.REQUEST, wire.NOTIFY, wire.ERROR, wire.CLOSE, wire.REPORT)


class Session:
    def __init__(self, peer, submit, now):
        """`submit` takes an event of the peer and gives its reply."""
        self.peer, self.submit = peer, submit
        self.state, self.waiting, self.output = OPEN_WAIT, b"", wire.open_message()
        self.moment = self.received = self.sent = now
        self.unrecognized, self.opened, self.joined = [], None, False

    # ---- what goes out

    def send(self, message):
        self.output += message
        self.sent = self.moment

    def end(self, *messages):
        """The session ends; a peer that joined goes down."""
        for message in messages:
            self.send(message)
        self.state, self.waiting = CLOSED, b""
        if self.joined:
            self.joined = False
            self.submit("down", self.peer)

    def take_output(self):
        output, self.output = self.output, b""
        return output

    # ---- what comes in

    def serve(self, piece, now):
        """Bytes at a moment: whole messages, then a timer that is due, then what waits for the peer is sent."""
        self.moment = max(self.moment, now)
        self.waiting += piece
        while self.state != CLOSED and (self.next_message() or self.next_timer()):
            pass
        if self.state == UP:
            for message in self.submit("drain", self.peer)[1]:
                self.send(message)

    def next_message(self):
        if len(self.waiting) < 4:
            return False
        size = int.from_bytes(self.waiting[2:4], "big")
        if self.waiting[0] >> 5 != 1 or size < 4 or size % 4:
            self.end(wire.close(3) if self.state == UP else wire.error(1, 1))
            return True
        if len(self.waiting) < size:
            return False
        message, self.waiting = self.waiting[:size], self.waiting[size:]
        self.received = self.moment
        self.handle(message)
        return True

    def next_timer(self):
        silent, quiet = self.moment - self.received, self.moment - self.sent
        if self.state != UP:
            if silent < WAIT_MS:
                return False
            self.end(wire.error(1, 2 if self.state == OPEN_WAIT else 7))
        elif self.opened.dead_timer and silent >= self.opened.dead_timer * 1000:
            self.end(wire.close(2))
        elif quiet >= KEEPALIVE_MS:
            self.send(wire.KEEPALIVE_MESSAGE)
        else:
            return False
        return True

    def handle(self, message):
        if self.state == UP:
            return self.handle_when_up(message)
        try:
            kind, content = wire.read(message)
        except (wire.Malformed, wire.Unrecognized, wire.Refused):
            kind, content = None, None
        if self.state == OPEN_WAIT and kind == wire.OPEN:
            self.opened, self.state = content, KEEP_WAIT
            self.send(wire.KEEPALIVE_MESSAGE)
        elif self.state == KEEP_WAIT and kind == wire.KEEPALIVE:
            self.state = UP
            self.come_up()
        elif self.state == KEEP_WAIT and kind == wire.CLOSE:
            self.end()
        else:
            refused = self.state == KEEP_WAIT and kind == wire.ERROR
            self.end(wire.error(1, 6 if refused else 1))

    def handle_when_up(self, message):
        kind = message[1]
        if kind not in READ_WHEN_UP:
            return self.count_unrecognized()
        if kind == wire.REPORT and self.opened.capabilities is None:
            return self.end(wire.error(19, 5), wire.close(1))
        try:
            self.take(*wire.read(message))
        except wire.Malformed:
            self.end(wire.close(3))
        except wire.Unrecognized as fault:
            self.send(wire.error(3, fault.value, fault.about))
        except wire.Refused as fault:
            answer = wire.error(fault.kind, fault.value, fault.about)
            self.end(answer, wire.close(3)) if (fault.kind, fault.value) == (6, 11) else self.send(answer)

    def count_unrecognized(self):
        recent = [moment for moment in self.unrecognized if self.moment - moment < MINUTE_MS]
        self.unrecognized = [*recent, self.moment]
        self.end(wire.error(2, 0), wire.close(5)) if len(recent) >= 4 else self.send(wire.error(2, 0))

    # ---- what the server submits for it

    def come_up(self):
        reply = self.submit("up", self.peer, self.opened.capabilities)
        if reply[0] == "done":
            self.joined = True
        else:
            self.end(wire.error(9, 0) if reply[1] == 2 else wire.close(1))

    def take(self, kind, content):
        if kind == wire.CLOSE:
            self.end()
        elif kind == wire.REPORT:
            for report in content:
                self.take_report(report)
        elif kind == wire.REQUEST:
            for request in content:
                self.take_request(request)
        elif kind == wire.ERROR:
            for srp in content:
                self.submit("refused", self.peer, srp)

    def take_report(self, report):
        if report.plsp == 0 and not report.syncing and not report.ero:
            reply = self.submit("marker", self.peer)
        else:
            reply = self.submit("report", self.peer, report)
        if reply[0] == "refused":
            self.send(wire.error(20, 1, wire.about_srp(report.srp)))
        elif reply == ["booked", True]:
            self.submit("ask", self.peer, "update", report.plsp, None)

    def take_request(self, request):
        asked = constraints_of(request)
        reply = self.submit("ask", self.peer, "answer", request.number, asked, request.plsp)
        if reply[0] == "refused" and reply[1] == 13:
            self.send(wire.no_path(request.number, {"source": 4, "destination": 2, "both": 6}[reply[2]]))
        elif reply[0] == "refused" and reply[1] == 10:
            self.send(wire.no_path(request.number, 1))


def constraints_of(request):
    """What a request asks of the path. The bound on the metric to minimise decides which paths may be taken."""
    ends = request.source, request.destination
    asked = Constraints(*ends, request.bandwidth, request.setup, request.hold, request.colours)
    asked.minimise, asked.bound, asked.hop_bound = request.minimise, request.bounds.get(request.minimise), request.bounds.get(HOPS)
    asked.other_bounds = {kind: request.bounds.get(kind) for kind in (IGP, TE) if kind != request.minimise}
    return asked
