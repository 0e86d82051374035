"""A session of PCEP (RFC 5440 sections 4.2 and 6): bytes and moments in, messages out, and what comes up or ends."""
import struct

from . import messages as m

OPEN_WAIT, KEEP_WAIT, UP, CLOSED = "open wait", "keep wait", "up", "closed"
MINUTE = 60_000
OWN_KEEPALIVE = 30_000
UNRECOGNIZED = 5


class Session:
    def __init__(self, now):
        self.state, self.now = OPEN_WAIT, now
        self.waiting, self.output = b"", m.OWN_OPEN
        self.received = self.sent = now
        self.dead_timer, self.capabilities = 0, None
        self.unrecognized = []
        self.owes_down = False

    def send(self, data):
        self.output += data
        self.sent = self.now

    def close(self, data=b""):
        """Ends with these last bytes."""
        self.output += data
        self.state, self.owes_down = CLOSED, True

    def next(self):
        """What came: a pair of a word and what belongs to it. Nothing, where no message and no timer is due."""
        if self.state == CLOSED:
            owed, self.owes_down = self.owes_down, False
            return ("down", None) if owed else None
        head = self.waiting[:4]
        if len(head) == 4:
            first, kind, length = struct.unpack(">BBH", head)
            if first >> 5 != 1 or length < 4 or length % 4:
                return self.bad_header()
            if len(self.waiting) >= length:
                body, self.waiting = self.waiting[4:length], self.waiting[length:]
                self.received = self.now
                return self.take_message(kind, body)
        return self.timer()

    def bad_header(self):
        self.close(m.close(3) if self.state == UP else m.error(1, 1))
        return "handled", None

    def take_message(self, kind, body):
        if self.state == OPEN_WAIT:
            return self.take_open(kind, body)
        if self.state == KEEP_WAIT:
            return self.take_keepalive(kind, body)
        if kind in (m.M_OPEN, m.M_PCREP, m.M_PCUPD, m.M_PCINITIATE) or kind > m.M_PCINITIATE or kind in (0, 8, 9):
            return self.take_unrecognized()
        if kind == m.M_PCRPT and self.capabilities is None:
            self.close(m.error(19, 5) + m.close(1))
            return "handled", None
        try:
            says = m.body_of(kind, body)
        except m.Malformed:
            self.close(m.close(3))
        except m.NoIdentifiers as fault:
            self.close(m.error(*fault.error) + m.close(3))
        except m.Refused as fault:
            self.send(m.error(*fault.error))
        else:
            if kind == m.M_CLOSE:
                self.close()
            elif kind in (m.M_PCREQ, m.M_PCRPT, m.M_PCERR):
                return kind, says
        return "handled", None

    def take_open(self, kind, body):
        try:
            self.dead_timer, self.capabilities = m.body_of(kind, body) if kind == m.M_OPEN else ()
        except (m.Malformed, ValueError):
            self.close(m.error(1, 1))
        else:
            self.send(m.KEEPALIVE)
            self.state, self.received = KEEP_WAIT, self.now
        return "handled", None

    def take_keepalive(self, kind, body):
        try:
            if kind in (m.M_KEEPALIVE, m.M_PCERR, m.M_CLOSE):
                m.body_of(kind, body)
        except m.Malformed:
            kind = None
        if kind == m.M_KEEPALIVE:
            self.state = UP
            return "up", self.capabilities
        self.close({m.M_PCERR: m.error(1, 6), m.M_CLOSE: b""}.get(kind, m.error(1, 1)))
        return "handled", None

    def take_unrecognized(self):
        self.unrecognized = [moment for moment in self.unrecognized if self.now - moment < MINUTE] + [self.now]
        self.send(m.error(2, 0))
        if len(self.unrecognized) >= UNRECOGNIZED:
            self.close(m.close(5))
        return "handled", None

    def timer(self):
        silent, quiet = self.now - self.received, self.now - self.sent
        if self.state in (OPEN_WAIT, KEEP_WAIT):
            if silent < MINUTE:
                return None
            self.close(m.error(1, 2 if self.state == OPEN_WAIT else 7))
        elif self.dead_timer and silent >= self.dead_timer * 1000:
            self.close(m.close(2))
        elif quiet >= OWN_KEEPALIVE:
            self.send(m.KEEPALIVE)
        else:
            return None
        return "handled", None
