"""Scripts drawn at random, line by line, beside a reader that knows what each line is to print."""
from . import messages as m
from .draws import NAMES, Draws
from .network import Network
from .script import BadLine, Script, links_text
from .session import KEEP_WAIT, MINUTE, OPEN_WAIT, OWN_KEEPALIVE, UP

LINK_TEXT = """node = [
 {name="A",id="10.0.0.1"}, {name="B",id="10.0.0.2"}, {name="C",id="10.0.0.3"},
 {name="D",id="10.0.0.4"}, {name="E",id="10.0.0.5"} ]
link = [
 {from="A",to="B",local="10.1.0.1",remote="10.1.0.2",igp=10,te=10,colour=0,reservable=1000000},
 {from="B",to="D",local="10.2.0.1",remote="10.2.0.2",igp=10,te=10,colour=1,reservable=1000000},
 {from="A",to="C",local="10.3.0.1",remote="10.3.0.2",igp=20,te=20,colour=2,reservable=1000000},
 {from="C",to="D",local="10.4.0.1",remote="10.4.0.2",igp=15,te=20,colour=0,reservable=1500000},
 {from="A",to="B",local="10.5.0.1",remote="10.5.0.2",igp=30,te=10,colour=3,reservable=600000},
 {from="B",to="A",local="10.1.0.2",remote="10.1.0.1",igp=10,te=10,colour=0,reservable=1000000},
 {from="D",to="E",local="10.6.0.1",remote="10.6.0.2",igp=5,te=25,colour=1,reservable=2000000},
 {from="B",to="E",local="10.7.0.1",remote="10.7.0.2",igp=40,te=5,colour=0,reservable=300000},
 {from="E",to="D",local="10.8.0.1",remote="10.8.0.2",igp=1,te=5,colour=2,reservable=16777217} ]
"""
END_OF_SYNCHRONIZATION = bytes.fromhex("2010001c 00000000 00120010") + bytes(16) + bytes.fromhex("07100004")
NETWORK = Network(LINK_TEXT)
OF_A_ROUTER = (
    (m.M_PCRPT, 40), (m.M_PCREQ, 24), (m.M_PCERR, 10), (m.M_KEEPALIVE, 5), (m.M_OPEN, 4), (m.M_CLOSE, 1), (m.M_PCNTF, 3),
    (m.M_PCREP, 3), (m.M_PCUPD, 2), (m.M_PCINITIATE, 2), (0, 1), (9, 1), (13, 2), (99, 2), (255, 1),
)


class Life:
    """One script as it grows."""

    def __init__(self, random, messages):
        self.random, self.left = random, messages
        self.script = Script(LINK_TEXT)
        self.draws = Draws(random, NETWORK, self.pick([0.05, 0.2, 0.5, 1.0]))
        self.lines, self.wanted, self.bad_line = [], [], None
        self.is_crowd = random.random() < 0.02
        self.peers = list(range(1, 70)) if self.is_crowd else self.pick([[1], [1, 2], [1, 2, 3]])
        self.patience = self.pick([0.9, 0.97, 0.995])

    def pick(self, options):
        return self.random.choice(options)

    def add(self, *words):
        text = " ".join(str(word) for word in words)
        self.lines.append(text)
        try:
            self.wanted.append(self.script.line(text))
        except BadLine:
            self.bad_line = LINK_TEXT.count("\n") + 1 + len(self.lines)

    def live(self):
        while self.left > 0 and self.bad_line is None:
            self.turn()
        if self.bad_line is None:
            self.add("book")
            self.add("history")
        return self.lines, self.wanted, self.bad_line

    def turn(self):
        database = self.script.database
        self.draws.srps = [path.part[1] for path in database.paths if path.part[0] == "granted"] + [
            record.removing for record in database.records.values() if record.removing is not None
        ]
        absent = [peer for peer in self.peers if peer not in self.script.clients]
        if absent and self.random.random() < (0.95 if self.is_crowd else 0.6 if len(self.script.clients) < 2 else 0.1):
            self.left -= self.is_crowd
            self.begin(self.pick(absent))
        elif self.script.clients and self.random.random() < self.patience * 0.85:
            self.speak(self.pick(sorted(self.script.clients)))
        else:
            self.other_line()

    def begin(self, peer):
        self.add(self.pick(["up", "up", "open"]), peer)
        if peer in self.script.clients and self.script.clients[peer].session.state == UP and self.random.random() < 0.7:
            self.send(peer, m.message(m.M_PCRPT, END_OF_SYNCHRONIZATION))

    def hex_of(self, data):
        text = data.hex()
        if self.random.random() < 0.03:
            text = text.upper()
        if self.random.random() < 0.03:
            place = self.random.randrange(len(text) + 1)
            text = text[:place] + " " + text[place:]
        return text

    def send(self, peer, data):
        self.left -= 1
        self.add("msg", peer, self.hex_of(data))

    def kind_for(self, state):
        if state == OPEN_WAIT and self.random.random() < 0.85:
            return m.M_OPEN
        if state == KEEP_WAIT and self.random.random() < 0.8:
            return m.M_KEEPALIVE
        return self.random.choices([kind for kind, _ in OF_A_ROUTER], [weight for _, weight in OF_A_ROUTER])[0]

    def speak(self, peer):
        """Bytes of a router: a message, several, one in pieces, or one twice."""
        data = self.draws.message(self.kind_for(self.script.clients[peer].session.state))
        way = self.random.random()
        if way < 0.04:
            self.left -= 1
            data += self.draws.message(self.kind_for(self.script.clients[peer].session.state))
        elif way < 0.06:
            data += data * self.pick([1, 1, 2, 5])
        elif way < 0.061:
            data = m.message(m.M_PCREQ, *self.draws.request()) * 1100
        elif way < 0.10:
            for place in sorted(self.random.randrange(len(data) + 1) for _ in range(self.pick([1, 1, 2, 3])))[::-1]:
                head, data = data[:place], data[place:]
                if peer in self.script.clients and self.bad_line is None:
                    self.send(peer, head)
                if self.random.random() < 0.2:
                    self.tick()
        if peer in self.script.clients and self.bad_line is None:
            self.send(peer, data)

    def moments(self):
        """The moments at which a timer of a session is due."""
        for client in self.script.clients.values():
            session = client.session
            yield session.received + MINUTE
            yield session.sent + OWN_KEEPALIVE
            yield session.received + (session.dead_timer or 120) * 1000
            if session.unrecognized:
                yield session.unrecognized[0] + MINUTE

    def tick(self):
        now, way = self.script.now, self.random.random()
        due = [moment for moment in self.moments() if moment >= now]
        if way < 0.5 and due:
            self.add("tick", max(0, self.pick(due) + self.pick([-1, 0, 0, 1])))
        elif way < 0.9:
            self.add("tick", now + self.random.randrange(20_000))
        elif way < 0.95:
            self.add("tick", now + self.pick([29_999, 30_000, 60_000, 120_000, 500_000]))
        else:
            self.add("tick", self.random.randrange(now + 1))

    def other_line(self):
        draws, way = self.draws, self.random.random()
        clients = sorted(self.script.clients)
        peer = self.pick(clients if clients and self.random.random() < 0.9 else self.peers)
        if way < 0.30:
            self.tick()
        elif way < 0.36 and clients:
            self.add("end", self.pick(clients))
        elif way < 0.39:
            self.add("expire", peer)
        elif way < 0.41 and self.random.random() < 0.5:
            self.report(peer)
        elif way < 0.55:
            self.initiate(peer)
        elif way < 0.64:
            self.add(self.pick(["update", "return", "delete"]), peer, draws.plsp())
        elif way < 0.80:
            self.add("take")
            if self.random.random() < 0.6:
                self.commit()
        elif way < 0.94:
            self.commit()
        else:
            self.add("book")

    def initiate(self, peer):
        name = self.pick([name for name in NAMES if name.isalnum() and len(name) <= 64] + [b"a", b"b", b"c"]).decode()
        ends = [self.draws.address() for _ in range(2)]
        if self.random.random() < 0.7:
            ends = self.pick([(0x0A000001, 0x0A000004), (0x0A000002, 0x0A000005), (0x0A000001, 0x0A000005)])
        ends = [".".join(map(str, end.to_bytes(4, "big"))) for end in ends]
        value = self.pick([1, 250_000, 500_000, 500_000, 16_777_219])
        self.add("initiate", peer, name, *ends, value, self.random.randrange(8), self.random.randrange(8))
        if self.random.random() < 0.7:
            self.add("take")
            if self.random.random() < 0.8:
                self.commit()

    def report(self, peer):
        """A report without a session; a bad one ends the script."""
        data = m.message(m.M_PCRPT, *self.draws.report())
        if self.random.random() < 0.05:
            data = self.draws.message(self.pick([m.M_PCRPT, m.M_PCREQ]))
        self.left -= 1
        self.add("report", peer, self.hex_of(data))

    def commit(self):
        """An answer to a ticket: what a search would find, none, or links drawn one by one."""
        database = self.script.database
        taken = [ticket for ticket in database.tickets.values() if ticket.taken]
        if not taken:
            self.add("commit", self.random.randrange(1, 9), "0,1")
            return
        ticket, way = self.pick(taken), self.random.random()
        links = self.pick(sorted(database.found_for(ticket), key=str)) if way < 0.7 else None
        if way > 0.8:
            links = tuple(self.random.randrange(len(NETWORK.links) + 1) for _ in range(self.random.randint(1, 4)))
        self.add("commit", ticket.number, links_text(links))
