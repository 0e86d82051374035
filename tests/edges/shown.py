"""What a server counts and shows: metrics, tables, times, names and refusals."""
import datetime
import json
import re
import struct
import subprocess
import tempfile
import time

import pcep
from harness.cases import ROOT
from harness.clock import comes, paced
from harness.exposition import family, metrics_of, text_of
from harness.logs import log_of
from harness.router import time_of_request, up
from harness.server import ENDED, TE, ControlledServer, Server, ViewedServer, end
from pcep import diamond

UPDATES_ONLY = pcep.message(1, pcep.OPEN[4:-4] + struct.pack(">I", 1))
STATELESS = pcep.opening(capabilities=None)
RING = None


def ring():
    """A file with the link text of a ring of 1,024 nodes and 4,096 links."""
    global RING
    if RING is None:
        RING = tempfile.NamedTemporaryFile(suffix=".toml")
        RING.write(subprocess.check_output([f"{ROOT}/bench/lines", "ring"]))
        RING.flush()
    return RING.name


def table(server, line):
    """The rows of a table, each with its cells by the words of the head."""
    head, *rows = server.asked(line)[0].decode().splitlines()
    places = [match.start() for match in re.finditer(r"(?:(?<=  )|^)\S", head)]
    spans = list(zip(places, [*places[1:], None]))
    return [{head[a:b].strip(): row[a:b].strip() for a, b in spans} for row in rows]


def counts_add_up(program):
    """The counted events sum to the steps, also after an operator's lines, refusals and an expiry."""
    server = ViewedServer(program, "--endless", "--keep", "0")
    router, other = up(server, 1), up(server, 2)
    router.send(diamond.report(1, 1000.0, flags=0x19) + diamond.report(1, 1000.0, links=(9, 9)))
    time_of_request(router, 1)
    for line in (f"initiate {other.address} t1 10.0.0.1 10.0.0.4 500000 7 0", f"update {router.address} 1", f"delete {router.address} 9",
                 "update 10.0.0.9 1", "reload", f"return {router.address} 1", "reload check", "book"):
        server.asked(line)
    other.send(pcep.CLOSE)
    yield comes(lambda: other.address not in server.peers(), 8), True

    def look():
        numbers = metrics_of(text_of(server))
        events = family(numbers, "pced_events_total")
        return numbers["pced_steps_total", None], events

    comes(lambda: look()[0] == sum(look()[1].values()), 2)
    steps, events = look()
    yield sum(events.values()), steps
    yield events.get("expire done"), 1
    yield {name.split()[0] for name in events} >= {"up", "marker", "report", "ask", "take", "commit", "down", "expire", "reload", "return"}, True
    yield end(server), ENDED


def seconds_in(age):
    """The seconds of an age, as `0 d 00:00:05`; -1 if it is none."""
    parts = re.fullmatch(r"(\d+) d (\d\d):([0-5]\d):([0-5]\d)", age)
    days, hours, minutes, seconds = map(int, parts.groups()) if parts else (0, 0, 0, -1)
    return ((days * 24 + hours) * 60 + minutes) * 60 + seconds


def peers_and_tickets(program):
    """Each column of `peers` and `tickets` has what it says, also if all differ."""
    server, begun = ControlledServer(program, "--endless", "--settle", "3600"), time.monotonic()
    first = up(server, 1)
    first.send(diamond.report(1, 1000.0, flags=0x18) + diamond.report(2, 2000.0, flags=0x19) + diamond.report(3, 3000.0, flags=0x18))
    second = up(server, 2, UPDATES_ONLY, sync=False)
    second.send(diamond.report(1, 1000.0))
    third = up(server, 3, STATELESS, sync=False)
    third.send(pcep.CLOSE)
    first.send(pcep.message(pcep.PCREQ, pcep.rp(77), pcep.end_points("10.0.0.2", "10.0.0.4"), pcep.bandwidth(250000.0)))
    held = {first.address: 3, second.address: 1, third.address: 0}
    yield comes(lambda: {address: peer["lsps"] for address, peer in server.peers().items()} == held), True
    yield comes(lambda: not server.peers()[third.address]["is_up"] and len(server.shown("tickets")[0]["tickets"]) == 1), True
    server.asked(f"initiate {first.address} t1 10.0.0.1 10.0.0.3 125000 6 5")
    time.sleep(2)
    rows = {row["PEER"]: row for row in table(server, "peers")}
    most = time.monotonic() - begun
    ages = {address: row.pop("SINCE") for address, row in rows.items()}
    last = rows[third.address].pop("LAST END")
    sessions = {address: row.pop("SESSION") for address, row in rows.items()}
    yield rows, {
        first.address: {"PEER": first.address, "STATE": "up", "SYNCHRONIZING": "-", "UPDATES": "yes", "INITIATES": "yes", "MESSAGES": "0",
                        "LSPS": "3", "DELEGATED": "1", "LAST END": "-"},
        second.address: {"PEER": second.address, "STATE": "up", "SYNCHRONIZING": "yes", "UPDATES": "yes", "INITIATES": "-", "MESSAGES": "0",
                         "LSPS": "1", "DELEGATED": "0", "LAST END": "-"},
        third.address: {"PEER": third.address, "STATE": "down", "SYNCHRONIZING": "-", "UPDATES": "-", "INITIATES": "-", "MESSAGES": "0",
                        "LSPS": "0", "DELEGATED": "0"}}
    yield all(2 <= seconds_in(age) <= most for age in ages.values()) or (ages, most), True
    yield last.endswith(": closed by the peer") and 2 <= seconds_in(last.split(": ")[0]) <= most or (last, most), True
    yield len(set(sessions.values())) == 3 or sessions, True
    tickets = table(server, "tickets")
    yield tickets, [
        {"TICKET": "1", "PEER": first.address, "FOR": "answer", "LSP": "-", "FROM": "10.0.0.2", "TO": "10.0.0.4",
         "BANDWIDTH": "250000 (2.0 Mbit/s)", "SETUP/HOLD": "7/7", "TRIES": "0", "STATE": "waiting"},
        {"TICKET": "2", "PEER": first.address, "FOR": "initiate", "LSP": "t1", "FROM": "10.0.0.1", "TO": "10.0.0.3",
         "BANDWIDTH": "125000 (1.0 Mbit/s)", "SETUP/HOLD": "6/5", "TRIES": "0", "STATE": "waiting"}]
    yield end(server), ENDED


def times_of_the_log(program):
    """The stamp of a line is the time of day in UTC, `after` the time since the session came up, and each capability is named."""
    # (a stamp has whole seconds)
    first, begun = datetime.datetime.now(datetime.timezone.utc).replace(microsecond=0), time.monotonic()
    server = Server(program, "--endless")
    router = up(server, 1, UPDATES_ONLY, sync=False)
    yield comes(lambda: server.has_up(router)), True
    known = time.monotonic()
    time.sleep(1.5)
    least = 1000 * (time.monotonic() - known) - 2
    router.send(pcep.END_OF_SYNC)
    time_of_request(router, 1)
    most = 1000 * (time.monotonic() - begun) + 2
    stateless = up(server, 2, STATELESS, sync=False)
    time_of_request(stateless, 1)
    status, said, lines = log_of(server)
    now = datetime.datetime.now(datetime.timezone.utc)
    stamps = [datetime.datetime.fromisoformat(line.split()[0].replace("Z", "+00:00")) for line in lines]
    yield all(first <= stamp <= now for stamp in stamps) or (first, stamps, now), True
    texts = [text for _, text in said]
    after = [int(match.group(1)) for match in (re.fullmatch(r"in sync 127.0.1.1 lsps=0 after=(\d+)ms", text) for text in texts) if match]
    yield len(after) == 1 and least <= after[0] <= most or (least, after, most), True
    yield [text for text in texts if text.startswith("up ")], [
        "up 127.0.1.1 keepalive=30s dead=120s capabilities=stateful,update", "up 127.0.1.2 keepalive=30s dead=120s capabilities=stateless"]


def a_long_answer_on_standard_input(program):
    """After an answer of half a megabyte on standard output the next line of standard input is answered too."""
    server = Server(program, "--endless", te=ring())
    documents = server.tell("json links")
    yield len(documents[0]) > 100_000, True
    yield server.tell("update 10.0.0.9 1"), ["refused 1"]
    yield json.loads(server.tell("json status")[0])["links"], 4096
    yield server.end(), (0, b"")


def the_last_steps(program):
    """`history N` shows 4,096 steps at most, and soon."""
    server = ControlledServer(program)
    router = up(server, 1)
    for turn in range(25):
        router.send(b"".join(diamond.report(1 + turn % 3, 1000.0 + number) for number in range(200)))
    time_of_request(router, 1)
    begun = paced()
    (shown,) = server.shown("history 1000000")
    yield len(shown["steps"]), 4096
    yield shown["steps"][-1]["step"] > 5000 or shown["steps"][-1], True
    yield paced() - begun < 10, True
    yield end(server), ENDED


def steps_that_are_no_longer_read(program):
    """`why` says of a path that came by none of the steps that it reads that the step is rolled away, or an older one if not all are read."""
    for words, word in (([], "older"), (["--history", "16"], "rolled")):
        server = ControlledServer(program, "--endless", *words)
        first, other = up(server, 1), up(server, 2)
        first.send(diamond.report(1, 1000.0))
        time_of_request(first, 1)
        other.socket.settimeout(60)
        # (`why` reads 32,768 steps)
        for turn in range(180):
            other.send(b"".join(diamond.report(1 + number % 2, 1000.0 + turn) for number in range(200)))
        time_of_request(other, 1)
        row = table(server, f"why {first.address} 1")[0]
        yield [row[name] for name in ("PATH", "LINKS", "BY", "STEP", "TICKET")], ["lsp 1", "0,1", word, "-", "-"]
        yield table(server, f"why {other.address} 1")[0]["BY"], "report"
        (seen,) = server.shown(f"why {first.address} 1")
        yield (seen["paths"][0]["by"], seen["rolled_steps"] > 0, seen["first_step"] > seen["rolled_steps"]), (None, word == "rolled", word == "older")
        yield end(server), ENDED


def why_connections_ended(program):
    """LAST END has the number of the Close or of the refusal by which a connection ended, if it has one."""
    server = ControlledServer(program)
    routers = [up(server, number, sync=False) for number in (1, 2, 3)]
    routers[0].send(pcep.message(99) * 6)
    routers[1].send(pcep.CLOSE)
    for router in routers[:2]:
        while router.hear():
            pass
    yield comes(lambda: all(server.peers()[router.address]["last_end_reason"] for router in routers[:2])), True
    ends = {row["PEER"]: re.sub(r"^0 d 00:00:\d\d: ", "", row["LAST END"]) for row in table(server, "peers")}
    yield ends, {routers[0].address: "closed for another reason 5", routers[1].address: "closed by the peer", routers[2].address: "-"}
    known = server.peers()
    yield [known[router.address]["last_end_number"] for router in routers], [5, None, None]
    yield end(server), ENDED


def shares_and_rates(program):
    """Percentages and rates of any size are shown whole, and rounded."""
    with tempfile.NamedTemporaryFile("w", suffix=".toml") as file:
        file.write(open(TE).read().replace("reservable=1000000}", "reservable=1}", 1).replace("reservable=1000000}", "reservable=2}", 1))
        file.flush()
        server = ControlledServer(program, te=file.name)
    router = up(server, 1)
    router.send(b"".join(diamond.report(plsp, float(2**47)) for plsp in range(1, 2001)))
    time_of_request(router, 1)
    rows = table(server, "links")
    reserved = 2000 * 2**47
    yield rows[0]["RESERVED"], f"{reserved * 100}%"
    yield rows[1]["RESERVED"], f"{reserved * 50}%"
    yield end(server), ENDED


def names_on_a_terminal(program):
    """No name of a node or an LSP steers a terminal: neither a control character nor a bidirectional mark comes out as it is."""
    with tempfile.NamedTemporaryFile("w", suffix=".toml") as file:
        file.write(open(TE).read().replace('"A"', '"\\u001b[31mA\\u202e"').replace('"D"', '"D\\u2066\\u0007"'))
        file.flush()
        server = ControlledServer(program, te=file.name)
    router = up(server, 1)
    name = "l\x1b[2J\u202e\u2028".encode()
    lsp = pcep.lsp(1, 0x18, pcep.identifiers(diamond.A, 1, 1, diamond.D), pcep.tlv(pcep.NAME, name))
    router.send(pcep.message(pcep.PCRPT, lsp, diamond.route(*diamond.OVER_B), diamond.ATTRIBUTES, pcep.bandwidth(1000.0)))
    time_of_request(router, 1)
    for line in ("links", "link 0", "lsps", "path 10.0.0.1 10.0.0.4 1000 7 7", f"why {router.address} 1", "history 5", "better"):
        text = server.asked(line)[0].decode()
        yield line, [each for each in text if each != "\n" and (ord(each) < 32 or ord(each) == 127 or each in "\u202e\u2066\u2028")], line, []
    yield end(server), ENDED


def heads_of_http(program):
    """A host has no case, and that of an absolute target counts (RFC 9112 section 3.2.2)."""
    server = ViewedServer(program)
    viewer = server.view()
    yield viewer.get("/api/status", host=f"LocalHost:{server.http}")[0], 200
    viewer.send(f"GET http://evil.example/api/status HTTP/1.1\r\nHost: 127.0.0.1:{server.http}\r\n\r\n".encode())
    yield viewer.answer()[0] in (400, 403, 421), True
    viewer = server.view()
    viewer.send(f"GET http://127.0.0.1:{server.http}/api/status HTTP/1.1\r\nHost: 127.0.0.1:{server.http}\r\n\r\n".encode())
    yield viewer.answer()[0], 200
    yield end(server), ENDED


def dates_of_http(program):
    """No answer has a date, which serves caches, and each says that nobody keeps it."""
    server = ViewedServer(program)
    for path in ("/", "/metrics", "/api/status", "/nowhere"):
        _, fields, _ = server.view().get(path)
        fields = {name.lower(): value for name, value in fields.items()}
        yield path, "date" in fields, fields.get("cache-control"), path, False, "no-store"
    yield end(server), ENDED


CASES = [
    counts_add_up, peers_and_tickets, times_of_the_log, a_long_answer_on_standard_input, the_last_steps,
    steps_that_are_no_longer_read, why_connections_ended, shares_and_rates,
    names_on_a_terminal, heads_of_http, dates_of_http,
]
