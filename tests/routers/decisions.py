"""What the log says about decisions: each text of docs/OPERATING.md's table, at its level."""
import re
import shutil
import time

import pcep
from harness.cases import ROOT
from harness.clock import TIMEOUT_S, comes
from harness.exposition import family, metrics_of, text_of
from harness.logs import LINE, counted
from harness.router import time_of_request, up
from harness.server import ViewedServer, end_with_log, status_of
from pcep import diamond

from .lsp import Temper
from .shown import MOST_PATHS, reported
from .zoo import A, D, LATE, WELL, Zoo

# how many routers report at once, and how many LSPs each
LOUD, MANY = 15, 64
# the pattern of each word in capitals in the table
PLACES = {
    "PEER": r"127\.0\.\d+\.\d+", "ADDR": r"[\d.]+", "PORT": r"\d+", "N": r"\d+", "T/V": r"\d+/\d+", "NAME": r"\S+", "WHO": r"report|operator|retry",
    "WORD": r"bandwidth|colours|bounds|several", "LINKS": r"\d+(?:,\d+)*(?:,\.\.)?|-", "LINE": r"\w.*", "REPLY": r"done|\w+ \d+",
    "WORDS": r".+", "REASON": r".+", "TEXT": r".+", "FAULT": r".+"}


def table():
    """The level, the text and the pattern of each line in the table."""
    with open(f"{ROOT}/docs/OPERATING.md") as file:
        rows = re.findall(r"^\| (info|warn|debug) \| (`[^|]*`) \|", file.read(), re.MULTILINE)
    place = re.compile("|".join(sorted(PLACES, key=len, reverse=True)))
    for level, texts in rows:
        for text in re.findall("`([^`]*)`", texts):
            parts = re.split(r"\b(" + place.pattern + r")(?![A-Z])", text)
            pattern = "".join(f"(?:{PLACES[part]})" if number % 2 else re.escape(part) for number, part in enumerate(parts))
            yield level, text, re.compile(pattern)


def stripped(text):
    """A line without the times that differ from run to run."""
    return re.sub(r"after=\d+ms", "after=Nms", text)


def lines_of(server):
    """Ends a server. Returns what it says, its status, and the level and the text of each line of its log."""
    said = server.asked("end")
    status = status_of(server, TIMEOUT_S)
    shutil.rmtree(server.folder)
    return said, status, [match.groups() for match in map(LINE.fullmatch, server.rest_of_log()) if match]


# what an operator says, the reply, and the lines of the log that follow, with PEER for the router's address
STORY = (
    (None, None, [
        "asked PEER ticket=1 lsp=t1 by=report", "granted PEER ticket=1 srp=1 lsp=t1 links=0,1", "answered PEER srp=1 lsp=t1 after=Nms"]),
    ("update PEER 1", "asked 2", [
        "operator update PEER 1: asked 2", "asked PEER ticket=2 lsp=t1 by=operator", "granted PEER ticket=2 srp=2 lsp=t1 links=0,1",
        "answered PEER srp=2 lsp=t1 after=Nms"]),
    ("update PEER 9", "refused 4", ["operator update PEER 9: refused 4"]),
    (f"initiate PEER t2 {A} {D} 2000000 7 7", "asked 3", [
        f"operator initiate PEER t2 {A} {D} 16Mbit 7 7: asked 3", "asked PEER ticket=3 lsp=t2 by=operator",
        "no path PEER ticket=3 lsp=t2 why=bandwidth"]),
    (rf"initiate PEER t\3 {A} {D} 100000 7 7", "asked 4", [
        rf"operator initiate PEER t\x5c3 {A} {D} 800kbit 7 7: asked 4", r"asked PEER ticket=4 lsp=t\x5c3 by=operator",
        r"granted PEER ticket=4 srp=3 lsp=t\x5c3 links=0,1", r"answered PEER srp=3 lsp=t\x5c3 after=Nms"]),
    ("delete PEER 2", "removing 4", ["operator delete PEER 2: removing 4", r"answered PEER srp=4 lsp=t\x5c3 after=Nms"]),
    ("drop PEER 77", "done", ["operator drop PEER 77: done"]),
    # (it is sent by a PCUpd)
    ("return PEER 1", "done", ["operator return PEER 1: done", "answered PEER srp=5 lsp=t1 after=Nms"]),
    ("reload", "done", ["operator reload: done", "reload links=4 below=0"]),
    ("reload check", "nothing changes", []),
    ("initiate PEER t3", "bad line 1", []),
    # (the limits of a path stand behind the line)
    (f"place PEER t5 {A} {D} 1000 7 7 include-all=0x0 include-any=0x1F", "asked 5", [
        f"operator place PEER t5 {A} {D} 8kbit 7 7 include-any=0x1f: asked 5", "asked PEER ticket=5 lsp=t5 by=operator",
        "no path PEER ticket=5 lsp=t5 why=colours"]),
    (f"place PEER t6 {A} {D} 1000 7 7 metric=igp max-cost=19 max-hops=2 exclude=0xF include-all=0x0", "asked 6", [
        f"operator place PEER t6 {A} {D} 8kbit 7 7 metric=igp max-cost=19 max-hops=2 exclude=0xf: asked 6",
        "asked PEER ticket=6 lsp=t6 by=operator", "no path PEER ticket=6 lsp=t6 why=bounds"]),
    (f"place PEER t7 {A} {D} 2000000 7 7 metric=hops include-all=0x80000000", "asked 7", [
        f"operator place PEER t7 {A} {D} 16Mbit 7 7 metric=hops include-all=0x80000000: asked 7",
        "asked PEER ticket=7 lsp=t7 by=operator", "no path PEER ticket=7 lsp=t7 why=several"]),
    (f"place PEER t8 {A} {D} 2000000 7 7 metric=te", "asked 8", [
        f"operator initiate PEER t8 {A} {D} 16Mbit 7 7: asked 8", "asked PEER ticket=8 lsp=t8 by=operator",
        "no path PEER ticket=8 lsp=t8 why=bandwidth"]),
    # (no link leads back, so that there is no way at all)
    (f"initiate PEER t4 {D} {A} 1000 7 7", "asked 9", [
        f"operator initiate PEER t4 {D} {A} 8kbit 7 7: asked 9", "asked PEER ticket=9 lsp=t4 by=operator", "no path PEER ticket=9 lsp=t4"]),
)
DECIDED = re.compile(r"(asked|granted|replied|no path|gave up|answered|operator|reload|not booked) ")


def decisions_are_logged(program):
    """The log has what was asked for, granted, refused and answered, line by line as docs/OPERATING.md has it."""
    zoo = Zoo(program, retry=0)
    router = zoo.router(Temper("every"))
    zoo.server.keep_log()
    router.lsp("t1", A, D, 400_000)
    for line, answer, _ in STORY:
        if line is not None:
            yield zoo.said(line.replace("PEER", router.address)), answer
        yield zoo.is_settled(LATE), True
        # (ten lines of one kind are written in a second)
        time.sleep(0.3)
    *well, texts = zoo.ended()
    yield tuple(well), WELL
    came = sorted(stripped(text) for text in texts if DECIDED.match(text))
    yield came, sorted(line.replace("PEER", router.address) for _, _, lines in STORY for line in lines)


def requests_are_logged(program):
    """The log has a router's request, its answer and what prevented a path."""
    zoo = Zoo(program, retry=0)
    router = up(zoo.server, 9)
    zoo.server.keep_log()
    time_of_request(router, 1)
    yield diamond.number_of(router.ask(2, 2e6)), 2
    router.close()
    said, status, lines = lines_of(zoo.server)
    yield (said, status), ((b"", 0), 0)
    wanted = [
        "asked PEER ticket=1 request=1 by=request", "replied PEER ticket=1 request=1 links=0,1", "asked PEER ticket=2 request=2 by=request",
        "no path PEER ticket=2 request=2 why=bandwidth"]
    yield sorted(text for _, text in lines if DECIDED.match(text)), sorted(text.replace("PEER", router.address) for text in wanted)


def retries_are_logged(program):
    """If the server asks again for an LSP that is down, the log says so, and what prevented a path each time."""
    zoo = Zoo(program, retry=1)
    router = zoo.router(Temper("every"))
    zoo.server.keep_log()
    router.lsp("wide", A, D, 2_000_000)
    yield comes(lambda: family(metrics_of(text_of(zoo.server)), "pced_events_total").get("commit nopath", 0) >= 2, 10), True
    time.sleep(0.5)
    *well, texts = zoo.ended()
    yield tuple(well), WELL
    wanted = ["asked PEER ticket=1 lsp=wide by=report", "no path PEER ticket=1 lsp=wide why=bandwidth",
              "asked PEER ticket=2 lsp=wide by=retry", "no path PEER ticket=2 lsp=wide why=bandwidth"]
    came = [text for text in texts if re.match(r"(asked|no path) \S+ ticket=[12] ", text)]
    yield sorted(came), sorted(text.replace("PEER", router.address) for text in wanted)


def asks_at(server):
    """How many paths a server was asked for."""
    return family(metrics_of(text_of(server)), "pced_events_total").get("ask asked", 0)


def pathless_reports(plsps):
    """Reports of delegated LSPs that are down and have no route."""
    return b"".join(diamond.report(plsp, 100.0, (), pcep.DELEGATE | pcep.ADMIN) for plsp in plsps)


def each_routers_lines_have_a_rate(program):
    """In a second, ten lines of a kind are written about a router and a hundred about all. The rest are counted, and a quiet router's lines stand."""
    server = ViewedServer(program, "--endless", "--retry", "0")
    *loud, quiet = routers = [up(server, number) for number in range(1, LOUD + 2)]
    server.keep_log()
    for router in routers:
        time_of_request(router, 1)
    asks = len(routers)
    time.sleep(1.1)
    begun = time.monotonic()
    for senders, count in (loud[:1], MANY), ([quiet], 5), (loud[1:], MANY):
        for router in senders:
            router.send(pathless_reports(range(1, count + 1)))
        if senders != loud[:1]:
            asks += len(senders) * count + (MANY if senders == [quiet] else 0)
            yield comes(lambda: asks_at(server) == asks, 150) or asks_at(server), True
            # (so that the bound over all holds none of the quiet router's back)
            time.sleep(1.1)
    most = time.monotonic() - begun + 1
    # how many lines were held back stands before the next one of their kind
    quiet.send(pathless_reports([6]))
    yield comes(lambda: asks_at(server) == asks + 1, 10), True
    said, status, texts = end_with_log(server)
    yield (said, status), ((b"", 0), 0)
    yield counted(texts, "asked"), (asks + 1, 0)
    lines = [len([text for text in texts if text.startswith(f"asked {router.address} ")]) for router in routers]
    yield lines[-1], 7
    yield lines[0] >= 11 and max(lines) <= 10 * most and sum(lines) <= 100 * most or (lines, most), True
    yield sum(lines) < asks or lines, True


def not_in_the_table(lines):
    """Those lines that docs/OPERATING.md's table doesn't have at their level."""
    rows = list(table())
    return [line for line in lines if not any(level.upper() == line[0] and pattern.fullmatch(line[1]) for level, _, pattern in rows)]


def each_line_is_in_the_table(program):
    """Each line of the log is in docs/OPERATING.md's table, at its level there."""
    zoo = Zoo(program, retry=0)
    router = zoo.router(Temper("every"))
    zoo.server.keep_log()
    router.lsp("t1", A, D, 1_000)
    yield zoo.is_settled(LATE), True
    other = up(zoo.server, 99)
    time_of_request(other, 1)
    for line in ("reload", f"update {router.address} 9", f"initiate {router.address} t2 {A} {D} 2000000 7 7"):
        zoo.said(line)
    time.sleep(1)
    other.close()
    router.end()
    said, status, lines = lines_of(zoo.server)
    yield (said, status), ((b"", 0), 0)
    yield not_in_the_table(lines), []
    met = {text.split()[0] for _, text in lines}
    yield met >= {"up", "in", "ended", "asked", "granted", "replied", "no", "answered", "operator", "reload", "audited"} or met, True


def a_full_table_of_paths(program):
    """Once as many paths are booked as may be, a path that a router reports isn't, which is a warning; and a path that is found is given up."""
    zoo = Zoo(program, retry=0)
    router = up(zoo.server, 9)
    zoo.server.keep_log()
    for first in range(1, MOST_PATHS + 1, 64):
        router.send(b"".join(reported(plsp, 0, pcep.DOWN) for plsp in range(first, first + 64)))
    yield comes(lambda: zoo.shown("status")[0]["paths"] == MOST_PATHS, 300), True
    router.send(reported(MOST_PATHS + 1, 0, pcep.DOWN))
    yield zoo.said(f"initiate {router.address} t3 {A} {D} 1000 7 7"), "asked 1"
    yield comes(lambda: family(metrics_of(text_of(zoo.server)), "pced_events_total").get("commit givenup"), 10), 1
    router.close()
    said, status, lines = lines_of(zoo.server)
    yield (said, status), ((b"", 0), 0)
    yield not_in_the_table(lines), []
    wanted = [("INFO", f"operator initiate PEER t3 {A} {D} 8kbit 7 7: asked 1"), ("INFO", "asked PEER ticket=1 lsp=t3 by=operator"),
              ("INFO", "gave up PEER ticket=1 lsp=t3"), ("WARN", f"not booked PEER lsp={MOST_PATHS + 1}: too many paths")]
    came = [line for line in lines if DECIDED.match(line[1])]
    yield sorted(came), sorted((level, text.replace("PEER", router.address)) for level, text in wanted)


CASES = [
    decisions_are_logged, requests_are_logged, retries_are_logged, each_routers_lines_have_a_rate, each_line_is_in_the_table, a_full_table_of_paths,
]
