"""Limits of a path, and what answers mean."""
import json
import re
import socket

import pcep
from harness.cases import ROOT
from harness.clock import TIMEOUT_S, comes
from harness.router import Router
from harness.server import ENDED, ENDED_WITH_TEXT, TE, ControlledServer, Server, meant, with_text
from pcep import diamond

from .documented import examples_between
from .read import chosen

# links 0 and 1 have colour 1 and few costs by the TE metric; links 2 and 3 have colour 2 and few by the IGP metric
COLOURED = ("igp=10,te=10,colour=0", "igp=90,te=10,colour=1"), ("igp=20,te=20,colour=0", "igp=20,te=20,colour=6")
ENDS = "10.0.0.1 10.0.0.4"


def text():
    """A link text with colours."""
    told = open(TE).read()
    for old, new in COLOURED:
        told = told.replace(old, new)
    return told


def limits_of_a_path(program):
    """`path` and `place` take the keys of limits; without keys they ask for what `initiate` asks for."""
    server = ControlledServer(program, **with_text(text()))
    over_b, over_c = [True, 20, [0, 1]], [True, 40, [2, 3]]

    def found(keys):
        return chosen(server.shown(f"path {ENDS} 100 7 7 {keys}".rstrip())[0], "is_found", "cost", "links")

    for keys, path in (
        ("", over_b), ("metric=te", over_b), ("metric=igp", over_c), ("metric=hops", [True, 2, None]), ("max-cost=20", over_b),
        ("metric=igp max-cost=40", over_c), ("max-hops=2", over_b), ("exclude=0x1", over_c), ("exclude=0x8", over_b), ("include-any=0x0", over_b),
        ("include-any=0x2", over_c), ("include-any=0x3", over_b), ("include-all=0x6", over_c), ("include-all=0x1", over_b),
        ("include-all=0x00000001 metric=igp", [True, 180, [0, 1]]), ("exclude=0x1 max-hops=2 max-cost=40 metric=te include-any=0xA", over_c),
    ):
        seen = found(keys)
        yield (keys, seen[:2] + [path[2] and seen[2]]), (keys, path)
    for keys, obstacle in (("max-cost=19", "bounds"), ("max-hops=1", "bounds"), ("exclude=0x3", "colours"), ("include-all=0x7", "colours"), ("max-cost=0 exclude=0x3", "several")):
        yield (keys, chosen(server.shown(f"path {ENDS} 100 7 7 {keys}")[0], "is_found", "obstacle")), (keys, [False, obstacle])
    bad = (
        "metric", "metric=", "metric=TE", "metric=2", "max-cost=", "max-cost=-1", "max-cost=1.5", "max-cost=18446744073709551616", "max-hops=x", "exclude=1",
        "exclude=0x", "exclude=0X1", "exclude=0x100000000", "exclude=0xg", "exclude=0x+1", "include-any=+0x1", "include=0x1", "=", "=1", "max-cost=1 max-cost=1",
        "metric=te max-hops=2 metric=te", "max-cost=40  metric=te", "max-cost=40,metric=te", "MAX-COST=1",
    )
    for keys in bad:
        yield (keys, server.asked(f"path {ENDS} 100 7 7 {keys}")), (keys, (b"bad line 1\n", 2))
        yield (keys, server.asked(f"place 127.0.1.1 t {ENDS} 100 7 7 {keys}")), (keys, (b"bad line 1\n", 2))
    yield server.asked(f"path {ENDS} 100 7 7 "), (b"bad line 1\n", 2)
    yield server.asked(f"initiate 127.0.1.1 t {ENDS} 100 7 7 metric=te"), (b"bad line 1\n", 2)
    yield server.status()["steps"], 0
    router = Router(server, 1)
    router.come_up()
    router.ask()
    for line, links in (
        (f"place 127.0.1.1 a {ENDS} 100 7 7", [0, 1]), (f"place 127.0.1.1 b {ENDS} 100 7 7 exclude=0x1", [2, 3]),
        (f"place 127.0.1.1 c {ENDS} 100 7 7 metric=igp max-hops=2", [2, 3]), (f"initiate 127.0.1.1 d {ENDS} 100 7 7", [0, 1]),
    ):
        yield server.asked(line)[1], 0
        yield router.hear_of(pcep.PCINITIATE)[:2], bytes([0x20, pcep.PCINITIATE])
        yield server.shown("grants")[0]["grants"][-1]["links"], links
    yield server.asked(f"place 127.0.1.1 a {ENDS} 100 7 7"), (b"refused 16\n", 1)
    yield server.end(), ENDED_WITH_TEXT


def units_of_bandwidth(program):
    """A bandwidth with a unit is the least whole number of bytes per second that isn't below it, in each line that has one."""
    server = ControlledServer(program)
    for unit, number in (
        ("750000B", 750000), ("750kB", 750000), ("0.75MB", 750000), ("0.00075GB", 750000), ("0.00000075TB", 750000), ("6000000bit", 750000),
        ("6000kbit", 750000), ("6Mbit", 750000), ("0.006Gbit", 750000), ("0.000006Tbit", 750000), ("006.000Mbit", 750000), ("0B", 0), ("0bit", 0), ("1bit", 1),
        ("8bit", 1), ("9bit", 2), ("0.000001kbit", 1), ("1.1B", 2), ("0.000000000000000001B", 1), ("4.000000000000000001MB", 4000001), ("12.345678kbit", 1544),
        ("281TB", 281_000_000_000_000), ("2251.799Tbit", 281_474_875_000_000),
    ):
        yield (unit, server.asked(f"json path {ENDS} {unit} 7 7")), (unit, server.asked(f"json path {ENDS} {number} 7 7"))
    for wrong in ("750KB", "750kb", "750 kB", "k", "kB", "bit", ".5MB", "5.MB", "1.2.3MB", "1e3B", "-1B", "+1B", "0x1B", "1kBit", "1Kbit", "1mB", "1bits", "1B1", "282TB", "2252Tbit",
                  "18446744073709551616B", "0.0000000000000000001B", "1.0", "750000,0", "1kkB"):
        yield (wrong, server.asked(f"path {ENDS} {wrong} 7 7")), (wrong, (b"bad line 1\n", 2))
        yield (wrong, server.asked(f"initiate 127.0.1.1 t {ENDS} {wrong} 7 7")), (wrong, (b"bad line 1\n", 2))
        yield (wrong, server.asked(f"place 127.0.1.1 t {ENDS} {wrong} 7 7")), (wrong, (b"bad line 1\n", 2))
    router = Router(server, 1)
    router.come_up()
    router.ask()
    for line in (f"initiate 127.0.1.1 a {ENDS} 2.4Mbit 7 0", f"place 127.0.1.1 b {ENDS} 300kB 7 0 max-hops=2"):
        yield server.asked(line)[1], 0
        yield router.hear_of(pcep.PCINITIATE)[:2], bytes([0x20, pcep.PCINITIATE])
        yield server.shown("grants")[0]["grants"][-1]["bandwidth_bytes_per_second"], 300_000
    yield server.end(), ENDED


def what_answers_mean(program):
    """`tell` says on standard error what an answer means that is a word and a number, unless it is to be quiet. Its status is that of the worst."""
    server = ControlledServer(program)
    router, other = Router(server, 1), Router(server, 2)
    router.come_up()
    other.come_up()
    other.close()
    yield comes(lambda: not server.peers()["127.0.1.2"]["is_up"]), True
    router.send(diamond.report(1, 1000.0))
    router.ask(1)
    wants = "PEER NAME FROM TO BW SETUP HOLD"
    for line, answer, meaning, status in (
        ("update 10.0.0.9 1", "refused 1", "10.0.0.9 is not known", 1), ("update 127.0.1.2 1", "refused 3", "127.0.1.2 is down", 1),
        ("delete 127.0.1.1 9", "refused 4", "127.0.1.1 has no LSP 9", 1), ("update 127.0.1.1 1", "refused 5", "LSP 1 of 127.0.1.1 is not delegated", 1),
        ("delete 127.0.1.1 1", "refused 9", "LSP 1 of 127.0.1.1 was not initiated", 1),
        ("initiate 127.0.1.1 t 10.0.0.1 10.9.9.9 1 7 7", "refused 13", "no node owns an end of the path, or one node owns both", 1),
        ("initiate 127.0.1.1 t 10.0.0.1", "bad line 1", f"initiate wants {wants}", 2), ("place", "bad line 1", f"place wants {wants} [KEY=VALUE ..]", 2),
        ("books", "bad line 1", "no line begins with books", 2), ("link", "bad line 1", "link wants the number of a link", 2),
        ("book 1", "bad line 1", "book wants nothing", 2), ("reload now", "bad line 1", "reload wants check, or nothing", 2),
        ("update 127.0.1 1", "bad line 1", "127.0.1 names no peer, or several", 2), ("update 127.0.1.1 x", "bad line 1", "update wants PEER PLSP", 2),
        ("path 10.0.0 10.0.0.4 1 7 7", "bad line 1", "no node has the name 10.0.0", 2), ("path 10.0.0.1 Z 1 7 7", "bad line 1", "no node has the name Z", 2),
        ("path 10.0.0.1 10.0.0.4 1e9 7 7", "bad line 1", "1e9 is no bandwidth", 2), ("path 10.0.0.1 10.0.0.4 281474976710656 7 7", "bad line 1", "281474976710656 is no bandwidth", 2),
        ("path 10.0.0.1 10.0.0.4 1 7 7 max-hop=2", "bad line 1", "max-hop=2 limits no path, or comes twice", 2),
        ("initiate 127.0.1.1 t 10.0.0.1 10.0.0.4 1 7 7 max-hops=x", "bad line 1", "initiate takes no limits, and place does", 2),
        ("path 10.0.0.1 10.0.0.4 6 Mbit 7 7", "bad line 1", "Mbit is no priority", 2),
        ("json path 10.0.0.1 10.0.0.4 1 7 8 max-hops=x", "bad line 1", "8 is no priority", 2),
        ("place 127.0.1.1 t 10.0.0.1 10.0.0.4 1 7 -1", "bad line 1", "-1 is no priority", 2),
        ("path 10.0.0.1  10.0.0.4 1 7 7", "bad line 1", "words are parted by one space, and none is at the end", 2),
        ("links ", "bad line 1", "words are parted by one space, and none is at the end", 2),
        ("place 127.0.1.1 t 10.0.0.1 10.0.0.4 1 7 7 max-hops=2 max-hops=3", "bad line 1", "max-hops=3 limits no path, or comes twice", 2),
    ):
        told = f"{answer}\n".encode()
        yield meant(program, server.path, line), (told, f"{answer}: {meaning}\n".encode(), status)
        yield meant(program, server.path, line, words=["--quiet"]), (told, b"", status)
    for line in ("status", "links", "book", "lsp 127.0.1.1 9", "update 127.0.1.1 1 1", "return 127.0.1.1 1"):
        answer, meaning, status = meant(program, server.path, line)
        yield (line, meaning != b""), (line, status != 0)
    yield meant(program, server.path, "words update 10.0.0.9 1"), (b"refused 1\n", b"refused 1: 10.0.0.9 is not known\n", 1)
    yield meant(program, server.path, "status", words=["--json"])[1:], (b"", 0)
    yield meant(program, server.path, "status", "update 10.0.0.9 1", "status")[2], 1
    yield meant(program, server.path, "books", "update 10.0.0.9 1")[2], 2
    yield json.loads(meant(program, server.path, "tickets", words=["--json", "--quiet"])[0]), {"tickets": []}
    yield server.end(), ENDED


def meanings_of_the_documents(program):
    """Answers and what they mean are those of docs/OPERATOR.md, by `tell` and behind the word `words`."""
    server = ControlledServer(program)
    router = Router(server, 1)
    router.come_up()
    start, end = "### Bad lines and memory", "**Memory.**"
    examples = list(examples_between(start, end))
    yield len(examples), 2
    for (line,), _, said in examples:
        answer, meaning, _ = meant(program, server.path, line)
        yield (answer + meaning).decode(), said
    with open(f"{ROOT}/docs/OPERATOR.md", encoding="utf-8") as file:
        raw = re.findall(r"^\$ printf '(.+)\\n' \| nc -NU control\n((?:(?!```).*\n)*)", file.read(), re.MULTILINE)
    yield len(raw), 1
    for line, said in raw:
        operator = server.connect()
        operator.sendall(f"{line}\n".encode())
        operator.shutdown(socket.SHUT_WR)
        yield operator.makefile("rb").read().decode(), said
        operator.close()
    yield server.end(), ENDED


def the_word_words(program):
    """A line behind the word `words` has the same answer, and a line with a sentence behind that if there is something to say."""
    server = Server(program, "--endless")
    for line, said in (
        ("words update 10.0.0.9 1", ["refused 1", "# refused 1: 10.0.0.9 is not known"]), ("update 10.0.0.9 1", ["refused 1"]),
        ("words books", ["bad line 3", "# bad line 3: no line begins with books"]), ("words json path 10.0.0.1 Z 1 7 7", ["bad line 4", "# bad line 4: no node has the name Z"]),
        ("words words book", ["bad line 5", "# bad line 5: no line begins with words"]), ("words ", ["bad line 6", "# bad line 6: the line has no first word"]),
        ("words", ["bad line 7"]), ("Words book", ["bad line 8"]), ("words  book", ["bad line 9", "# bad line 9: the line has no first word"]),
        ("words book", ["link 0 1000000 1000000 1000000 1000000 1000000 1000000 1000000 1000000"]),
    ):
        yield (line, server.tell(line, len(said))), (line, said)
    yield [server.tell("json tickets", 4)[-1]], ['{"tickets":[]}']
    longest = f"words {'x' * 4090}"
    yield [line[:24] for line in server.tell(longest, 2)], ["bad line 12", "# bad line 12: no line b"]
    yield server.tell(longest + "x"), ["bad line 13"]
    server.process.stdin.write(b"words end\n")
    yield server.process.wait(timeout=TIMEOUT_S), 0


def a_link_text_that_is_bad(program):
    """What `reload` answers to a bad link text, or to one that is gone, has a meaning and a status too."""
    how = with_text(text())
    server = ControlledServer(program, **how)
    with open(how["te"], "w") as file:
        file.write(text().replace("10.0.0.3", "10.0.0.2"))
    yield meant(program, server.path, "reload"), (b"te fault 5\n", b"te fault 5: two nodes own one address\n", 2)
    with open(how["te"], "w") as file:
        file.write(text().replace('name="C"', 'name="E"').replace('to="C"', 'to="E"').replace('from="C"', 'from="E"'))
    yield meant(program, server.path, "reload check"), (b"te fault 10\n", b"te fault 10: the text has other nodes, or other ends or addresses of links\n", 2)
    yield server.end(), ENDED_WITH_TEXT


CASES = [limits_of_a_path, units_of_bandwidth, what_answers_mean, meanings_of_the_documents, the_word_words, a_link_text_that_is_bad]
