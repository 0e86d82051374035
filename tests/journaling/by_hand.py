"""A journal that is written by hand from the definitions, and what `pced replay` shows of it. The network is the diamond: the links 0
(A to B), 1 (B to D), 2 (A to C) and 3 (C to D) carry 1,000,000 each. Two paths of 500,000 are granted, the second around link 0, which
has less by then."""
import json
import os
import pathlib
import subprocess
import tempfile

import pcep
from harness.cases import Case
from pcep import diamond
from simulator.spelled import report_bytes, reports_of

from .drawn import replayed, written

JOURNAL = """journal 1 20261129T013000Z 0
node = [
 {name="A",id="10.0.0.1"}, {name="B",id="10.0.0.2"},
 {name="C",id="10.0.0.3"}, {name="D",id="10.0.0.4"} ]
link = [
 {from="A",to="B",local="10.1.0.1",remote="10.1.0.2",igp=10,te=10,colour=0,reservable=1000000},
 {from="B",to="D",local="10.2.0.1",remote="10.2.0.2",igp=10,te=10,colour=0,reservable=1000000},
 {from="A",to="C",local="10.3.0.1",remote="10.3.0.2",igp=20,te=20,colour=0,reservable=1000000},
 {from="C",to="D",local="10.4.0.1",remote="10.4.0.2",igp=20,te=20,colour=0,reservable=1000000} ]
---
at 2026-11-29T01:30:00Z
0 up 10.0.0.1 update initiate = done
1 drain 10.0.0.1 = out 0
2 marker 10.0.0.1 = done
3 ask 10.0.0.1 initiate 7431 10.0.0.1 10.0.0.4 500000 7 0 te - - 0 0 0 = asked 1
4 take = job 1
5 commit 1 0,1 = granted 1
6 drain 10.0.0.1 = out 1
at 2026-11-29T01:30:07Z
7 reload 0 10 10 0 400000 = done
8 ask 10.0.0.1 initiate 7432 10.0.0.1 10.0.0.4 500000 7 0 te - 4 1 0 0 = asked 2
9 take = job 2
10 commit 2 0,1 = again
11 take = job 2
12 commit 2 2,3 = granted 2
13 down 10.0.0.1 = done
14 down 10.0.0.1 = refused 3
15 expire 10.0.0.1 = done
16 take = idle
17 commit 9 none = refused 14
"""
STEPS = JOURNAL.splitlines()
FIRST = STEPS.index("at 2026-11-29T01:30:00Z")


def book(*left: int) -> str:
    """The book in which so much is left of each link, at every priority."""
    return "".join(f"link {link} {' '.join([str(amount)] * 8)}\n" for link, amount in enumerate(left))


NOTHING_HELD = book(1_000_000, 1_000_000, 1_000_000, 1_000_000)
ONE_HELD = book(500_000, 500_000, 1_000_000, 1_000_000)
LESS = book(-100_000, 500_000, 1_000_000, 1_000_000)
TWO_HELD = book(-100_000, 500_000, 500_000, 500_000)
AT_END = book(400_000, 1_000_000, 1_000_000, 1_000_000)

# the words behind the file's path: the status, standard output and standard error (of which FILE is the path)
ANSWERS = {
    "": (0, "steps 0 to 17 replayed, 2 grants: each reply as recorded\n", ""),
    "--at 0": (0, "steps 0 to 0 replayed, 0 grants: each reply as recorded\n", ""),
    "--at 5": (0, "steps 0 to 5 replayed, 1 grants: each reply as recorded\n", ""),
    "--at 17": (0, "steps 0 to 17 replayed, 2 grants: each reply as recorded\n", ""),
    "--at 18": (2, "", "18: no such step\n"),
    "--at 4 -- book": (0, NOTHING_HELD, ""),
    "--at 5 -- book": (0, ONE_HELD, ""),
    "--at 6 -- book": (0, ONE_HELD, ""),
    "--at 7 -- book": (0, LESS, ""),
    "--at 11 -- book": (0, LESS, ""),
    "--at 12 -- book": (0, TWO_HELD, ""),
    "--at 15 -- book": (0, AT_END, ""),
    "-- book": (0, AT_END, ""),
    "-- book book": (0, AT_END + AT_END, ""),
    "--at 2026-11-29T01:29:59Z": (0, "no step replayed\n", ""),
    "--at 2026-11-29T01:29:59Z -- book": (0, NOTHING_HELD, ""),
    "--at 2026-11-29T01:30:00Z -- book": (0, ONE_HELD, ""),
    "--at 2026-11-29T01:30:06Z": (0, "steps 0 to 6 replayed, 1 grants: each reply as recorded\n", ""),
    "--at 2026-11-29T01:30:07Z": (0, "steps 0 to 17 replayed, 2 grants: each reply as recorded\n", ""),
    "--at 2030-01-01T00:00:00Z -- book": (0, AT_END, ""),
    "--at noon": (2, "", "noon: no step and no time, as 2026-11-29T01:30:00Z\n"),
    "--at 5 -- bok": (2, "", "bok: no line that shows something\n"),
    "--at 5 -- take": (2, "", "take: no line that shows something\n"),
    "--diff 5 5": (0, "", ""),
    "--diff 12 5": (2, "", "5: before the first of the two\n"),
    "--diff 5 18": (2, "", "18: no such step\n"),
}


def of_files(files: list[list[str]], *words: str):
    """What is said of a journal with files of these lines: FILE1, FILE2 and so on stand for their paths."""
    with tempfile.TemporaryDirectory(prefix="pced-journal-") as folder:
        paths = written(pathlib.Path(folder), files)

        def said(program: str):
            status, out, err = replayed(program, *paths, *words)
            for number, path in enumerate(paths, 1):
                out, err = out.replace(path, f"FILE{number}"), err.replace(path, f"FILE{number}")
            return status, out, err

        yield said


def of_file(lines: list[str], *words: str):
    """What is said of a journal of one file with these lines: FILE stands for its path."""
    for said in of_files([lines], *words):
        def of_one(program: str, said=said):
            status, out, err = said(program)
            return status, out.replace("FILE1", "FILE"), err.replace("FILE1", "FILE")

        yield of_one


def answer(words: str):
    def looks(program):
        for said in of_file(STEPS, *words.split()):
            yield said(program), ANSWERS[words]
    return looks


def json_of(program, *words: str):
    """The documents of JSON that are shown."""
    for said in of_file(STEPS, *words):
        status, out, err = said(program)
        return status, [json.loads(line) for line in out.splitlines()], err


def links_in_json(program):
    """`--json` shows what is left of each link at that step."""
    status, documents, err = json_of(program, "--at", "7", "--json", "--", "links")
    yield status, 0
    yield err, ""
    links = [link for document in documents for link in document["links"]]
    yield [link["reservable_bytes_per_second"] for link in links], [400_000, 1_000_000, 1_000_000, 1_000_000]
    yield [link["unreserved_bytes_per_second"] for link in links], [[-100_000] * 8, [500_000] * 8, [1_000_000] * 8, [1_000_000] * 8]


def one_line_in_json(program):
    """The word `json` in a line is as `--json` for that line."""
    yield json_of(program, "--at", "7", "--", "json links"), json_of(program, "--at", "7", "--json", "--", "links")


def links_that_differ(program):
    """Between two steps differ the links of the path that was granted in between."""
    for said in of_file(STEPS, "--diff", "4", "5", "--json"):
        status, out, err = said(program)
        yield (status, err), (0, "")
        signs = [line[:2] for line in out.splitlines()]
        yield sorted(signs), ["+ ", "+ ", "- ", "- "]
        differing = [json.loads(line[2:]) for line in out.splitlines()]
        yield [("500000" if '500000' in json.dumps(one) else "1000000") for one in differing], ["1000000", "500000", "1000000", "500000"]


def another_reply(program):
    """At the first reply that differs the replay ends, with status 4; what lies before it is shown."""
    lines = [line.replace("= granted 2", "= granted 3") for line in STEPS]
    for said in of_file(lines):
        yield said(program), (4, "step 12: recorded granted 3, replayed granted 2\n", "")
    for said in of_file(lines, "--at", "11", "--", "book"):
        yield said(program), (0, LESS, "")
    for said in of_file(lines, "--at", "12", "--", "book"):
        yield said(program), (4, "step 12: recorded granted 3, replayed granted 2\n", "")


def a_bad_line(program):
    """At the first line that is none the replay ends, with status 2."""
    place = next(number for number, line in enumerate(STEPS) if line.startswith("6 "))
    for other in ("6 drain 10.0.0.1  = out 1", "7 drain 10.0.0.1 = out 1", "06 drain 10.0.0.1 = out 1", "6 drain 10.0.0.1 = out 1 ", "6 drain 10.0.0.1", "",
                  "6 " + "x" * 300_000, "at 2026-11-29T01:29:59Z", "at noon"):
        for said in of_file([*STEPS[:place], other, *STEPS[place + 1:]]):
            yield said(program), (2, "", f"FILE: bad line {place + 1}\n")


def cut_short(program):
    """A file whose last line is cut short is replayed up to it, and that is said."""
    with tempfile.TemporaryDirectory(prefix="pced-journal-") as folder:
        path = pathlib.Path(folder) / "a.journal"
        path.write_text("".join(f"{line}\n" for line in STEPS[:FIRST + 7]) + "6 drain 10.0")
        yield replayed(program, str(path)), (0, "steps 0 to 5 replayed, 1 grants: each reply as recorded\n", f"{path}: cut short at line {FIRST + 8}\n")


def no_file(program):
    """A file that can't be read is a fault of the device, and is named."""
    yield replayed(program, "/nowhere/a.journal"), (3, "", "cannot read /nowhere/a.journal: No such file or directory (os error 2)\ndevice fault\n")


# reports of so many subobjects of an unknown kind, which take 96 kB in memory each: together more than a gigabyte
SUBOBJECTS, LONG_STEPS = 1_500, 12_000
# what a replay may take in memory, in kB: the steps that it keeps take 512 MB
MOST_KB = 800_000


def long_steps(program):
    """However many long steps there are, a replay takes no more memory: it drops those that it kept once they take 512 MB."""
    route = pcep.make_object(pcep.ERO, bytes([0x7E, 4, 0, 0]) * SUBOBJECTS)
    report = report_bytes(reports_of(diamond.lsp(63, 0x18, 1, 63) + route + diamond.ATTRIBUTES)[0]).hex()
    with tempfile.TemporaryDirectory(prefix="pced-journal-") as folder:
        path = f"{folder}/long.journal"
        with open(path, "w") as file:
            file.writelines(f"{line}\n" for line in STEPS[:FIRST + 2])
            file.writelines(f"{place} report 10.0.0.1 {report} = booked\n" for place in range(1, LONG_STEPS))
        process = subprocess.Popen([program, "replay", path], stdin=subprocess.DEVNULL, stdout=subprocess.PIPE, text=True)
        said = process.stdout.read()
        _, status, usage = os.wait4(process.pid, 0)
        yield (said, status), (f"steps 0 to {LONG_STEPS - 1} replayed, 0 grants: each reply as recorded\n", 0)
        yield usage.ru_maxrss < MOST_KB or usage.ru_maxrss, True


CASES = [
    *(Case(f"by_hand_{number}", f"A journal written by hand: {words or 'whole'}.", answer(words)) for number, words in enumerate(ANSWERS)),
    links_in_json, one_line_in_json, links_that_differ, another_reply, a_bad_line, cut_short, no_file, long_steps,
]
