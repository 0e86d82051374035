"""A file with a base that is written by hand from the definitions, and what `pced replay` says of it. At its beginning the network of
`by_hand` has three routers: 10.0.0.1 is up, 10.0.0.2 is down, and 10.0.0.3 is up without the stateful capability.

| LSP | Path | Holds |
|---|---|---|
| 5 of 10.0.0.1 | over B, reported; its removal is awaited under SRP-ID 2 | 100,000 |
| 6 of 10.0.0.1 | over C, reported with 150,000, and granted with 200,000 under SRP-ID 1 | 200,000, as both are of one tunnel |
| 7 of 10.0.0.1 | none: it is down, and ticket 4 asks for one | nothing |
| t3 of 10.0.0.1 | over B, granted under SRP-ID 3 and not yet reported; the message that initiates it waits | 300,000 |
| 1 of 10.0.0.2 | from B to D, stale | 50,000 at the priorities 3 to 7 |
"""
import pathlib

from harness.cases import ROOT, Case

from .by_hand import FIRST, STEPS, book, of_file, of_files

INITIATE = ("200c005c 2110000c0000000000000003 20100010000000090011000274330000 0412000c0a0000010a000004 0710001401080a010002200001080a0200022000"
            " 0910001400000000000000000000000007000000 0510000848927c00").replace(" ", "")
# LSP 5 is gone, as SRP-ID 2 asked; and t3 is up as LSP 8, as SRP-ID 3 asked
REMOVAL = "200a002c 2110000c0000000000000002 2010001c00005005 001200100a000001000100070a0000010a000004".replace(" ", "")
REPORT = ("200a0064 2110000c0000000000000003 2010002400008099 0011000274330000 001200100a000001000100090a0000010a000004"
          " 0710001401080a010002200001080a0200022000 0910001400000000000000000000000007000000 0510000848927c00").replace(" ", "")
A_TO_D = "10.0.0.1 10.0.0.4"
OPEN = "7 0 0 0 0 te - - - - -"

BASE = f"""base 40 2 9 3 7
value 10 10 0 900000
value 10 10 0 1000000
value 20 20 0 1000000
value 20 20 0 1000000
peer 10.0.0.1 up 1 update initiate synced 3
waits {INITIATE}
peer 10.0.0.2 down 2 update - synced 1
peer 10.0.0.3 up 3 - - synced 0
path 10.0.0.1 5 lsp 1 signalled 10.0.0.1 10.0.0.4 7 167772161 0 100000 fresh 0,1
path 10.0.0.1 6 lsp 1 signalled 10.0.0.1 10.0.0.4 8 167772161 0 150000 fresh 2,3
path 10.0.0.1 6 srp 1 signalled 10.0.0.1 10.0.0.4 8 167772161 0 200000 fresh 2,3
path 10.0.0.2 1 lsp 0 unsignalled 10.0.0.2 1 3 50000 stale 1
path 10.0.0.1 0 srp 3 asked 10.0.0.1 3 0 300000 fresh 0,1
path 10.0.0.1 7 lsp 0 unsignalled 10.0.0.1 7 0 100000 fresh -
record 10.0.0.1 5 7435 delegated created 2 signalled 10.0.0.1 10.0.0.4 7 167772161 {A_TO_D} 100000 {OPEN}
record 10.0.0.1 6 7436 delegated - - signalled 10.0.0.1 10.0.0.4 8 167772161 {A_TO_D} 150000 {OPEN}
record 10.0.0.2 1 - - - - unsignalled 10.0.0.2 1 - - 50000 7 3 0 0 0 te - - - - protect
record 10.0.0.1 7 7437 delegated - - unsignalled 10.0.0.1 7 {A_TO_D} 100000 {OPEN}
name 10.0.0.1 3 7433
ticket 4 10.0.0.1 1 1 9 taken update 7 {A_TO_D} 100000 {OPEN}
ticket 6 10.0.0.1 1 0 0 waits initiate 7434 {A_TO_D} 700000 {OPEN} {A_TO_D} 700000 {OPEN}
ticket 7 10.0.0.3 3 1 5 waits answer 9 - {A_TO_D} 0 7 7 1 2 4 igp 30 5 - 40 - {A_TO_D} 0 7 7 1 2 4 igp 30 5 - 40 -
""".splitlines()
BEHIND = f"""at 2026-11-29T02:00:00Z
40 drain 10.0.0.1 = out 1
41 commit 4 0,1 = granted 4
42 take = job 6
43 commit 6 2,3 = granted 5
44 drain 10.0.0.1 = out 2
45 take = job 7
46 commit 7 none = nopath
47 drain 10.0.0.3 = out 1
at 2026-11-29T02:00:01Z
48 report 10.0.0.1 {REMOVAL} = booked
49 report 10.0.0.1 {REPORT} = booked
50 up 10.0.0.2 update initiate = done
51 marker 10.0.0.2 = done
52 ask 10.0.0.2 update 1 = refused 4
53 ask 10.0.0.1 initiate 7433 {A_TO_D} 1 7 0 te - - 0 0 0 = refused 16
54 delete 10.0.0.1 8 = removing 6
55 drain 10.0.0.1 = out 1
56 refused 10.0.0.1 1 = done
57 down 10.0.0.3 = done
58 up 10.0.0.3 - = done
59 ask 10.0.0.1 initiate 7438 {A_TO_D} 1 7 0 te - - 0 0 0 = asked 8
""".splitlines()


def spelled(lines: list[str]) -> list[str]:
    """The lines of a base: each word has a space behind it."""
    return [f"{line} " for line in lines]


def file_of(base: list[str], behind: list[str] = BEHIND, first: int = 40) -> list[str]:
    """The lines of a file with this base."""
    head = f"journal 1 20261129T013000Z {first}"
    return [head, *STEPS[1:FIRST], *spelled(base), "end", *behind]


WHOLE = file_of(BASE)
END = WHOLE.index("end") + 1
ALL = (0, "steps 40 to 59 replayed from the base of FILE, 2 grants: each reply as recorded\n", "")


def differing(*links: list[tuple[int, int]]) -> str:
    """The book in which so much is left of each link: at so many priorities, and then at so many."""
    left = [[amount for count, amount in link for _ in range(count)] for link in links]
    return "".join(f"link {link} {' '.join(map(str, amounts))}\n" for link, amounts in enumerate(left))


AT_BASE = differing([(8, 500_000)], [(3, 600_000), (5, 550_000)], [(8, 800_000)], [(8, 800_000)])
UPDATED = differing([(8, 400_000)], [(3, 500_000), (5, 450_000)], [(8, 800_000)], [(8, 800_000)])
INITIATED = differing([(8, 400_000)], [(3, 500_000), (5, 450_000)], [(8, 100_000)], [(8, 100_000)])
REMOVED = differing([(8, 500_000)], [(3, 600_000), (5, 550_000)], [(8, 100_000)], [(8, 100_000)])
IN_SYNC = book(500_000, 600_000, 100_000, 100_000)
REFUSED = book(500_000, 600_000, 150_000, 150_000)

# the words behind the file's path: the status, standard output and standard error
ANSWERS = {
    "": ALL,
    "--at 39": (2, "", "39: before the first step\n"),
    "--at 0 -- book": (2, "", "0: before the first step\n"),
    "--at 2026-11-29T01:59:59Z -- book": (2, "", "2026-11-29T01:59:59Z: before the first step\n"),
    "--diff 39 41": (2, "", "39: before the first step\n"),
    "--at 40 -- book": (0, AT_BASE, ""),
    "--at 41": (0, "steps 40 to 41 replayed from the base of FILE, 1 grants: each reply as recorded\n", ""),
    "--at 41 -- book": (0, UPDATED, ""),
    "--at 43 -- book": (0, INITIATED, ""),
    "--at 2026-11-29T02:00:00Z -- book": (0, INITIATED, ""),
    "--at 48 -- book": (0, REMOVED, ""),
    "--at 49 -- book": (0, REMOVED, ""),
    "--at 51 -- book": (0, IN_SYNC, ""),
    "--at 59 -- book": (0, REFUSED, ""),
    "-- book": (0, REFUSED, ""),
    "--at 59": ALL,
    "--at 60": (2, "", "60: no such step\n"),
    "--diff 56 58": (0, "", ""),
}


def answer(words: str):
    def looks(program):
        for said in of_file(WHOLE, *words.split()):
            yield said(program), ANSWERS[words]
    return looks


def edited(old: str, new: str) -> list[str]:
    """The file with another text in its base, which stands there once."""
    lines = "\n".join(BASE)
    if lines.count(old) != 1:
        raise ValueError(old)
    return file_of([line for line in lines.replace(old, new).split("\n") if line])


def place_of(text: str) -> int:
    """The number of the first line of the file that begins so."""
    return next(number for number, line in enumerate(WHOLE, 1) if line.startswith(text))


# what may not stand: the text in the base, and what stands in its place
MAY_NOT_STAND = {
    "a SRP-ID of two grants": ("6 srp 1", "6 srp 3"),
    "a SRP-ID of a grant and of a removal": ("delegated created 2", "delegated created 1"),
    "two grants of one LSP": ("path 10.0.0.1 0 srp 3", "path 10.0.0.1 6 srp 3"),
    "a record without a path": ("path 10.0.0.1 5 lsp 1", "path 10.0.0.1 9 lsp 1"),
    "a record of PLSP-ID 0": ("record 10.0.0.1 5 ", "record 10.0.0.1 0 "),
    "two records of one LSP": ("record 10.0.0.1 5 ", "record 10.0.0.1 6 "),
    "a name of no grant": ("name 10.0.0.1 3", "name 10.0.0.1 1"),
    "a grant without a name": ("name 10.0.0.1 3 7433", ""),
    "two names of a grant": ("name 10.0.0.1 3 7433", "name 10.0.0.1 3 7433\nname 10.0.0.1 3 7434"),
    "a peer that is listed twice": ("peer 10.0.0.2", "peer 10.0.0.1"),
    "a ticket's number above the last": ("base 40 2 9 3 7", "base 40 2 9 3 6"),
    "tickets' numbers that fall": ("ticket 6 ", "ticket 3 "),
    "a ticket's number twice": ("ticket 6 ", "ticket 4 "),
    "a ticket of number 0": ("ticket 4 ", "ticket 0 "),
    "a ticket that waits and was taken four times": ("1 0 0 waits", "1 4 0 waits"),
    "a ticket that was taken five times": ("1 1 9 taken", "1 5 9 taken"),
    "a link without values": ("value 10 10 0 900000", ""),
    "more values than links": ("value 10 10 0 900000", "value 10 10 0 900000\nvalue 1 1 0 1"),
    "other steps than the head says": ("base 40", "base 41"),
    "more grants than steps": ("base 40 2", "base 40 41"),
    "more changes than steps": ("base 40 2 9", "base 40 2 41"),
    "more sessions than steps": ("base 40 2 9 3", "base 40 2 9 41"),
    "more tickets than steps": ("base 40 2 9 3 7", "base 40 2 9 3 41"),
}


def what_may_not_stand(program):
    """A base that no events lead to is a bad line, that of its end."""
    for why, (old, new) in MAY_NOT_STAND.items():
        lines = edited(old, new)
        for said in of_file(lines):
            yield (why, said(program)), (why, (2, "", f"FILE: bad line {lines.index('end') + 1}\n"))


# what is no line of a base: how the line begins, and what stands in its place
NO_LINES = {
    "base 40": ("base 40 2 9 3", "base 40 2 9 3 7 0", f"base 40 2 9 3 {1 << 64}", "Base 40 2 9 3 7", "value 10 10 0 900000", ""),
    "value 10 10 0 9": ("value 0 10 0 900000", "value 10 0 0 900000", f"value {1 << 24} 10 0 1", f"value 10 10 0 {1 << 48}", f"value 10 10 {1 << 32} 1",
                        "value 10 10 0", "base 40 2 9 3 7", "waits 20020004"),
    "peer 10.0.0.1": ("peer 167772161 up 1 - - synced 3", "peer 10.0.0.1 up 1 initiate update synced 3", "peer 10.0.0.1 up 1 - synced 3",
                      "peer 10.0.0.1 up 1 update - synced", "peer 10.0.0.1 going 1 - - synced 3", "peer 10.0.0.1 up 1 - - synced -",
                      f"peer 10.0.0.1 up 1 - - synced {1 << 32}", "peer 10.0.0.1 up 1 - - synced 3 -"),
    "waits": ("waits", "waits -", "waits 2", "waits 20", "waits 2002000g", "waits 20020008", "waits 2002000400", "waits 200C0004", "waits 20020004 20020004"),
    "path 10.0.0.1 5": ("path 10.0.0.1 5 lsp 65536 asked 10.0.0.1 9 0 1 fresh 0", "path 10.0.0.1 1048576 lsp 1 asked 10.0.0.1 9 0 1 fresh 0",
                        "path 10.0.0.1 5 lsp 1 asked 10.0.0.1 9 8 1 fresh 0", "path 10.0.0.1 5 lsp 1 asked 10.0.0.1 9 0 1 fresh 0,",
                        "path 10.0.0.1 5 lsp 1 asked 10.0.0.1 9 0 1 fresh 0 1", "path 10.0.0.1 5 lsp 1 asked 10.0.0.1 9 0 1 old 0",
                        "path 10.0.0.1 5 lsp 1 other 10.0.0.1 9 0 1 fresh 0", f"path 10.0.0.1 5 lsp 1 asked 10.0.0.1 9 0 {1 << 48} fresh 0",
                        "path 10.0.0.1 5 - asked 10.0.0.1 9 0 1 fresh 0"),
    "record 10.0.0.1 5": (f"record 10.0.0.1 5 7435 delegated created 2 asked 10.0.0.1 9 {A_TO_D} 1 8 4 0 0 0 te - - - - -",
                          f"record 10.0.0.1 5 7435 created delegated 2 asked 10.0.0.1 9 {A_TO_D} 1 {OPEN}",
                          f"record 10.0.0.1 5 7435 delegated created 2 asked 10.0.0.1 9 {A_TO_D} 1 7 0 0 0 0 cost - - - - -",
                          f"record 10.0.0.1 5 7435 delegated created 2 asked 10.0.0.1 9 {A_TO_D} 1 {OPEN} -"),
    "name 10.0.0.1": ("name 10.0.0.1 3 -", "name 10.0.0.1 3", "name 10.0.0.1 3 743", f"name 10.0.0.1 3 {'61' * 65}", "name 10.0.0.1 3 7433 7433"),
    "ticket 4": (f"ticket 4 10.0.0.1 1 1 9 gone update 7 {A_TO_D} 1 {OPEN}", f"ticket 4 10.0.0.1 1 1 9 taken delete 7 {A_TO_D} 1 {OPEN}",
                 "ticket 4 10.0.0.1 1 1 9 taken update 7", f"ticket 4 10.0.0.1 1 1 9 taken update - {A_TO_D} 1 {OPEN}",
                 f"ticket 4 10.0.0.1 1 1 9 taken initiate - {A_TO_D} 1 {OPEN} {A_TO_D} 1 {OPEN}"),
}


def what_is_no_line(program):
    """A line that is none of a base, or stands where it may not, is bad."""
    for begins, others in NO_LINES.items():
        number = place_of(begins)
        for other in others:
            lines = [*WHOLE[:number - 1], f"{other} ", *WHOLE[number:]]
            for said in of_file(lines):
                yield (other, said(program)), (other, (2, "", f"FILE: bad line {number}\n"))


def other_spaces(program):
    """Each word of a base has one space behind it, and `end` has none."""
    number = place_of("value 10 10 0 9")
    for other in ("value 10 10 0 900000", "value 10 10 0 900000  ", " value 10 10 0 900000 ", "value  10 10 0 900000 ", "value\t10 10 0 900000 ", "end "):
        for said in of_file([*WHOLE[:number - 1], other, *WHOLE[number:]]):
            yield (other, said(program)), (other, (2, "", f"FILE: bad line {number}\n"))


def another_start(program):
    """A base that lacks something may stand, if no file is before it: then the replies tell."""
    without = file_of([line for line in BASE if not line.startswith("ticket 4")])
    for said in of_file(without):
        yield said(program), (4, "step 41: recorded granted 4, replayed refused 14\n", "")
    for said in of_file(edited(f"waits {INITIATE}", "")):
        yield said(program), (4, "step 40: recorded out 1, replayed out 0\n", "")
    for said in of_file(edited("900000", "350000")):
        yield said(program), (4, "step 41: recorded granted 4, replayed again\n", "")
    for said in of_file(edited("base 40 2 9 3 7", "base 40 1 9 3 9")):
        yield said(program), (4, "step 59: recorded asked 8, replayed asked 10\n", "")


def no_whole_base(program):
    """A file with a base has all of it, and one without has none of it."""
    behind = END - 1
    for lines, number in (
        (WHOLE[:behind], behind),
        (WHOLE[:behind - 3], behind - 3),
        (WHOLE[:FIRST], FIRST),
        ([*WHOLE[:behind], *BEHIND], END),
        ([*WHOLE[:FIRST], *BEHIND], FIRST + 1),
        ([*WHOLE[:FIRST], "end", *BEHIND], FIRST + 1),
        ([STEPS[0], *WHOLE[1:]], FIRST + 1),
        ([*WHOLE[:END], "end"], END + 1),
        ([*WHOLE[:END], WHOLE[FIRST]], END + 1),
    ):
        for said in of_file(lines):
            yield said(program), (2, "", f"FILE: bad line {number}\n")
    for said in of_file(WHOLE[:END]):
        yield said(program), (0, "no step replayed\n", "")


# ---- a run's second file

# the base of `by_hand`'s run after its first seven steps
SECOND_BASE = """base 7 1 1 1 1
value 10 10 0 1000000
value 10 10 0 1000000
value 20 20 0 1000000
value 20 20 0 1000000
peer 10.0.0.1 up 1 update initiate synced 1
path 10.0.0.1 0 srp 1 asked 10.0.0.1 1 0 500000 fresh 0,1
name 10.0.0.1 1 7431
""".splitlines()
SPLIT = FIRST + 8
ONE, OTHER = STEPS[:SPLIT], file_of(SECOND_BASE, STEPS[SPLIT:], 7)
BOTH = (0, "steps 0 to 17 replayed, 2 grants: each reply as recorded\n", "")


def two_files(program):
    """A run whose second file goes on at step 7 replays as one, and the second replays alone."""
    for said in of_files([ONE, OTHER]):
        yield said(program), BOTH
    for words, (status, out, err) in {
        "": (0, "steps 7 to 17 replayed from the base of FILE1, 1 grants: each reply as recorded\n", ""),
        "--at 11 -- book": (0, book(-100_000, 500_000, 1_000_000, 1_000_000), ""),
        "--at 12 -- book": (0, book(-100_000, 500_000, 500_000, 500_000), ""),
    }.items():
        for said in of_files([OTHER], *words.split()):
            yield said(program), (status, out, err)
        if words:
            for said in of_files([ONE, OTHER], *words.split()):
                yield said(program), (status, out, err)


def a_third_file(program):
    """A file that begins where the one before it began has the same base, and no step is between."""
    third = file_of(SECOND_BASE, STEPS[SPLIT:], 7)
    for said in of_files([ONE, OTHER[:OTHER.index("end") + 1], third]):
        yield said(program), BOTH
    for said in of_files([OTHER[:OTHER.index("end") + 1], third]):
        yield said(program), (0, "steps 7 to 17 replayed from the base of FILE1, 1 grants: each reply as recorded\n", "")


def another_base(program):
    """The base of a later file is what the files before it lead to: the first line that differs is bad."""
    base = FIRST + 1
    for edit, number in (
        (lambda lines: ["base 7 2 1 1 1", *lines[1:]], base),
        (lambda lines: ["base 7 1 2 1 1", *lines[1:]], base),
        (lambda lines: [*lines[:5], "peer 10.0.0.1 up 1 update initiate synced 2", *lines[6:]], base + 5),
        (lambda lines: [*lines[:6], "waits 20020004", *lines[6:]], base + 6),
        (lambda lines: lines[:6], base + 6),
        (lambda lines: lines[:7], base + 7),
        (lambda lines: [*lines[:7], "name 10.0.0.1 1 7432"], base + 7),
        (lambda lines: [*lines, "name 10.0.0.1 1 7432"], base + 8),
        (lambda lines: [*lines[:2], *lines[3:]], base + 2),
    ):
        for said in of_files([ONE, file_of(edit(SECOND_BASE), STEPS[SPLIT:], 7)]):
            yield said(program), (2, "", f"FILE2: bad line {number}\n")
    whole = OTHER.index("end")
    for lines, number in (([*OTHER[:whole], *OTHER[whole + 1:]], whole + 1), (OTHER[:whole], whole), (OTHER[:FIRST], FIRST)):
        for said in of_files([ONE, lines]):
            yield said(program), (2, "", f"FILE2: bad line {number}\n")


def files_in_disorder(program):
    """A file that is missing, of another run, repeated or out of its order is refused at its head."""
    other_run = [OTHER[0].replace("13", "14"), *OTHER[1:]]
    for files, number in (([ONE[:-1], OTHER], 2), ([ONE, other_run], 2), ([ONE, OTHER, OTHER], 3), ([OTHER, ONE], 2), ([ONE, ONE], 2)):
        for said in of_files(files):
            yield said(program), (2, "", f"FILE{number}: bad line 1\n")


def hostile_lines(program):
    """A line of up to 262,144 bytes that is none is bad, whatever it has, in the base and behind it."""
    most = 1 << 18
    for line in ("", "\0" * 99, "\udcff\udcfe", "9" * most, "waits " + "0" * (most - 7) + " ", "waits " + "ff" * (most // 2 - 4) + " ", " " * most,
                 "path 10.0.0.1 5 lsp 1 asked 10.0.0.1 9 0 1 fresh " + "," * (most - 52) + " ", "name 10.0.0.1 3 " + "61" * (most // 2 - 9) + " ",
                 "40 commit 1 " + "0," * (most // 2 - 12) + " = done", "40 report 10.0.0.1 200a" + "ff" * (most // 2 - 20) + " = booked",
                 "40 reload " + "; " * (most // 2 - 12) + "= done", "40 ask 10.0.0.1 answer " + "2003" * (most // 4 - 10) + " = asked 8", "x" * (most + 1)):
        for number, lines in ((place_of("name"), WHOLE), (END + 2, WHOLE)):
            for said in of_file([*lines[:number - 1], line, *lines[number:]]):
                yield (line[:40], said(program)), (line[:40], (2, "", f"FILE: bad line {number}\n"))


def document(program):
    """The two files in docs/JOURNAL.md replay, together and the second alone."""
    text = pathlib.Path(ROOT, "docs", "JOURNAL.md").read_text()
    one, other = (block.splitlines() for block in text.split("```\n") if block.startswith("journal 1 "))
    begins, ends = other.index("---") + 1, other.index("end")
    other = [*other[:begins], *spelled(other[begins:ends]), *other[ends:]]
    for said in of_files([one, other]):
        yield said(program), (0, "steps 0 to 6 replayed, 1 grants: each reply as recorded\n", "")
    for said in of_files([other]):
        yield said(program), (0, "steps 6 to 6 replayed from the base of FILE1, 0 grants: each reply as recorded\n", "")


CASES = [
    *(Case(f"base_{number}", f"A file with a base, written by hand: {words or 'whole'}.", answer(words)) for number, words in enumerate(ANSWERS)),
    what_may_not_stand, what_is_no_line, other_spaces, another_start, no_whole_base,
    two_files, a_third_file, another_base, files_in_disorder, hostile_lines, document,
]
