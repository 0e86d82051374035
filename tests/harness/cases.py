"""Cases: how a test program is given its cases and programs, runs them one by one or several at once, and says how each went.

A case is a function of the program that is tried. It yields pairs of what came and what is wanted, or texts that say what is wrong; or
it yields nothing and raises what went wrong. Its name and the first paragraph of its documentation are its line:

    ok    a_session: A router is answered and reports. (0.4 s)
    FAIL  a_crowd: The oldest connection makes room. (1.2 s)
          tests/serving/places.py:47
          wanted True
          came   (3.1, 0.02)

The last line is `N passed, M failed`. A case is run once; none is tried again until it passes.
"""
import argparse
import concurrent.futures
import multiprocessing
import os
import re
import signal
import sys
import time
import traceback
from collections.abc import Callable, Iterable
from dataclasses import dataclass

ROOT = os.path.dirname(os.path.dirname(os.path.dirname(os.path.realpath(__file__))))
# the programs that `rt ci` builds by its two compilers
PROVED = [f"{ROOT}/crates/pced/out/pced"]
BUILT = [*PROVED, f"{ROOT}/crates/pced/out/pced.by-rattle"]
# the longest time of a case, on any machine, in seconds
MOST_SECONDS = 600
# how many differences of a case are shown, and how much of a value
MOST_SHOWN, LONGEST = 5, 1500
# what is done after each case, however it ended: what it has begun ends
after_each: list[Callable[[], None]] = []


class NotTried(Exception):
    """What a case needs, and the machine lacks."""


@dataclass(frozen=True)
class Case:
    """A case with its name, a sentence, and the function that yields its looks."""
    name: str
    sentence: str
    looks: Callable
    # how long it may take, if not as long as others of its program
    seconds: int | None = None


def named(case: Callable | Case) -> Case:
    """A function as a case, under its own name and documentation, or the name in words."""
    if isinstance(case, Case):
        return case
    sentence = " ".join((case.__doc__ or "").partition("\n\n")[0].split())
    return Case(case.__name__, sentence or f"{case.__name__.replace('_', ' ').capitalize()}.", case)


@dataclass
class Result:
    """How a case went (None: nothing of it could be tried), and what is printed of it."""
    is_well: bool | None
    text: str


def place_of(looks) -> str:
    """The file and the line at which a generator waits."""
    while getattr(looks, "gi_yieldfrom", None) is not None:
        looks = looks.gi_yieldfrom
    frame = getattr(looks, "gi_frame", None)
    return f"{os.path.relpath(frame.f_code.co_filename, ROOT)}:{frame.f_lineno}" if frame else ""


def place_of_fault(fault: BaseException) -> str:
    """Where something was raised: the last two places of the case, rather than of what it shares with others."""
    places = [entry for entry in traceback.extract_tb(fault.__traceback__) if entry.filename.startswith(f"{ROOT}/")]
    of_case = [entry for entry in places if not entry.filename.startswith((f"{ROOT}/tests/harness/", f"{ROOT}/tests/pcep/"))]
    return ", ".join(f"{os.path.relpath(entry.filename, ROOT)}:{entry.lineno}" for entry in (of_case or places)[-2:])


def shown(value) -> str:
    """A value in words, of which the middle is left out if it is long. A text of several lines stands as it is."""
    text = value if isinstance(value, str) and "\n" in value else repr(value)
    return text if len(text) <= LONGEST else f"{text[:LONGEST // 2]} .. {text[-LONGEST // 2:]}"


def difference(place: str, came, wanted) -> list[str]:
    return [place, f"wanted {shown(wanted)}", f"came   {shown(came)}"]


def wrong_of_look(look, place: str) -> list[str]:
    """What is wrong in a look, in lines: none if nothing is. A look of 2 N values has N that came and N that are wanted."""
    if isinstance(look, str):
        return look.splitlines()
    half = len(look) // 2
    came, wanted = (look[0], look[1]) if half == 1 else (look[:half], look[half:])
    return [] if came == wanted else difference(place, came, wanted)


class TooLong(BaseException):
    """A case takes longer than it may."""


def raise_too_long(number, frame):
    raise TooLong


class Run:
    """A run of a case: how many looks it had, and what was wrong in them."""

    def __init__(self, case: Case, given):
        self.case, self.given, self.count, self.wrong, self.lacks = case, given, 0, [], ""

    def look(self):
        looks = self.case.looks(*self.given)
        if looks is None:
            self.count = 1
            return
        for look in looks:
            self.count += 1
            found = wrong_of_look(look, place_of(looks))
            if found:
                self.wrong.append(found)

    def try_all(self, seconds: int | None):
        """Takes all looks, for these seconds at most (None: without a bound). Whatever is raised is a failure of the case, and of no other."""
        try:
            if seconds:
                signal.signal(signal.SIGALRM, raise_too_long)
                signal.alarm(seconds)
            self.look()
        except NotTried as missing:
            self.lacks = f" Not tried{' to its end' if self.count else ''}: {missing}."
        except TooLong as fault:
            self.wrong.append([place_of_fault(fault), f"it takes more than {seconds} s"])
        except (Exception, SystemExit) as fault:
            self.wrong.append([place_of_fault(fault), f"{type(fault).__name__}: {str(fault)[:LONGEST]}"])
        finally:
            if seconds:
                signal.alarm(0)
            for end in after_each:
                end()

    def is_well(self) -> bool | None:
        """Whether nothing was wrong; None if nothing could be tried."""
        return False if self.wrong else None if self.lacks and not self.count else True

    def lines(self, seconds: float):
        word = {True: "ok   ", False: "FAIL ", None: "--   "}[self.is_well()]
        colon = f": {self.case.sentence}" if self.case.sentence else ""
        yield f"{word} {self.case.name}{colon}{self.lacks} ({seconds:.1f} s)"
        for found in self.wrong[:MOST_SHOWN]:
            yield from (f"      {line}" for line in found if line)
        if len(self.wrong) > MOST_SHOWN:
            yield f"      and {len(self.wrong) - MOST_SHOWN} more"


def run_case(case: Case, given=(), seconds: int | None = MOST_SECONDS) -> Result:
    """Runs a case with what it is given: the program, if nothing else."""
    begun, run = time.monotonic(), Run(case, given)
    run.try_all(case.seconds or seconds)
    return Result(run.is_well(), "\n".join(run.lines(time.monotonic() - begun)))


class Count:
    """Counts how cases went, prints a line for each, or (if it is silent) for each that failed, and ends a test program."""

    def __init__(self, is_silent: bool = False):
        self.is_silent, self.passed, self.failed = is_silent, 0, 0

    def take(self, result: Result):
        """Prints how a case went, and counts it unless nothing of it could be tried."""
        if not self.is_silent or not result.is_well:
            print(result.text, flush=True)
        self.passed += result.is_well is True
        self.failed += result.is_well is False

    def end(self) -> int:
        """Prints the last line. The status of the program."""
        print(f"{self.passed} passed, {self.failed} failed")
        return 0 if self.passed and not self.failed else 1


# ---- several cases at once

pooled: list[tuple[Case, tuple, int]] = []


def run_pooled(place: int) -> Result:
    return run_case(*pooled[place])


def results_at_once(cases: list[Case], given, at_once: int, seconds: int):
    """The results of cases that run several at once, each in a process of its own, in their order."""
    if at_once == 1:
        yield from (run_case(case, given, seconds) for case in cases)
        return
    # (the processes are forks, which have the cases: functions of functions can't be sent to them)
    pooled[:] = [(case, given, seconds) for case in cases]
    with concurrent.futures.ProcessPoolExecutor(at_once, multiprocessing.get_context("fork"), max_tasks_per_child=None) as pool:
        yield from pool.map(run_pooled, range(len(cases)))


# ---- test programs

def name_of_program() -> str:
    return os.path.relpath(os.path.realpath(sys.argv[0]), ROOT)


def refuse(problem: str):
    """Ends the test program, which counts nothing then."""
    sys.exit(f"{name_of_program()}: {problem}")


def arguments(documentation: str, words: str = "PROGRAM") -> argparse.ArgumentParser:
    """The words that every test program takes: cases and programs. The programs are also given without a flag, unless other words are."""
    parser = argparse.ArgumentParser(description=documentation, formatter_class=argparse.RawDescriptionHelpFormatter)
    parser.add_argument("--case", action="append", default=[], metavar="NAME", help="run this case only; may be given more than once")
    parser.add_argument("--program", action="append", default=[], metavar="PATH", help="a program to try in place of those that `rt ci` builds")
    if words == "PROGRAM":
        parser.add_argument("programs", nargs="*", metavar="PROGRAM", help="the same as --program")
    return parser


def programs_of(given: argparse.Namespace, built: list[str] = BUILT) -> list[str]:
    """The programs that are to be tried, each of which has to be one."""
    programs = given.program + getattr(given, "programs", []) or built
    for program in programs:
        if not os.access(program, os.X_OK) or os.path.isdir(program):
            refuse(f"{program} is no program" + ("" if given.program else ": `rt ci` builds it, or name another"))
    return [os.path.abspath(program) for program in programs]


def chosen(given: argparse.Namespace, cases: Iterable[Callable | Case]) -> list[Case]:
    """The cases that are to be run: all, unless some are named."""
    all_cases = [named(case) for case in cases]
    names = [case.name for case in all_cases]
    for name in given.case:
        if name not in names:
            refuse(f"no case is named {name}")
    return [case for case in all_cases if not given.case or case.name in given.case]


def listen_to_signals():
    """Has what is started hear signals that whoever runs this may ignore, as `nohup` does."""
    signal.signal(signal.SIGINT, signal.default_int_handler)
    signal.signal(signal.SIGHUP, signal.SIG_DFL)


def run(documentation: str, cases: Iterable[Callable | Case], built: list[str] = BUILT, at_once: int = 1, alone: Iterable[str] = (),
        seconds: int = MOST_SECONDS) -> int:
    """A whole test program of cases of one program each: its status. Of several at once those named `alone` aren't."""
    given = arguments(documentation).parse_args()
    return run_given(given, cases, built, at_once, alone, seconds)


def run_given(given, cases, built=BUILT, at_once=1, alone=(), seconds=MOST_SECONDS, once=()) -> int:
    """The same with arguments that have been read. Cases that are run `once` come first, and take no program."""
    listen_to_signals()
    # (a connection that the server has closed is an error of the call, and no end of the test program)
    signal.signal(signal.SIGPIPE, signal.SIG_IGN)
    count, firsts = Count(), {named(case).name for case in once}
    selected = chosen(given, [*once, *cases])
    for case in selected:
        if case.name in firsts:
            count.take(run_case(case, (), seconds))
    selected = [case for case in selected if case.name not in firsts]
    for program in programs_of(given, built) if selected else ():
        print(f"-- {program}", flush=True)
        for each, together in (([case for case in selected if case.name not in alone], at_once), ([case for case in selected if case.name in alone], 1)):
            for result in results_at_once(each, (program,), together, seconds):
                count.take(result)
    return count.end()


def words_of(name: str) -> str:
    """A name in words, for cases that are made from data."""
    return re.sub(r"[^a-zA-Z0-9]+", "_", name).strip("_")
