"""What the plain account says of the files of a journal, in the words of `pced replay`."""
import sys

from simulator.journal import Differs, Ended, Journal, lines_of


def recorded(journal: Journal, path: str) -> str:
    """What is said of steps that are as recorded. The first file is at the path."""
    if journal.next == journal.first:
        return "no step replayed"
    base = f" from the base of {path}" if journal.first else ""
    return f"steps {journal.first} to {journal.next - 1} replayed{base}, {journal.grants} grants: each reply as recorded"


def verdict(paths: list[str]) -> tuple[int, str, str]:
    """The status, and what goes to standard output and to standard error."""
    journal = Journal()
    try:
        journal.replay(map(lines_of, paths))
    except Differs as end:
        return 4, end.why + "\n", ""
    except Ended as end:
        return 2, "", f"{paths[end.file - 1]}: {end.why} {end.line}\n"
    cut = f"{paths[journal.files - 1]}: cut short at line {journal.cut}\n" if journal.cut else ""
    return 0, recorded(journal, paths[0]) + "\n", cut


def replay_files(paths: list[str]) -> int:
    status, out, err = verdict(paths)
    sys.stdout.write(out)
    sys.stderr.write(err)
    return status
