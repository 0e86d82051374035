"""What shows that a program is proved: what the test command left, and the program that the launcher gives out."""
import hashlib
import os
import re
import subprocess
from typing import NamedTuple

from . import files


class Refusal(Exception):
    """Why there is no release, in a line."""


class Gate(NamedTuple):
    """What the last test command left: a table of its own head, and its last lines."""
    head: dict[str, str]
    lines: list[str]


UNPROVED = Gate({"toolchain": "none"}, ["no test command was run"])


def said(*command):
    """What a command of the repository says on standard output. What it refuses is a refusal."""
    ran = subprocess.run(command, cwd=files.ROOT, capture_output=True, text=True)
    if ran.returncode != 0:
        raise Refusal(ran.stderr.strip().splitlines()[-1].removeprefix("pced: "))
    return ran.stdout.strip()


def clean_commit():
    """The commit, of a tree without other changes."""
    commit = files.git("rev-parse", "HEAD")
    if commit is None:
        raise Refusal("this is no repository of git with a commit")
    if files.git("status", "--porcelain"):
        raise Refusal("the tree has changes that are in no commit: commit them, or take them back")
    return commit


def gate(sources):
    """What ./check has left of these sources."""
    path = os.path.join(files.ROOT, files.git("rev-parse", "--git-path", "pced-check"))
    try:
        with open(path) as file:
            front, _, lines = file.read().partition("\n\n")
    except FileNotFoundError:
        raise Refusal("./check has left nothing: run it to its end") from None
    head = dict(line.split(maxsplit=1) for line in front.splitlines())
    if head.get("sources") != sources:
        raise Refusal("./check was run on other sources: run it again")
    if f"logic {files.constant('LOGIC')}" not in head.get("toolchain", ""):
        raise Refusal(f"./check was run by a toolchain of another logic than {files.constant('LOGIC')}: run it again")
    last = lines.splitlines()[-1] if lines else ""
    if not re.fullmatch(r"[1-9][0-9]* passed, 0 failed", last):
        raise Refusal(f"the last ./check didn't pass: {last}")
    return Gate(head, lines.splitlines())


def trusted():
    """The part of README.md that says what is trusted."""
    return re.search(r"^## What is trusted\n\n(.*?)(?=^## )", files.read("README.md").decode(), re.M | re.S)[1]


def text(commit, sources, program, glibc, gate, is_proved):
    """The document EVIDENCE."""
    with open(program, "rb") as file:
        sum_of_program = hashlib.sha256(file.read()).hexdigest()
    head = "" if is_proved else "UNPROVED. This was made to test the packages, of a program that nobody has proved.\n\n"
    rows = {"version": files.constant("VERSION"), "commit": commit, "sources": sources, "logic": files.constant("LOGIC"),
            "toolchain": gate.head["toolchain"], "checked at": gate.head.get("commit", "none"), "program": sum_of_program,
            "C library": f"glibc {glibc} or newer"}
    table = "".join(f"    {name:11} {value}\n" for name, value in rows.items())
    return (f"# pced {files.constant('VERSION')}: what was proved, of what, by what\n\n{head}{table}\n"
            "`sources` is what `./pced --sum` prints of the commit: a checksum (SHA-256) of all sources, definitions and proofs. "
            "`program` is that of libexec/pced. `logic` is the toolchain's, on which the proofs rest (`rt version`).\n\n"
            "## The last lines of the test command\n\n" + "".join(f"    {line}\n" for line in gate.lines)
            + f"\n## What is trusted\n\n{trusted()}").encode()
