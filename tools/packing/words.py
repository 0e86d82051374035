"""The words of the program's command line, as `pced help` prints them."""
import re
import subprocess
from typing import NamedTuple

TIMEOUT_S = 60


class Word(NamedTuple):
    """A flag, an argument or a command, as it is written, and what it does."""
    form: str
    text: str


class Command(NamedTuple):
    name: str
    about: str
    usage: str  # behind its name
    arguments: list[Word]
    options: list[Word]
    after: list[str]  # lines


class Program(NamedTuple):
    about: str
    options: list[Word]
    commands: list[Command]


def help_of(program, *words):
    """The lines of a help, in which the program has its own name."""
    ran = subprocess.run(["pced", "help", *words], executable=program, capture_output=True, text=True, timeout=TIMEOUT_S, check=True)
    return ran.stdout.splitlines()


def parts(lines):
    """The text in front, the parts that have a head, and the lines behind them."""
    front, heads, after, head = [], {}, [], None
    for line in lines:
        if found := re.fullmatch(r"(Usage|Arguments|Options|Commands):\s*(.*)", line):
            head = found[1]
            heads[head] = [found[2]] if found[2] else []
        elif after or (head and line and not line.startswith(" ")):
            after.append(line)
        elif head and line:
            heads[head].append(line)
        elif line:
            front.append(line)
    return front, heads, after


def words_in(lines):
    """Rows of two columns: a form, two spaces or more, a text."""
    return [Word(*re.split(r" {2,}", line.strip(), maxsplit=1)) for line in lines]


def command(program, name):
    front, heads, after = parts(help_of(program, name))
    usage = heads["Usage"][0].split(maxsplit=2)
    return Command(name, " ".join(front), usage[2] if len(usage) > 2 else "", words_in(heads.get("Arguments", [])),
                   words_in(heads["Options"]), after)


def read(program):
    """The words of a program."""
    front, heads, _ = parts(help_of(program))
    names = [word.form for word in words_in(heads["Commands"])]
    return Program(" ".join(front), words_in(heads["Options"]), [command(program, name) for name in names if name != "help"])


def flags(words):
    """The flags among them that have a long form, each with whether it takes a value."""
    return {found[0]: "<" in word.form for word in words if (found := re.search(r"--[a-z-]+", word.form))}


def line_words(lines):
    """The first words of the lines that a text lists: each begins behind two spaces, or several stand there with commas."""
    found = []
    for line in lines:
        if row := re.fullmatch(r"  (\S.*)", line):
            forms = [form.strip() for form in row[1].rstrip(",").split(",")]
            are_all = all(re.fullmatch(r"[a-z]+( [A-Z]+)*", form) for form in forms)
            found += [form.split()[0] for form in (forms if are_all else forms[:1])]
    return list(dict.fromkeys(found))
