"""The rows of tests/rows: scripts with what they print.

A line `NETWORK NAME` of a row stands for the lines of that network in tests/rows/networks. A program is given the row with these lines
in its place.
"""
import functools
import glob
import os
import re

from .cases import ROOT

ROWS = f"{ROOT}/tests/rows"
NETWORKS = f"{ROWS}/networks"
ENDS = "in", "out", "err", "status", "words", "each"
NETWORK = re.compile(rb"^NETWORK (\S+)\n", re.M)


class BadRow(Exception):
    """A row isn't as rows are."""


def content(path: str, otherwise=b""):
    """The bytes of a file, or something else if there is none."""
    if not os.path.exists(path):
        return otherwise
    with open(path, "rb") as file:
        return file.read()


@functools.cache
def networks(path: str = NETWORKS) -> dict[bytes, bytes]:
    """The text of each network by its name."""
    _, *parts = NETWORK.split(content(path))
    return dict(zip(parts[::2], parts[1::2]))


def expanded(text: bytes) -> bytes:
    """The text of a row with the lines of the networks that it names."""
    def network(line):
        if line[1] not in networks():
            raise BadRow(f"tests/rows/networks has no network {line[1].decode(errors='replace')}")
        return networks()[line[1]]
    return NETWORK.sub(network, text)


def text_of(name: str, folder: str = ROWS) -> bytes:
    """What a program is given of a row FOLDER/NAME."""
    return expanded(content(f"{folder}/{name}.in"))


def sentence_of(name: str) -> str:
    """What a row shows, by the comment that it begins with."""
    comment = re.match(rb"(?:#.*\n)*", content(f"{ROWS}/{name}.in"))[0].decode(errors="replace")
    return " ".join(line.removeprefix("#").strip() for line in comment.splitlines())


def names() -> list[str]:
    """All rows. Each file of a folder of rows has to belong to one."""
    files = [file.rpartition(".") for file in glob.glob("*/*", root_dir=ROWS)]
    rows = sorted(name for name, _, end in files if end == "in")
    for name, _, end in files:
        if name not in rows or end not in ENDS:
            raise BadRow(f"{name}.{end} belongs to no row")
    return rows
