"""Journals: the files of one run in order, replayed step by step on the plain state.

A file has a head `journal 1 RUN FIRST`, the link text, a line `---`, if FIRST isn't 0 the base, and then lines of steps from the
place FIRST on, with a line of the time before the steps of a second in which something happened. The base of the first file is where
the replay begins. That of a later file is compared, line by line, with the state that the files before it lead to.
"""

import re
from dataclasses import replace

from . import bases, laws
from .facts import UNKNOWN_LINK, need
from .network import Network
from .state import State
from .steps import LONG, MOST_BYTES, BadLine, number, reply_text, step_in
from .steps import need as need_line

MOMENT = "at [0-9]{4}-[0-9]{2}-[0-9]{2}T[0-9]{2}:[0-9]{2}:[0-9]{2}Z"
LAWS_EVERY = 1_000


class Ended(Exception):
    """A line ends the replay: why, and which line of which file, counted from 1."""

    def __init__(self, file, line, why):
        super().__init__(why)
        self.file, self.line, self.why = file, line, why


class BadFile(Ended):
    def __init__(self, file, line):
        super().__init__(file, line, "bad line")


class Differs(Ended):
    """A recorded reply isn't the one that the event gets."""


class Known(State):
    """The plain state, whose links are reloaded many at once."""

    def on_reload(self, entries):
        need(all(link < len(self.network.links) for link, *_ in entries), UNKNOWN_LINK)
        for link, igp, te, colour, reservable in entries:
            values = {"igp": igp, "te": te, "colour": colour, "reservable": reservable}
            self.network.links[link] = replace(self.network.links[link], **values)
        self.changes += 1


def lines_of(path):
    """The lines of a file, and whether each has its line feed, in bounded memory."""
    with open(path, "rb") as file:
        while line := file.readline(MOST_BYTES + 2):
            yield line.removesuffix(b"\n").decode("utf-8", "replace"), line.endswith(b"\n")


class Journal:
    """What is known after the lines so far."""

    def __init__(self):
        self.run = self.text = self.state = None
        self.first = self.next = self.files = 0
        # those of the steps that were replayed, and those before them
        self.grants = self.grants_before = 0
        self.moment = ""
        # the last line of the last file was cut short: its number
        self.cut = None

    def replay(self, files):
        """Each file is its lines, and whether each is whole."""
        for lines in files:
            if self.cut:
                raise BadFile(self.files, self.cut)
            self.files += 1
            self.replay_file(enumerate(lines, 1))

    def replay_file(self, lines):
        self.begin(lines)
        if self.next:
            self.take_base(lines)
        for count, (line, is_whole) in lines:
            if not is_whole and len(line) <= MOST_BYTES:
                self.cut = count
                return
            try:
                self.take(count, line)
            except BadLine:
                raise BadFile(self.files, count) from None

    def begin(self, lines):
        """The head and the link text: a run's first file sets them, and its next has the same run and text."""
        count, (head, is_whole) = next(lines, (1, ("", False)))
        words = head.split(" ")
        try:
            run, first = words[2], number(words[3], LONG)
        except (BadLine, IndexError):
            raise BadFile(self.files, count) from None
        if not is_whole or words[:2] != ["journal", "1"] or len(words) > 4 or self.run not in (None, run):
            raise BadFile(self.files, count)
        if self.run is None:
            self.first = self.next = first
        if first != self.next:
            raise BadFile(self.files, count)
        text = []
        for count, (line, is_whole) in lines:
            if line == "---" and is_whole:
                self.mark = count
                return self.know(count, run, text)
            text.append(line)
        raise BadFile(self.files, count)

    def know(self, count, run, text):
        if self.state is not None and text != self.text:
            raise BadFile(self.files, count)
        if self.state is None:
            self.run, self.text = run, text
            try:
                self.state = Known(Network.of_text("\n".join(text)))
            except (ValueError, KeyError):
                raise BadFile(self.files, count) from None

    # ---- a base

    def take_base(self, lines):
        """The lines up to `end`: the first file's are where the replay begins, and a later one's say what is known."""
        reader, count = bases.Reader(), self.mark
        known = iter(bases.base_lines(self.state, self.next, self.grants_before + self.grants)) if self.files > 1 else None
        for count, (line, is_whole) in lines:
            try:
                need_line(is_whole and (known is None or line == next(known)))
                if known is None:
                    reader.take(line) if line != bases.END else self.begin_over(reader.base)
            except BadLine:
                break
            if line == bases.END:
                return
        # (a file that ends before its base does is bad at its last line)
        raise BadFile(self.files, count)

    def begin_over(self, base):
        """The replay begins with what the base says, if that may stand there."""
        need_line(base.steps == self.first and bases.may_stand(len(self.state.network.links), base))
        bases.put_over(self.state, base)
        self.grants_before = base.grants

    # ---- steps

    def take(self, count, line):
        if re.fullmatch(MOMENT, line):
            if line < self.moment:
                raise BadLine
            self.moment = line
            return
        place, event, recorded = step_in(line)
        if place != self.next:
            raise BadLine
        reply = self.state.apply(*event)
        replayed = reply_text(reply)
        if replayed != recorded:
            raise Differs(self.files, count, f"step {place}: recorded {recorded}, replayed {replayed}")
        self.next += 1
        self.grants += reply[0] == "granted"
        # (a base that may stand may break those laws that hold only of what events lead to)
        if self.first == 0 and self.next % LAWS_EVERY == 0:
            laws.must_hold(self.state)
