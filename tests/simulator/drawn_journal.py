"""Journals of runs drawn at random: the lines of the events that a script's plain state took, with its replies, in one file or
several, of which all but the first have a base."""

import time

from . import bases, spelled, wire
from .events import Events
from .network import HOPS, IGP, TE
from .steps import line_of
from .sums import Constraints

BEGUN = 1_795_915_800
RUN = "20261129T013000Z"
RELOAD_EVERY = 40
PLACE_EVERY = 15
# how often a file may begin, and how many there are at most
BASE_EVERY, MOST_FILES = 20, 4


def read_with_objects(body):
    """Reports that know the objects of which they were read."""
    reports = wire.read_reports(body)
    for report, objects in zip(reports, spelled.reports_of(body)):
        report.objects = objects
    return reports


wire.READERS[wire.REPORT] = read_with_objects


def request_of(number, asked, plsp):
    """The request that asks this of a path."""
    request = wire.Request(number, asked.source, asked.destination, plsp, asked.bandwidth, asked.setup, asked.hold, asked.colours)
    request.minimise = asked.minimise
    bounds = {**asked.other_bounds, asked.minimise: asked.bound, HOPS: asked.hop_bound}
    request.bounds = {kind: bounds[kind] for kind in (IGP, TE, HOPS) if bounds.get(kind) is not None}
    return request


def message_of(event, rest):
    """The message of one item that says what the event brought, or None."""
    if event == "report":
        return spelled.report_bytes(rest[1].objects)
    if event == "ask" and rest[1] == "answer":
        return spelled.request_bytes(request_of(*rest[2:]))
    return None


class Recorder:
    """Keeps the line of each event that a script submits."""

    def __init__(self, script):
        self.script, self.place, self.moment = script, 0, None
        self.text = [*"\n".join(script.network.text()).split("\n"), "---"]
        self.lines = []
        # places at which a file may begin: how many lines stand before, the base, and the line with the time
        self.starts = {}
        self.submit, script.submit = script.submit, self.record

    def record(self, event, *rest):
        if self.place and self.place % BASE_EVERY == 0:
            base = bases.base_lines(self.script.state, self.place, self.script.state.grants)
            self.starts[self.place] = len(self.lines), base, self.time_line()
        reply = self.submit(event, *rest)
        self.tell_time()
        given = [[rest]] if event == "reload" else rest
        self.lines.append(line_of(self.place, (event, *given), reply, message_of(event, rest)))
        self.place += 1
        return reply

    def tell_time(self):
        """A second in which something happened has a line. The time never falls."""
        moment = BEGUN + self.script.moment // 1_000
        if self.moment is None or moment > self.moment:
            self.moment = moment
            self.lines.append(self.time_line())

    def time_line(self):
        """The line with the latest moment."""
        return time.strftime("at %Y-%m-%dT%H:%M:%SZ", time.gmtime(self.moment or BEGUN))

    def files(self, draw):
        """The lines of the journal's files, which begin at places drawn."""
        places = sorted(draw.sample(list(self.starts), min(len(self.starts), draw.randrange(MOST_FILES))))
        ends = [*(self.starts[place][0] for place in places), len(self.lines)]
        files = [[f"journal 1 {RUN} 0", *self.text, *self.lines[:ends[0]]]]
        for place, end in zip(places, ends[1:]):
            start, base, moment = self.starts[place]
            again = [moment] if draw.random() < 0.5 else []
            files.append([f"journal 1 {RUN} {place}", *self.text, *base, *again, *self.lines[start:end]])
        return files


def place(draw, events):
    """Asks for a path with limits, as the line `place` of an operator does."""
    source, destination = (events.routers.node_address(node) for node in events.routers.ends())
    setup = draw.randint(0, 7)
    asked = Constraints(source, destination, draw.choice((0, 100_000, 500_000)), setup, draw.randint(0, setup), draw.choice(((0, 0, 0), (1, 0, 0), (0, 3, 0), (4, 1, 2))))
    asked.minimise = draw.choice((IGP, TE, HOPS))
    asked.bound, asked.hop_bound = draw.choice((None, 2, 30, (1 << 64) - 1)), draw.choice((None, 3, (1 << 64) - 1))
    events.script.submit("ask", draw.choice(events.peers), "initiate", draw.choice((b"p1", b"p2", b"p3")), asked)


def draw_files(draw, steps):
    """The lines of the files of a journal of about so many steps."""
    events = Events(draw, steps)
    recorder = Recorder(events.script)
    links = len(events.script.network.links)
    for count, line in enumerate(events.lines()):
        events.script.line(line)
        if count % RELOAD_EVERY == RELOAD_EVERY - 1:
            values = draw.randint(1, 9), draw.randint(1, 9), draw.randint(0, 7), draw.choice((0, 400_000, 10_000_000))
            events.script.submit("reload", draw.randrange(links + 1), *values)
        if count % PLACE_EVERY == PLACE_EVERY - 1:
            place(draw, events)
    return recorder.files(draw)
