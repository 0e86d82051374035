"""Journals of servers with many routers: a herd of the zoo, and a storm of new paths."""
import threading
from dataclasses import replace

import pcep
from harness.clock import comes
from harness.router import up
from pcep import diamond
from routers.herd import Herd
from routers.zoo import WELL

from .account import verdict
from .drawn import replayed
from .runs import begin, files_in, folder, has_all, shown, steps_of

SHOWN = "book", "links", "json links", "lsps", "json lsps", "tickets"
ROUTERS, LSPS = 12, 10


class Still:
    """What a server shows while it takes no step, and how many it has taken until then."""

    def __init__(self, server):
        self.server, self.text, self.steps = server, None, None

    def is_seen(self):
        self.steps = steps_of(self.server)
        self.text = shown(self.server, *SHOWN).decode()
        return steps_of(self.server) == self.steps


def replays(program, path: str, still: Still):
    """The journal replays as recorded, and shows what the server showed at that step."""
    paths = files_in(path)
    said = replayed(program, *paths)
    yield said, verdict(paths)
    yield said[0], 0
    yield replayed(program, *paths, "--at", str(still.steps - 1), "--", *SHOWN), (0, still.text, "")


def a_herd(program):
    """Routers of all tempers come and go, and an operator asks for paths: the journal of all that replays as recorded."""
    with folder() as path:
        herd = Herd(program, "journal", journal=path)
        zoo = herd.zoo
        herd.come()
        herd.act()
        for router in zoo.routers:
            router.temper = replace(router.temper, drops=0)
        still = Still(zoo.server)
        yield comes(still.is_seen), True
        yield comes(lambda: has_all(path, still.steps)), True
        yield zoo.end(), WELL
        yield from replays(program, path, still)


def wanted_of(number: int) -> int:
    """For how many of its LSPs a router waits."""
    return LSPS - number % 3


def storm(server, number: int, granted: dict[int, int]):
    """A router reports delegated LSPs without a route, reads until it has a path for most of them, and hangs up or stays."""
    router = up(server, number)
    router.send(b"".join(diamond.report(plsp, 100.0, links=(), flags=0x09) for plsp in range(1, LSPS + 1)))
    granted[number] = sum(len(router.hear_of(pcep.PCUPD)) > 0 for _ in range(wanted_of(number)))
    if number % 4 == 0:
        router.reset()


def a_storm(program):
    """Routers report LSPs without a route all at once, and some hang up: the journal of all that replays as recorded."""
    numbers, granted = range(1, ROUTERS + 1), {}
    with folder() as path:
        server = begin(program, path, "--workers", "4")
        threads = [threading.Thread(target=storm, args=(server, number, granted)) for number in numbers]
        for thread in threads:
            thread.start()
        for thread in threads:
            thread.join()
        yield granted, {number: wanted_of(number) for number in numbers}
        still = Still(server)
        yield comes(still.is_seen), True
        yield comes(lambda: has_all(path, still.steps)), True
        yield server.end(), ((b"", 0), (0, []))
        yield from replays(program, path, still)


CASES = [a_herd, a_storm]
