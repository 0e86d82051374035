"""64 routers of a grid that have reported all of their LSPs, and the times of their requests, for `bench/http`, `bench/loop` and `bench/looks`."""
import random
import time

from routers import Router, at_once, of, say

import pcep
from harness import grid
from harness.grid import EAST, SIDE, SOUTH, address, beside, remote

WEB = ("127.0.0.1", 41893)
ROUTERS, LSPS, ASKING = 64, 256, 16
PAUSE = 0.02


def report(router, number, bandwidth, flags=0x18):
    """Of a router's LSP over two to ten links to the east and to the south, from a node of its own."""
    node = chosen = router * 16 + number % 16
    hops = []
    for step in range(2 + number % 9):
        way = (EAST, SOUTH)[(step + number) % 2]
        hops.append(remote(node, way))
        node = beside(node, way)
    return grid.report(number, chosen, node, bandwidth, flags, hops, number % 8)


def request(number, start, end):
    """A path between two nodes, for 1,000 bytes a second."""
    ends = pcep.end_points(address(start), address(end))
    return pcep.message(pcep.PCREQ, pcep.rp(number), ends, pcep.bandwidth(1000.0, pcep.MUST))


def filled(lsps=LSPS, flags=0x18):
    """Routers that have reported all of their LSPs."""
    routers = [Router(number) for number in range(ROUTERS)]
    for number, router in enumerate(routers):
        router.come_up()
        router.send(b"".join(report(number, n + 1, 10000.0, flags) for n in range(lsps)) + pcep.END_OF_SYNC)
    return routers


def asks(number, router, seconds):
    """The times of a router's requests, in milliseconds, with a pause before each."""
    chance, times, end = random.Random(number), [], time.monotonic() + seconds
    while time.monotonic() < end:
        time.sleep(PAUSE)
        start, goal = chance.sample(range(SIDE * SIDE), 2)
        asked = request(len(times) + 1, start, goal)
        began = time.perf_counter_ns()
        router.send(asked)
        router.hear(pcep.PCREP)
        times.append((time.perf_counter_ns() - began) / 1e6)
    return times


def asked_for(routers, seconds):
    """The times of the requests of some routers, each in a process of its own."""
    taken, _ = at_once(ASKING, lambda number: (number, routers[number]), lambda pair: asks(*pair, seconds))
    return [one for times in taken for one in times]


def say_times(what, times):
    say(f"{what}: p50 {of(times, .5):.3f} ms, p99 {of(times, .99):.3f} ms, most {max(times):.1f} ms, of {len(times)}")
