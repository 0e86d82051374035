"""How sessions end, and what is left of their routers."""
import threading
import time

import pcep
from harness.clock import TIMEOUT_S, comes, paced
from harness.exposition import family, metrics_of, text_of
from harness.logs import texts_of
from harness.router import Deaf, Router, time_of_request, up
from harness.server import BOOK, ENDED, ControlledServer, Server, ViewedServer, end, end_with_log
from pcep import diamond

from .base import HASTY

DEAF, UNANNOUNCED = "answers not taken", "a report that its Open doesn't announce"
# the Open of a router that isn't stateful
STATELESS = pcep.opening(capabilities=None)
# how each session ends, and the reason that the log has
WAYS = {
    "Close": (pcep.OPEN, lambda router: router.send(pcep.CLOSE), "closed by the peer"),
    "FIN": (pcep.OPEN, Router.close, "closed by the peer"),
    "reset": (pcep.OPEN, Router.reset, "read failed"),
    "malformed message": (pcep.OPEN, lambda router: router.send(bytes(4)), "malformed message"),
    "another version": (pcep.OPEN, lambda router: router.send(bytes([0x40, 2, 0, 4])), "malformed message"),
    "half a message": (pcep.OPEN, lambda router: (router.send(pcep.KEEPALIVE[:3]), router.close()), "closed by the peer"),
    "six unknown messages": (pcep.OPEN, lambda router: router.send(pcep.message(99) * 6), "closed for reason 5: PCErr 2/0, capability not supported"),
    "DeadTimer": (HASTY, lambda router: None, "DeadTimer"),
    UNANNOUNCED: (STATELESS, lambda router: None, "closed for reason 1: PCErr 19/5, state report without the stateful capability"),
    DEAF: (pcep.OPEN, Deaf.ask_without_end, "write failed or timed out"),
}


def every_end_is_an_end(program):
    """However its session ends, a router is forgotten `--keep` seconds later, its LSP leaves the book, and the log says so."""
    server, routers = ControlledServer(program, "--endless", "--keep", "1"), {}

    def begin(name):
        routers[name] = up(server, 1 + list(WAYS).index(name), WAYS[name][0], kind=Deaf if name == DEAF else Router)
        routers[name].send(diamond.report(1, 50000.0))

    late = "DeadTimer", UNANNOUNCED  # which end by themselves as soon as they begin
    for name in WAYS:
        if name not in late:
            begin(name)
    booked = {router.address: 1 for router in routers.values()}
    yield comes(lambda: {peer: seen["lsps"] for peer, seen in server.peers().items()} == booked) or server.peers(), True
    gone, begun = {}, {}
    for name in late:
        begun[name] = time.monotonic()
        begin(name)
    for name, (_, act, _) in WAYS.items():
        begun.setdefault(name, time.monotonic())
        act(routers[name])

    def look():
        known = server.peers()
        for name, router in routers.items():
            if router.address not in known:
                gone.setdefault(name, time.monotonic() - begun[name])
        return len(gone) == len(WAYS)

    comes(look, 8)
    yield [name for name in WAYS if name != DEAF and name not in gone], []
    while not look() and routers[DEAF].waited() < 5 * TIMEOUT_S:
        time.sleep(0.1)
    yield list(WAYS.keys() - gone), []
    yield comes(lambda: server.asked("book")[0] == BOOK), True
    yield all(seconds > 0.9 for seconds in gone.values()), True
    said, status, texts = end_with_log(server)
    yield (said, status), ((b"", 0), 0)
    for name, (_, _, why) in WAYS.items():
        address = routers[name].address
        lines = [text for text in texts if text.split()[0] in ("ended", "forgotten") and text.split()[1] == address]
        # (a connection has ended once its peer has closed it too, or a second later)
        yield name, sorted(lines), name, [f"ended {address} why={why}", f"forgotten {address}"]


def ends_that_are_none(program):
    """A second session, and a connection that makes room, leave the router's session and its LSP as they are."""
    server = ControlledServer(program, "--endless", "--keep", "0")
    first = up(server, 1)
    first.send(diamond.report(1, 500000.0))
    down = up(server, 2)
    second = Router(server, 1)
    second.send(pcep.OPEN + pcep.KEEPALIVE)
    yield second.hear_of(pcep.PCERR)[-2:], bytes([9, 0])
    held = [Router(server, 3) for _ in range(70)]
    time.sleep(1)
    yield {peer: seen["is_up"] for peer, seen in server.peers().items()}, {first.address: True, down.address: True}
    yield server.asked("book")[0].split()[2], b"500000"
    time_of_request(first, 1)
    first.send(pcep.CLOSE)
    yield comes(lambda: first.address not in server.peers(), 5), True
    yield server.asked("book")[0], BOOK
    [router.close() for router in held]
    said, status, texts = end_with_log(server)
    yield (said, status), ((b"", 0), 0)
    yield [text for text in texts if text.startswith("forgotten")][:1], [f"forgotten {first.address}"]
    yield texts.count(f"ended {held[0].address} why=place taken by another") > 0, True


def a_connection_of_a_router_that_went(program):
    """A router that is down is forgotten in time, though a later connection of its address is refused or makes room."""
    server = ControlledServer(program, "--endless", "--keep", "2")
    router = up(server, 1)
    router.send(diamond.report(1, 500000.0) + pcep.CLOSE)
    held = [Router(server, 1) for _ in range(70)]
    began = paced()
    yield comes(lambda: server.asked("book")[0] == BOOK, 8), True
    yield paced() - began < 7, True
    [each.close() for each in held]
    yield end(server), ENDED


def short_sessions(program):
    """64 routers that came for a moment and left, without an LSP, don't keep others out: who has been down longest makes room."""
    server = ControlledServer(program, "--endless", "--keep", "3600")
    # (the first one holds an LSP, the second one is up)
    first, second = up(server, 1), up(server, 2)
    first.send(diamond.report(1, 1000.0) + pcep.CLOSE)
    first.close()
    for number in range(3, 65):
        router = up(server, number)
        router.send(pcep.CLOSE)
        # (each is down before the next one comes)
        while router.hear():
            pass
        router.close()
    yield comes(lambda: len(server.peers()) == 64 and sum(peer["is_up"] for peer in server.peers().values()) == 1, 10), True
    began = paced()
    for number in (100, 101):
        late = Router(server, number)
        late.send(pcep.OPEN + pcep.KEEPALIVE)
        yield [late.hear(), late.hear()], [pcep.OPEN, pcep.KEEPALIVE]
        late.send(pcep.END_OF_SYNC)
        try:
            time_of_request(late, 1)
            yield paced() - began < 5, True
        except ValueError as fault:
            yield repr(fault), "it is answered"
    time_of_request(second, 1)
    known = set(server.peers())
    yield [number for number in range(1, 65) if f"127.0.1.{number}" not in known], [3, 4]
    # (one that is known needs no room)
    back = up(server, 1)
    time_of_request(back, 1)
    yield len(server.peers()), 64
    said, status, texts = end_with_log(server)
    yield (said, status), ((b"", 0), 0)
    yield [text for text in texts if text.startswith(("forgotten", "not forgotten"))], ["forgotten 127.0.1.3", "forgotten 127.0.1.4"]


def routers_with_lsps_stay(program):
    """64 routers that are down and hold an LSP each are kept, and another one is refused, since each is still to come back."""
    server = ControlledServer(program, "--endless", "--keep", "3600")
    for number in range(1, 64):
        router = up(server, number)
        router.send(diamond.report(1, 1000.0))
        router.send(pcep.CLOSE)
        router.close()
    # (the last one was granted a path, and hasn't reported it)
    router = up(server, 64)
    time_of_request(router, 1)
    yield server.asked(f"initiate {router.address} t1 10.0.0.1 10.0.0.4 1000 7 0")[0][:6], b"asked "
    yield router.hear_of(pcep.PCINITIATE)[:2], bytes([0x20, pcep.PCINITIATE])
    router.send(pcep.CLOSE)
    router.close()
    yield comes(lambda: sum(peer["lsps"] for peer in server.peers().values()) == 63 and not any(peer["is_up"] for peer in server.peers().values()), 10), True
    late = Router(server, 100)
    late.send(pcep.OPEN + pcep.KEEPALIVE)
    heard = [late.hear() for _ in range(3)]
    yield late.address in server.peers(), False
    yield heard[2][:2] in (pcep.CLOSE[:2], bytes([0x20, pcep.PCERR]), b""), True
    yield len(server.peers()), 64
    yield end(server), ENDED


def come_and_go(server, number, times, begun):
    for _ in range(times):
        router = Router(server, number)
        begun.append(number)
        try:
            router.send(pcep.OPEN + pcep.KEEPALIVE + pcep.END_OF_SYNC)
            router.hear(), router.hear()
        except OSError:
            pass
        router.close()


def rest_of(server, begun):
    """How many connections and steps there were, if each of those that were begun was accepted and has ended, each router is forgotten, and
    all of that is counted, which is done a moment later. A connection that its router has closed already may still wait to be accepted."""
    if server.peers():
        return None
    numbers = metrics_of(text_of(server))
    sums = [sum(family(numbers, f"pced_{name}_total").values()) for name in ("connection_ends", "events")]
    is_over = numbers["pced_connections_total", None] >= len(begun)
    return sums if is_over and sums == [numbers["pced_connections_total", None], numbers["pced_steps_total", None]] else None


def is_at_rest(server, begun):
    """Whether nothing more happens."""
    rest = rest_of(server, begun)
    if rest is None:
        return False
    time.sleep(1)
    return rest_of(server, begun) == rest


def forgotten_is_said_truly(program):
    """With --keep 0 routers that come back at once are said to be forgotten, or not to be, as often as they were."""
    server = ViewedServer(program, "--endless", "--keep", "0")
    server.keep_log()
    begun = []
    threads = [threading.Thread(target=come_and_go, args=(server, number, 150, begun)) for number in range(1, 7)]
    [thread.start() for thread in threads]
    [thread.join() for thread in threads]
    yield comes(lambda: is_at_rest(server, begun)), True
    events = family(metrics_of(text_of(server)), "pced_events_total")
    said, status, texts = end_with_log(server)
    yield (said, status), ((b"", 0), 0)
    lines = [sum(text.startswith(f"{word} 127.0.1.") for text in texts) for word in ("forgotten", "not forgotten")]
    counts = [int(events.get(f"expire {reply}", 0)) for reply in ("done", "refused")]
    # (both are lines of one kind, of which so many are held back)
    withheld = sum(int(text.split()[1]) for text in texts if text.startswith("withheld ") and text.endswith("lines: forgotten"))
    yield sum(lines) + withheld, sum(counts)
    yield [said <= count for said, count in zip(lines, counts)], [True, True]


def in_sync_counts_what_came_before(program):
    """`in sync` counts the LSPs that came before the end of synchronization, not those in the bytes after it."""
    server = Server(program, "--endless")
    router = Router(server, 1)
    router.send(pcep.OPEN + pcep.KEEPALIVE + diamond.report(1, 1000.0) + pcep.END_OF_SYNC + b"".join(diamond.report(plsp, 1000.0) for plsp in range(2, 20)))
    router.hear(), router.hear()
    time_of_request(router, 1)
    _, texts = texts_of(server)
    yield [text.split(" after=")[0] for text in texts if text.startswith("in sync")], ["in sync 127.0.1.1 lsps=1"]


def many_that_leave_at_once(program):
    """If 64 routers leave at once, the log has a line for each."""
    server = Server(program, "--endless")
    routers = [up(server, number) for number in range(1, 65)]
    [router.close() for router in routers]
    comes(lambda: server.tell("json status")[0].find('"sessions_up":0') >= 0 or False, 3)
    time.sleep(1.5)
    _, texts = texts_of(server)
    yield sorted(text.split()[1] for text in texts if text.startswith("ended ")), sorted(router.address for router in routers)


CASES = [
    every_end_is_an_end, ends_that_are_none, a_connection_of_a_router_that_went, short_sessions, routers_with_lsps_stay,
    forgotten_is_said_truly, in_sync_counts_what_came_before, many_that_leave_at_once,
]
