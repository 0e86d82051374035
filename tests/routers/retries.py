"""LSPs that are down: when they are asked for again, and what one router that loops costs."""
import os
import statistics
import time
from dataclasses import replace

import pcep
from harness.clock import TURNS, Timed, comes
from harness.exposition import family, metrics_of, text_of
from harness.router import time_of_request, up

from .lsp import Temper
from .zoo import A, D, DIAMOND, LATE, OVER_B, OVER_C, WELL, Zoo, held, pathless, text_file, write

# the capabilities of a router that takes initiations and no updates (RFC 8281 section 4.1), and the seconds of --settle
INITIATES_ONLY, SETTLE = 4, 8
# how late a router may send its Keepalives whose DeadTimer is two seconds, in seconds
LATE_ENOUGH = 0.5


def a_loop_is_slowed(program):
    """A router that reports each setup as failed at once is asked a few times a second at most, and others are answered."""
    zoo = Zoo(program)
    router, other = zoo.router(Temper("every", refuses=True)), up(zoo.server, 99)
    before = [time_of_request(other, 1000 + number) for number in range(10)]
    waits = []
    with Timed() as timed:
        plsp = router.lsp("loops", A, D, 100_000)
        while not waits or time.monotonic() < timed.begun + 6:
            waits.append(time_of_request(other, len(waits) + 1))
            time.sleep(0.05)
    asked = sum(ask.moment < timed.begun + 6 for ask in router.asks(plsp=plsp))
    yield asked if asked > 12 else "a few", "a few"
    yield timed.is_within(max(0.1, 3 * statistics.median(before)), statistics.median(waits)) or (before, waits), True
    # what is to be written on that connection doesn't wait until more of it is read
    with Timed() as timed:
        yield zoo.said(f"initiate {router.address} t9 {A} {D} 1000 7 7")[:6], "asked "
        said_at = time.monotonic()
        asks = router.waits_for_asks(1, pcep.PCINITIATE, within=10)
    yield [timed.is_within(2, ask.moment - said_at) for ask in asks], [True]
    *well, texts = zoo.ended()
    yield tuple(well), WELL
    # (once a minute)
    yield [text.partition(" pause=")[0] for text in texts if text.startswith("slowed")], [f"slowed {router.address}"]


def a_pause_ends_no_session(program):
    """A router that loops and has a DeadTimer of two seconds stays up for as long as it sends Keepalives."""
    zoo = Zoo(program)
    router = zoo.router(Temper("every", refuses=True, timers=(1, 2)))
    router.lsp("loops", A, D, 100_000)
    with Timed() as timed:
        time.sleep(9)
    if timed.late < LATE_ENOUGH:  # (else its Keepalives may have been late)
        yield (router.session, router.is_up, router.reasons), (1, True, [])
    yield zoo.end(), WELL


def what_is_down_is_asked_for(program):
    """What was reported DOWN while synchronizing, or DOWN with its route, is asked for, at once after the end of synchronization."""
    zoo = Zoo(program, retry=2)
    router = zoo.router(Temper("every"), [pathless("pathless", 100_000), held("failed", 100_000, OVER_C, pcep.DOWN)])
    yield sorted(ask.plsp for ask in router.waits_for_asks(2, within=LATE)), [1, 2]
    yield comes(lambda: all(lsp.current.state == pcep.UP for lsp in router.lsps.values()), 3), True
    yield zoo.is_settled(), True
    plsp = router.lsp("later", A, D, 100_000, OVER_C)
    yield zoo.is_settled(), True
    failed_at = time.monotonic()
    router.say_state(plsp, pcep.DOWN)
    asks = router.waits_for_asks(1, plsp=plsp, within=2 + LATE)
    yield [zoo.network.way_of(A, ask.hops, D) for ask in asks], [OVER_B]
    yield [ask.moment - failed_at > 1 for ask in asks], [True]
    yield zoo.is_settled(), True
    # after a reconnect too
    router.say_state(plsp, pcep.DOWN)
    router.lose_connection()
    router.waits_until_up(session=2)
    yield [ask.session for ask in router.waits_for_asks(2, plsp=plsp, within=5)], [1, 2]
    yield comes(lambda: router.lsps[plsp].current.state == pcep.UP, 5), True
    yield zoo.is_settled(), True
    yield zoo.end(), WELL


def a_reload_that_brings_room(program):
    """An LSP for which there was no room is asked for once a reload has brought some."""
    with open(DIAMOND) as text:
        roomy = text.read()
    file = text_file(roomy.replace("reservable=1000000", "reservable=400000"))
    zoo = Zoo(program, te=file, retry=30)
    router = zoo.router(Temper("first"))
    plsp = router.lsp("wide", A, D, 900_000)
    time.sleep(1)
    yield router.asks(), []
    write(file, roomy)
    yield zoo.said("reload"), "done"
    yield [ask.plsp for ask in router.waits_for_asks(1, within=5)], [plsp]
    yield comes(lambda: router.lsps[plsp].current.state == pcep.UP, 5), True
    yield comes(lambda: not zoo.grants() and zoo.book()[0] == [1_000_000] * 7 + [100_000], 5), True
    os.remove(file)
    yield zoo.end(), WELL


def retries_come_later_and_later(program):
    """Each try of an LSP that fails again comes after twice the time."""
    zoo = Zoo(program, retry=1)
    with Timed() as timed:
        router = zoo.router(Temper("every", refuses=True), [held("failed", 100_000, OVER_C, pcep.DOWN)])
        time.sleep(9)
    moments = [ask.moment for ask in router.asks()]
    gaps = [after - before for before, after in zip(moments, moments[1:])]
    yield 3 <= len(moments) <= 6 or moments, True
    # (an ask that comes late shortens the gap behind it)
    yield all(after > 1.5 * before - TURNS * timed.late for before, after in zip(gaps[1:], gaps[2:])) or (gaps, timed.late), True
    # from the start again once a path of it came up
    router.temper = replace(router.temper, refuses=False)
    router.say_state(1, pcep.UP)
    router.say_state(1, pcep.DOWN)
    yield len(router.waits_for_asks(len(moments) + 1, within=1 + LATE)) > len(moments), True
    yield zoo.end(), WELL


def what_isnt_retried(program):
    """An LSP isn't asked for again that is up, unplaced, awaited, being removed, not delegated or switched off, or whose router takes no updates."""
    zoo = Zoo(program, retry=1)
    router, marked, fixed = (zoo.router(temper) for temper in (
        Temper("every"), Temper("every", records="labels"), Temper("every", timers=(30, 120, INITIATES_ONLY))))
    yield zoo.said(f"initiate {router.address} t1 {A} {D} 1000 7 7")[:6], "asked "
    yield comes(lambda: 1 in router.lsps and router.lsps[1].current.state == pcep.UP, 5), True
    router.temper = replace(router.temper, answers="never")
    yield zoo.said(f"delete {router.address} 1")[:9], "removing "
    router.say_state(1, pcep.DOWN)
    router.lsp("own", A, D, 1_000, OVER_C, pcep.DOWN, delegated=False)
    router.lsp("switched off", A, D, 1_000, OVER_C, pcep.DOWN, admin=False)
    router.lsp("up", A, D, 1_000, OVER_C)
    awaited = router.lsp("awaited", A, D, 1_000)
    marked.lsp("up", A, D, 1_000, OVER_C)
    fixed.lsp("down", A, D, 1_000, OVER_C, pcep.DOWN)
    time.sleep(5)
    yield [ask.plsp for ask in router.asks()], [awaited]
    yield [ask.plsp for other in (marked, fixed) for ask in other.asks()], []
    # no try was refused either
    yield family(metrics_of(text_of(zoo.server)), "pced_refusals_total"), {}
    yield zoo.end(), WELL


def what_was_never_answered(program):
    """An LSP whose request wasn't answered is asked for again once its router reports it or comes back, and not before."""
    zoo = Zoo(program, answer=1, retry=1)
    router = zoo.router(Temper("never"))
    plsp = router.lsp("waits", A, D, 1_000)
    time.sleep(1 + LATE + 2)
    yield len(router.asks(plsp=plsp)), 1
    router.say_state(plsp, pcep.DOWN)
    yield len(router.waits_for_asks(2, within=5, plsp=plsp)), 2
    time.sleep(1 + LATE)
    router.lose_connection()
    router.waits_until_up(session=2)
    yield [ask.session for ask in router.waits_for_asks(3, within=5, plsp=plsp)], [1, 1, 2]
    yield zoo.is_settled(1 + LATE), True
    yield zoo.end(), WELL


def retries_wait_for_the_settling(program):
    """With --settle nothing is asked for again before paths are granted, and at once then."""
    begun = time.monotonic()
    zoo = Zoo(program, settle=SETTLE, retry=1)
    router = zoo.router(Temper("every"), [held("failed", 100_000, OVER_C, pcep.DOWN)])
    time.sleep(2)
    tickets = zoo.shown("tickets")[0]["tickets"]
    yield tickets if time.monotonic() < begun + SETTLE else [], []
    asks = router.waits_for_asks(1, within=SETTLE + LATE)
    yield [ask.plsp for ask in asks], [1]
    yield [ask.moment > begun + SETTLE for ask in asks], [True]
    yield comes(lambda: router.lsps[1].current.state == pcep.UP, 5), True
    yield zoo.is_settled(), True
    yield zoo.end(), WELL


CASES = [
    a_loop_is_slowed, a_pause_ends_no_session, what_is_down_is_asked_for, a_reload_that_brings_room, retries_come_later_and_later,
    what_isnt_retried, what_was_never_answered, retries_wait_for_the_settling,
]
