"""When grants end."""
import time
from dataclasses import replace

import pcep
from harness.clock import comes
from harness.exposition import metrics_of, text_of

from .lsp import Temper
from .zoo import A, D, FREE, LATE, OVER_B, OVER_C, WELL, Zoo, pathless

ANSWER = 3


def a_grant_ends_once_its_path_is_up(program):
    """A router names the SRP-ID in its first report only (RFC 8231 section 6.2): once the new path is up, no grant is left."""
    zoo = Zoo(program)
    for number, temper in enumerate((Temper("first"), Temper("first", records="nodes"), Temper("first", late=1.5)), 1):
        router = zoo.router(temper)
        plsp = router.lsp(f"t{number}", A, D, 200_000, OVER_C)
        yield zoo.is_settled(), True
        yield zoo.said(f"update {router.address} {plsp}")[:6], "asked "
        asks = router.waits_for_asks(1, within=5)
        yield [zoo.network.way_of(A, ask.hops, D) for ask in asks], [OVER_B]
        yield comes(lambda: list(router.lsps[plsp].paths) == [2], 5), True
        yield zoo.is_settled(), True
        # the LSP can be asked for again, and its old links are free once its router moves it
        yield zoo.said(f"update {router.address} {plsp}")[:6], "asked "
        yield comes(lambda: list(router.lsps[plsp].paths) == [3], 5), True
        router.move(plsp, OVER_C)
        yield comes(lambda: list(router.lsps[plsp].paths) == [4], 5), True
        yield zoo.is_settled(), True
    yield zoo.end(), WELL


def a_grant_stays_until_it_is_covered(program):
    """A report of less bandwidth, of a worse holding priority or of other links than were granted leaves the grant as it is."""
    zoo = Zoo(program, answer=2 * ANSWER, retry=0)
    router = zoo.router(Temper("never"))
    plsps = [router.lsp(name, A, D, 100_000, setup=5, hold=4) for name in ("less", "worse", "elsewhere")]
    asks = {ask.plsp: ask for ask in router.waits_for_asks(3, within=5)}
    yield sorted(asks), plsps
    begun = time.monotonic()
    for plsp in plsps:
        router.show(plsp, pcep.GOING_UP, OVER_B, 1_000, asks[plsp].srp)
    router.show(plsps[0], pcep.UP, OVER_B, 99_999, 0)
    router.lsps[plsps[1]].hold = 5
    router.show(plsps[1], pcep.UP, OVER_B, 100_000, 0)
    router.show(plsps[2], pcep.UP, OVER_C, 100_000, 0)
    time.sleep(1.7)
    yield zoo.fallen(router, [asks[plsp].srp for plsp in plsps], begun + 2 * ANSWER), []
    yield zoo.is_settled(2 * ANSWER + LATE), True
    yield zoo.end(), WELL


def a_grant_ends_with_its_session(program):
    """SRP-IDs and PLSP-IDs are of one session (RFC 8231 section 7.2): once the router is back and in sync, its old grants are gone."""
    zoo = Zoo(program)
    router = zoo.router(Temper("every", renumbers=True, drops=1))
    one = router.lsp("one", A, D, 300_000, OVER_C)
    router.lsp("two", A, D, 100_000, OVER_C)
    yield zoo.is_settled(), True
    yield zoo.said(f"update {router.address} {one}")[:6], "asked "
    router.waits_until_up(session=2)
    zoo.waits_for_sync(router)
    yield [lsp.name for lsp in router.lsps.values()], ["two", "one"]
    yield zoo.is_settled(), True
    yield [zoo.said(f"update {router.address} {plsp}")[:6] for plsp in (1, 2)], ["asked "] * 2
    yield comes(lambda: all(list(lsp.paths) == [2] for lsp in router.lsps.values()), 5), True
    yield zoo.is_settled(), True
    yield zoo.end(), WELL


def another_end_of_synchronization(program):
    """An end of synchronization that comes again later ends no grant of the session."""
    zoo = Zoo(program, retry=0)
    router = zoo.router(Temper("never"))
    plsp = router.lsp("waits", A, D, 400_000)
    yield len(router.waits_for_asks(1, within=5)), 1
    yield zoo.said(f"initiate {router.address} t1 {A} {D} 100000 7 7")[:6], "asked "
    yield len(router.waits_for_asks(1, pcep.PCINITIATE, within=5)), 1
    router.send(pcep.END_OF_SYNC)
    time.sleep(1.5)
    yield sorted(bound for bound, _ in zoo.grants().values()), [0, plsp]
    yield zoo.end(), WELL


def requests_that_nobody_answers(program):
    """Updates, initiations and deletions that a router doesn't answer end after --answer seconds, and not before."""
    zoo = Zoo(program, answer=ANSWER, retry=0)
    router, other = zoo.router(Temper("never")), zoo.router(Temper("every"))
    yield zoo.said(f"initiate {other.address} gone {A} {D} 100000 7 7")[:6], "asked "
    yield comes(lambda: 1 in other.lsps and list(other.lsps[1].paths) == [1] and other.lsps[1].current.state == pcep.UP, 5), True
    yield zoo.is_settled(), True
    other.temper = replace(other.temper, answers="never")
    made = time.monotonic()
    plsp = router.lsp("waits", A, D, 400_000)
    yield len(router.waits_for_asks(1, within=5)), 1
    yield zoo.said(f"initiate {router.address} t1 {A} {D} 300000 7 7")[:6], "asked "
    asks = router.waits_for_asks(1, within=5) + router.waits_for_asks(1, pcep.PCINITIATE, within=5)
    yield zoo.said(*[f"delete {other.address} 1"] * 2), "removing 2\nrefused 6"
    begun = time.monotonic()
    time.sleep(1.5)
    yield zoo.fallen(router, [ask.srp for ask in asks], made + ANSWER), []
    yield zoo.differences(), []
    yield zoo.is_settled(max(begun + ANSWER - time.monotonic(), 0) + LATE), True
    # (what is asked from here on may not be answered in time either)
    yield comes(lambda: metrics_of(text_of(zoo.server)).get(("pced_unanswered_total", None)) == 3, LATE), True
    yield zoo.said(f"update {router.address} {plsp}")[:6], "asked "
    yield zoo.said(f"initiate {router.address} t1 {A} {D} 300000 7 7")[:6], "asked "
    yield comes(lambda: zoo.said(f"delete {other.address} 1")[:9] == "removing ", LATE), True
    *well, texts = zoo.ended()
    yield tuple(well), WELL
    yield sorted(text for text in texts if text.startswith("no answer"))[:2], [
        f"no answer {router.address} srp=1 lsp={plsp}", f"no answer {router.address} srp=2 lsp=0"]


def an_answer_is_waited_for_anew(program):
    """The time of a grant begins with it, and anew with each report that names it."""
    zoo = Zoo(program, answer=2 * ANSWER, retry=0)
    router = zoo.router(Temper("never"))
    first = router.lsp("first", A, D, 200_000)
    one = router.waits_for_asks(1, within=5)[0]
    time.sleep(3)
    made = time.monotonic()
    second = router.lsp("second", A, D, 200_000)
    two = router.waits_for_asks(1, within=5, plsp=second)[0]
    router.show(first, pcep.GOING_UP, OVER_B, 1_000, one.srp)
    begun = time.monotonic()
    time.sleep(max(0, one.moment + 2 * ANSWER + 0.7 - begun))
    yield zoo.fallen(router, [one.srp, two.srp], made + 2 * ANSWER), []
    yield zoo.is_settled(max(begun + 2 * ANSWER - time.monotonic(), 0) + LATE), True
    yield zoo.end(), WELL


def unanswered(zoo, router):
    """For how long each request of a router's is unanswered, in milliseconds, by its SRP-ID: as the server says, once it says so of all."""
    said = {}

    def is_known():
        page = zoo.shown("grants")[0]
        said.clear()
        said.update((each["srp_id"], each["unanswered_ms"]) for each in page["grants"] + page["deletions"] if each["peer"] == router.address)
        return None not in said.values()

    return said if comes(is_known, 5) else None


def since_when_a_grant_is_unanswered(program):
    """`grants` says for how long a request is unanswered: since it was made, and anew since a report that named it; of another request that changes nothing."""
    zoo = Zoo(program, answer=0, retry=0)
    router = zoo.router(Temper("never"))
    made = time.monotonic()
    first, second = (router.lsp(name, A, D, 200_000) for name in ("first", "second"))
    one, two = (router.waits_for_asks(1, within=5, plsp=plsp)[0] for plsp in (first, second))
    time.sleep(3)
    noted, said = time.monotonic(), unanswered(zoo, router)
    # (the server takes note of a grant within half a second, and of a name at once)
    known = noted - max(one.moment, two.moment) - LATE
    yield sorted(said), sorted([one.srp, two.srp])
    yield [1000 * known <= said[ask.srp] <= 1000 * (time.monotonic() - made) for ask in (one, two)], [True, True]
    named = time.monotonic()
    router.show(first, pcep.GOING_UP, OVER_B, 1_000, one.srp)
    yield comes(lambda: unanswered(zoo, router)[one.srp] < said[one.srp], 5), True
    later = unanswered(zoo, router)
    # (the server's two moments are rounded down to milliseconds)
    yield 0 <= later[one.srp] <= 1000 * (time.monotonic() - named) + 1, True
    yield [later[two.srp] >= said[two.srp], later[two.srp] > later[one.srp]], [True, True]
    yield zoo.end(), WELL


def a_router_that_is_away_keeps_its_grants(program):
    """While a router is down no grant of it ends by --answer: its end of synchronization decides, or --keep."""
    zoo = Zoo(program, answer=ANSWER, retry=0, keep=300)
    router = zoo.router(Temper("never"))
    made = time.monotonic()
    router.lsp("waits", A, D, 400_000)
    router.waits_for_asks(1, within=5)
    router.lose_connection(comes_back=None)
    yield comes(lambda: zoo.peers() == {router.address: (False, False)}, 5), True
    is_in_time = time.monotonic() < made + ANSWER  # (else the grant may have ended before the router was away)
    time.sleep(ANSWER + 2)
    if is_in_time:
        yield len(zoo.grants()), 1
        yield zoo.book()[0], [1_000_000] * 7 + [600_000]
    router.lsps.clear()
    router.returns_at = time.monotonic()
    router.waits_until_up(session=2)
    zoo.waits_for_sync(router)
    yield zoo.is_settled(), True
    yield zoo.book(), FREE
    yield zoo.end(), WELL


def an_operator_drops_a_grant(program):
    """`grants` shows what is awaited, and `drop` ends it at once."""
    zoo = Zoo(program, retry=0)
    router = zoo.router(Temper("never"), [pathless("waits", 400_000)])
    yield zoo.said(f"update {router.address} 1")[:6], "asked "
    yield len(router.waits_for_asks(1, within=5)), 1
    yield zoo.said(f"initiate {router.address} t1 {A} {D} 300000 7 7")[:6], "asked "
    router.waits_for_asks(1, pcep.PCINITIATE, within=5)
    shown = zoo.shown("grants")[0]["grants"]
    yield sorted((grant["peer"], grant["srp_id"]) for grant in shown), [(router.address, 1), (router.address, 2)]
    yield [word in zoo.said("grants") for word in ("t1", router.address)], [True] * 2
    yield zoo.said(f"drop {router.address} 1"), "done"
    yield list(zoo.grants()), [(router.address, 2)]
    yield zoo.differences(), []
    yield [zoo.said(f"drop {router.address} {srp}") for srp in (99, 2)], ["done", "done"]
    yield zoo.book(), FREE
    yield [zoo.said(line) for line in ("drop 127.9.9.9 1", "drop", f"drop {router.address}")], ["refused 1", "bad line 1", "bad line 1"]
    yield zoo.server.view().document("/api/grants"), {**zoo.shown("grants")[0], "grants": []}
    yield zoo.end(), WELL


def grants_that_answers_end(program):
    """Routers that repeat the SRP-ID, refuse by a PCErr or a report, or report DOWN first end grants by what they say."""
    tempers = Temper("every"), Temper("every", records="nodes"), Temper("every", begins=pcep.DOWN), Temper("every", begins=pcep.UP), Temper("error"), \
        Temper("every", refuses=True), Temper("every", late=1)
    zoo = Zoo(program, retry=0)
    routers = [zoo.router(temper) for temper in tempers]
    for router in routers:
        router.lsp("t1", A, D, 50_000, OVER_C)
    yield zoo.is_settled(), True
    for router in routers:
        yield zoo.said(f"update {router.address} 1")[:6], "asked "
        yield zoo.said(f"initiate {router.address} t2 {A} {D} 10000 7 7")[:6], "asked "
    yield [len(router.waits_for_asks(1, kind, within=5)) for router in routers for kind in (pcep.PCUPD, pcep.PCINITIATE)], [1, 1] * len(routers)
    time.sleep(1.5)
    yield zoo.is_settled(), True
    for router in routers:
        if len(router.lsps) > 1:
            yield zoo.said(f"delete {router.address} 2")[:9], "removing "
    yield comes(lambda: all(len(router.lsps) == 1 for router in routers), 5), True
    yield zoo.is_settled(), True
    yield zoo.end(), WELL


CASES = [
    a_grant_ends_once_its_path_is_up, a_grant_stays_until_it_is_covered, a_grant_ends_with_its_session, another_end_of_synchronization,
    requests_that_nobody_answers, an_answer_is_waited_for_anew, since_when_a_grant_is_unanswered, a_router_that_is_away_keeps_its_grants,
    an_operator_drops_a_grant, grants_that_answers_end,
]
