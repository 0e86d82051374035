"""What is shown of what routers say, and what an update keeps."""
import socket
import struct
import time

import pcep
from harness.clock import comes
from harness.exposition import family, metrics_of, text_of

from .lsp import Path, Temper
from .zoo import A, B, C, D, OVER_B, OVER_C, WELL, Zoo

# the number of paths that may stand
MOST_PATHS = 16_384


def states_are_the_routers_words(program):
    """An LSP is shown in the state that its router reports, and as unplaced if it is up and no link is booked."""
    zoo = Zoo(program, retry=0)
    router, marked = zoo.router(), zoo.router(Temper(records="labels"))
    plsps = {name: router.lsp(name.replace(" ", "-"), A, D, 1_000, OVER_B, state, delegated=False) for state, name in enumerate(pcep.STATES)}
    labelled = marked.lsp("labels", A, D, 1_000, OVER_B, delegated=False)
    yield comes(lambda: len(zoo.lsps()) == 6, 5), True
    yield {name: zoo.state(router, plsp) for name, plsp in plsps.items()}, {name: name for name in plsps}
    yield zoo.state(marked, labelled), "unplaced"
    table = zoo.said("lsps").splitlines()
    place = table[0].index("STATE")
    yield sorted(line[place:].split("  ")[0] for line in table[1:]), sorted([*pcep.STATES, "unplaced"])
    numbers = metrics_of(text_of(zoo.server))
    yield family(numbers, "pced_lsps_by_state"), dict.fromkeys([*pcep.STATES, "unplaced"], 1)
    # no link is booked of these two
    yield [name for (_, plsp), lsp in sorted(zoo.lsps().items()) if lsp["is_down"] for name in [lsp["name"]]], ["down", "labels"]
    # the best of its paths counts: one that is up beside one that is going up
    plsp = plsps["up"]
    router.lsps[plsp].paths[2] = Path(pcep.GOING_UP, OVER_C, 1_000)
    router.report(plsp, None, 2)
    time.sleep(0.5)
    yield zoo.state(router, plsp), "up"
    yield zoo.end(), WELL


def why_an_lsp_failed(program):
    """`lsp` says why a router reports an LSP as down: LSP-ERROR-CODE and RSVP-ERROR-SPEC (RFC 8231 sections 7.3.3 and 7.3.4)."""
    zoo = Zoo(program, retry=0)
    router = zoo.router()
    preempted, failed = (router.lsp(name, A, D, 1_000, OVER_B, delegated=False) for name in ("first", "second"))
    code = pcep.tlv(pcep.ERROR_CODE, struct.pack(">I", 7))
    router.say_state(preempted, pcep.DOWN, why=(code,))
    router.say_state(failed, pcep.DOWN, why=(pcep.tlv(pcep.ERROR_CODE, struct.pack(">I", 8)), pcep.rsvp_error(B, 1, 2)))
    yield comes(lambda: zoo.book()[0] == [1_000_000] * 8, 5), True
    texts = [zoo.said(f"lsp {router.address} {plsp}").lower() for plsp in (preempted, failed)]
    yield ["preempted" in text for text in texts], [True, False]
    yield ["rsvp" in text and B in text for text in texts], [False, True]
    # it goes with the path
    router.say_state(preempted, pcep.UP)
    yield comes(lambda: "preempted" not in zoo.said(f"lsp {router.address} {preempted}").lower(), 5), True
    yield zoo.end(), WELL


def a_routers_refusal_is_shown(program):
    """The type and value of a PCErr stand in the log, in `lsp` and in a metric."""
    zoo = Zoo(program, retry=0)
    router = zoo.router(Temper("error"))
    plsp = router.lsp("refused", A, D, 1_000, OVER_C)
    yield comes(lambda: (router.address, plsp) in zoo.lsps(), 5), True
    yield zoo.said(f"update {router.address} {plsp}")[:6], "asked "
    yield comes(lambda: len(router.asks()) == 1 and not zoo.grants(), 5), True
    yield "19/1" in zoo.said(f"lsp {router.address} {plsp}"), True
    numbers = metrics_of(text_of(zoo.server))
    yield family(numbers, "pced_errors_received_total"), {"19 1": 1}
    *well, texts = zoo.ended()
    yield tuple(well), WELL
    wanted = f"router refused {router.address} srp=1 lsp=refused PCErr 19/1"
    yield [text[:len(wanted)] for text in texts if text.startswith("router refused")], [wanted]


def a_gap_is_shown(program):
    """An LSP that is up and is booked on some of its links only is shown as partly placed, with the place of the gap."""
    zoo = Zoo(program, retry=0)
    router = zoo.router(Temper(records=None))
    # (no link joins B and C, or C and B; no node owns the end of the fourth)
    routes = (A, D, (0, 2, 3)), (C, D, (0, 1)), (A, C, (0,)), (A, "192.0.2.9", (0,)), (A, D, OVER_B)
    plsps = [router.lsp(f"t{number}", *ends, 1_000, way, delegated=False) for number, (*ends, way) in enumerate(routes)]
    yield comes(lambda: len(zoo.lsps()) == len(routes), 5), True
    texts = [zoo.said(f"lsp {router.address} {plsp}") for plsp in plsps]
    places = "after link 0", "before link 1", "after link 0"
    yield ["partly placed" in text for text in texts], [True, True, True, False, False]
    yield [place in text for place, text in zip(places, texts)], [True] * 3
    yield [zoo.lsps()[router.address, plsp]["is_partly_placed"] for plsp in plsps], [True, True, True, False, False]
    table = zoo.said("lsps").splitlines()
    place = table[0].index("STATE")
    yield [line[place:].split("  ")[0] for line in table[1:]], ["up partly placed"] * 3 + ["up"] * 2
    yield [zoo.state(router, plsp) for plsp in plsps], ["up"] * 5
    yield metrics_of(text_of(zoo.server))["pced_partly_placed_paths", None], 3
    yield zoo.end(), WELL


def local_protection_stays(program):
    """An update has the flag L of the LSP's last report (RFC 3209 section 4.7), and an initiation has it clear."""
    zoo = Zoo(program, retry=0)
    plain, safe = zoo.router(Temper("every")), zoo.router(Temper("every", protects=True))
    for router in plain, safe:
        plsp = router.lsp("t1", A, D, 1_000, OVER_C)
        router.lsp("t2", A, D, 1_000)
        yield comes(lambda: (router.address, plsp) in zoo.lsps(), 5), True
        yield zoo.said(f"update {router.address} {plsp}")[:6], "asked "
        yield zoo.said(f"initiate {router.address} t3 {A} {D} 1000 7 7")[:6], "asked "
        yield [ask.protects for ask in router.waits_for_asks(2, within=5)], [router is safe] * 2
        yield [ask.protects for ask in router.waits_for_asks(1, pcep.PCINITIATE, within=5)], [False]
    yield zoo.end(), WELL


def why_a_session_was_ended(program):
    """The log says by which PCErr a session ended that reported an LSP of IPv6, and in words what was wrong."""
    zoo = Zoo(program)
    router = zoo.router()
    six = struct.pack(">16sHH4s16s", bytes(15) + b"\1", 1, 1, bytes(4), bytes(15) + b"\2")
    lsp = pcep.lsp(1, 0x18, pcep.tlv(19, six), pcep.tlv(pcep.NAME, b"six"))
    with router.lock:
        router.send(pcep.message(pcep.PCRPT, lsp, pcep.make_object(pcep.ERO, bytes([4, 20]) + socket.inet_pton(socket.AF_INET6, "2001:db8::1") + bytes([128, 0]))))
    yield comes(lambda: [ask.error for ask in router.heard if ask.error] == [(6, 11)], 5), True
    router.lose_connection(None)
    *well, texts = zoo.ended()
    yield tuple(well), WELL
    ends = [text for text in texts if text.startswith(f"ended {router.address} why=malformed message")][:1]
    yield ["6/11" in text and "IPv6" in text for text in ends], [True]


def reported(plsp, lsp_id, state, *flags):
    """A report of an LSP's path without a route; LSP-ID 0: it isn't signalled (RFC 8231 section 7.3.1)."""
    path = pcep.identifiers(A, lsp_id, plsp % 0xFFFF + 1, D) if lsp_id else pcep.NO_IDENTIFIERS
    what = pcep.lsp(plsp, state << 4 | sum(flags), path, pcep.tlv(pcep.NAME, b"churned"))
    return pcep.message(pcep.PCRPT, what, pcep.route(pcep.ERO, ()))


def what_is_replaced_is_forgotten(program):
    """What is said of a path is forgotten once another one replaces it, so that there is room for what is said of those that stand."""
    zoo = Zoo(program, retry=0)
    router = zoo.router()
    forth = (0, pcep.DOWN), (1, pcep.DOWN)
    back = (1, pcep.DOWN), (2, pcep.DOWN), (0, pcep.DOWN)
    for plsp in range(1, MOST_PATHS + 1):
        reports = [reported(plsp, *report) for report in (forth if plsp % 2 else back)]
        last = reported(plsp, 1 if plsp % 2 else 0, 0, pcep.REMOVE)
        router.send(b"".join([*reports, last]))
    router.send(reported(MOST_PATHS + 1, 0, pcep.GOING_UP) + reported(MOST_PATHS + 2, 3, pcep.GOING_DOWN))
    yield comes(lambda: len(zoo.lsps()) == 2, 100), True
    yield [zoo.state(router, MOST_PATHS + number) for number in (1, 2)], ["going up", "going down"]
    yield zoo.end(), WELL


CASES = [
    states_are_the_routers_words, why_an_lsp_failed, a_routers_refusal_is_shown, a_gap_is_shown, local_protection_stays, why_a_session_was_ended,
    what_is_replaced_is_forgotten,
]
