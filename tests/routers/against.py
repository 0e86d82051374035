"""What can be judged of any PCE from the wire only: routers of several tempers connect to it, delegate LSPs, and look at what
they are sent."""
import time
from dataclasses import replace

import pcep
from harness.cases import Case
from harness.clock import comes

from . import account
from .lsp import Temper
from .network import network_of
from .router import Router

TEMPERS = {
    "every": Temper("every"), "first": Temper("first"), "never": Temper("never"), "error": Temper("error"), "down_first": Temper("every", begins=pcep.DOWN),
    "refuses": Temper("every", refuses=True), "renumbers": Temper("first", renumbers=True, drops=1), "labels": Temper("first", records="labels"),
    "nodes": Temper("first", records="nodes"), "late": Temper("first", late=2.0), "protects": Temper("first", protects=True),
}


def observed(router, seconds, ends):
    """Looks at what came and what is wanted, of a router that connects from an address."""
    network = router.network
    router.waits_until_up(within=20)
    yield [router.heard, router.reasons], [[], []]
    source, destination = ends
    way = network.ways(source, destination)[-1]
    delegated = router.lsp("delegated", source, destination, 1_000, delegated=True)
    router.lsp("own", source, destination, 1_000, way, delegated=False)
    router.lsp("other", source, destination, 1_000, way, delegated=True)
    time.sleep(seconds / 2)
    # it loses its connection, comes back, and goes on
    session = router.session
    router.lose_connection()
    comes(lambda: router.session > session and router.is_up, 10)
    time.sleep(seconds / 2)
    asks = router.asks()
    heard = len(asks), len(router.asks(pcep.PCINITIATE)), len(router.asks(pcep.PCERR)), router.session
    print("      %d PCUpd, %d PCInitiate, %d PCErr, %d sessions" % heard, flush=True)
    yield router.is_up, True
    yield account.wire_faults(router), []
    # an LSP that was delegated and is down is asked for, if the PCE knows its ends
    yield [ask.plsp for ask in asks if ask.plsp == delegated][:1] or "no update came", [delegated] if asks else "no update came"
    yield [srp for srp in account.unprotected(router)], []
    yield [ask.error for ask in router.asks(pcep.PCERR) if ask.error[0] not in (9,)], []


def case_of(name, temper, server, address, network, seconds, ends):
    """A case of a router of this temper, which connects as its turn comes."""
    def looks():
        router = Router(server, address, network, replace(temper))
        yield from observed(router, seconds, ends)
        router.end()
    return Case(name, f"What a router is sent from {address}.", looks)


def cases_of(host, port, te, seconds, first):
    """A case for each temper, of a router at the first node of a network that has LSPs to the last one."""
    network = network_of(te)
    ids = list(network.ids.values())
    for number, (name, temper) in enumerate(TEMPERS.items()):
        address = first if first and not first.startswith("127.") else f"127.0.3.{number + 1}"
        yield case_of(name, temper, (host, port), address, network, seconds, (ids[0], ids[-1]))
