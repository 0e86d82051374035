"""Answers in pages."""
import threading
import time

import pcep
from harness.clock import comes
from harness.router import Router, up
from harness.server import ENDED, ControlledServer
from pcep import diamond

from .read import cells, chosen


def pages_of_grants(program):
    """Grants come in pages of 256, and a table of all pages has one head."""
    server = ControlledServer(program)
    router = Router(server, 1)
    yield router.come_up(), True
    router.ask()
    lines = [f"initiate 127.0.1.1 t{number} 10.0.0.1 10.0.0.4 1000 7 0" for number in range(1, 301)]
    yield server.asked(*lines)[1], 0
    yield comes(lambda: sum(len(page["grants"]) for page in server.shown("grants")) == 300), True
    pages = server.shown("grants")
    yield [[page["from"], page["next"], len(page["grants"])] for page in pages], [[0, 256, 256], [256, None, 44]]
    yield sorted(grant["srp_id"] for page in pages for grant in page["grants"]), list(range(1, 301))
    yield sorted(grant["name"] for page in pages for grant in page["grants"]), sorted(line.split()[2] for line in lines)
    yield [row[0] for row in cells(server, "grants")], ["PEER", *["127.0.1.1"] * 300]
    yield comes(lambda: all(grant["unanswered_ms"] is not None for page in server.shown("grants") for grant in page["grants"])), True
    yield server.end(), ENDED


def pages_of_better(program):
    """`better` goes over all LSPs in pages, and its table has one head, and each LSP once."""
    server = ControlledServer(program)
    router = Router(server, 1)
    router.come_up()
    # (of 600 LSPs in three pages those whose PLSP-ID is a multiple of three are on the dearer way)
    plsps = range(1, 601)
    router.send(b"".join(diamond.report(plsp, 100.0, links=diamond.OVER_B if plsp % 3 else diamond.OVER_C, flags=0x19) for plsp in plsps))
    router.ask(1, 100.0)
    pages = server.shown("better")
    yield [page["from"] for page in pages], [0, 256, 512]
    yield [better["plsp_id"] for page in pages for better in page["better"]], [plsp for plsp in plsps if plsp % 3 == 0]
    rows = [line.split() for line in server.asked("better")[0].decode().splitlines()]
    yield rows, [["PEER", "PLSP", "COST", "BETTER", "LINKS"], *(["127.0.1.1", str(plsp), "40", "20", "0,1"] for plsp in plsps if plsp % 3 == 0)]
    yield server.end(), ENDED


def pages_of_all_lsps(program):
    """16,384 LSPs come in pages while reports come, and none that stays is skipped; other lines are answered meanwhile."""
    server = ControlledServer(program)
    # (without timers: each is silent while the others report, however long that takes)
    routers = [up(server, number, pcep.opening(0, 0)) for number in range(1, 5)]
    for router in routers:
        for start in range(1, 4097, 256):
            router.send(b"".join(diamond.report(plsp, 10.0, flags=0x19) for plsp in range(start, start + 256)))
        router.ask(1, 10.0)
    done = []

    def report():
        for turn in range(2000):
            routers[turn % 4].send(diamond.report(1 + turn % 4096, 11.0, flags=0x19))
            time.sleep(0.001)
        done.append(True)

    reporting = threading.Thread(target=report)
    reporting.start()
    while not done:
        pages = server.shown("lsps")
        yield [page["from"] for page in pages], list(range(0, 16384, 256))
        yield len({(lsp["peer"], lsp["plsp_id"]) for page in pages for lsp in page["lsps"]}), 16384
        yield [link["link"] for link in server.shown("links 0")[0]["links"]], [0]
        (one,) = server.shown("why 127.0.1.1 7")
        yield [path["by"] for path in one["paths"]], ["report"]
        yield [page["from"] for page in server.shown("better")], list(range(0, 16384, 256))
        (run,) = server.shown("without 0")
        yield chosen(run, "link", "rest") + [len(run["moves"])], [0, 512, 512]
        yield cells(server, "without 0")[-1], ["others", "not tried"]
    reporting.join()
    yield server.end(), ENDED


def pages_of_lsps(program):
    """LSPs come in pages of 256, each of one moment, while a router reports; none that stays is skipped."""
    server = ControlledServer(program)
    router, other = Router(server, 1), Router(server, 2)
    yield [each.come_up() for each in (router, other)], [True] * 2
    for plsp in range(1, 601):
        router.send(diamond.report(plsp, 1000.0))
    router.ask(1)
    done = []

    def report():
        for turn in range(400):
            other.send(diamond.report(1 + turn, 1000.0, diamond.OVER_C))
            time.sleep(0.002)
        done.append(True)

    reporting = threading.Thread(target=report)
    reporting.start()
    turns = 0
    while not done or turns == 0:
        turns += 1
        pages = server.shown("lsps")
        yield [page["from"] for page in pages[1:]], [page["next"] for page in pages[:-1]]
        yield pages[-1]["next"], None
        yield all(len(page["lsps"]) == 256 for page in pages[:-1]), True
        lsps = [(lsp["peer"], lsp["plsp_id"]) for page in pages for lsp in page["lsps"]]
        yield len(set(lsps)), len(lsps)
        yield sorted(plsp for peer, plsp in lsps if peer == router.address), list(range(1, 601))
    reporting.join()
    other.ask(1)
    yield sum(len(page["lsps"]) for page in server.shown("lsps")), 1000
    yield [len(page["lsps"]) for page in server.shown(f"lsps {other.address}")][-1], 400 % 256 or 256
    text, status = server.asked("lsps")
    yield (status, text.count(b"127.0.1.1 "), text.count(b"127.0.1.2 ")), (0, 600, 400)
    yield server.end(), ENDED


CASES = [pages_of_grants, pages_of_better, pages_of_lsps, pages_of_all_lsps]
