"""Journals of servers that go over several files, each of which replays alone."""
import os
import time

import pcep
from harness.clock import comes
from harness.router import NOWHERE, Router, up
from harness.server import ControlledServer
from pcep import diamond

from .account import verdict
from .drawn import replayed
from .runs import begin, files_in, folder, has_all, has_step, shown, steps_of

# the history is rolled once its steps take 8 MB, and each roll may begin a file
OFTEN = "--history", "16", "--journal-limit", "1"
LSPS, AT_ONCE, LONG_ONES, MOST_TURNS, ENOUGH = 40, 60, 100, 20, 3
# longer than the second for which a file is named
SECOND_S = 1.1
# a file of fewer bytes isn't followed by another soon; how long the journal may take for what it is behind, in seconds
NEARLY_FULL, WRITTEN_S = 900_000, 10
# what a server shows, and what a file with a base shows of it: what routers said before the base isn't there
SHOWN = "book", "links", "json links", "json lsps", "json tickets", "tickets"
SHOWN_ALONE = "book", "links", "json links", "lsps 127.0.1.1", "json lsps 127.0.1.1", "json tickets"
# a report of LSP 63 whose route has 1,500 subobjects of an unknown kind: it takes 96 kB in memory
LONG = pcep.message(pcep.PCRPT, diamond.lsp(63, 0x18, 1, 63), pcep.make_object(pcep.ERO, bytes([0x7E, 4, 0, 0]) * 1_500), diamond.ATTRIBUTES)


def is_heard(router: Router) -> bool:
    """Whether all that the router sent before was handled: it asks for a path to nowhere, which is answered at once."""
    router.send(pcep.message(pcep.PCREQ, pcep.rp(1), NOWHERE))
    return len(router.hear_of(pcep.PCREP)) > 0


def burst(router: Router, turn: int, long_ones: int = 0):
    """Reports of the router's LSPs and some long ones, until all were handled: the bandwidths of the last ones are the turn's."""
    reports = [diamond.report(count % LSPS + 1, float(1 + turn % 7 + count % 5), links=diamond.OVER_C if count % 3 else diamond.OVER_B)
               for count in range(AT_ONCE)]
    router.send(b"".join([*reports, *[LONG] * long_ones]))
    if not is_heard(router):
        raise ValueError("the router is closed")


def fill(server: ControlledServer, router: Router, path: str):
    """Reports until the journal has enough files. Each report finds the journal whole, and in another second, which names another file."""
    for turn in range(MOST_TURNS):
        time.sleep(SECOND_S)
        burst(router, turn, LONG_ONES)
        if len(files_in(path)) >= ENOUGH:
            return
        if not comes(lambda: has_all(path, steps_of(server)), WRITTEN_S):
            break
    raise ValueError(f"the journal has {len(files_in(path))} files")


def report_again(server: ControlledServer, router: Router, path: str, *others: bytes):
    """Reports the router's LSPs once more, until the newest file has what it said of each, and isn't nearly full."""
    while True:
        first = steps_of(server)
        router.send(b"".join(others))
        burst(router, 5)
        newest, last = files_in(path)[-1], steps_of(server) - 1
        if comes(lambda: has_step(newest, last), WRITTEN_S) and has_step(newest, first) and os.path.getsize(newest) < NEARLY_FULL:
            return
        burst(router, 6, LONG_ONES // 6)


def end(server: ControlledServer, path: str):
    """What the server shows at its end, what it shows of the first router, and how many steps its journal has."""
    while True:
        count = steps_of(server)
        all_shown, alone = shown(server, *SHOWN), shown(server, *SHOWN_ALONE)
        if steps_of(server) == count and comes(lambda: has_all(path, count)):
            server.kill()
            return all_shown.decode(), alone.decode(), count


def replays_alone(program, path: str, all_shown: str, alone: str, count: int):
    """All files, each of them and the last ones replay as recorded, and the last one shows what the server showed."""
    paths, last = files_in(path), str(count - 1)
    first, *others = paths
    yield len(paths) >= ENOUGH, True
    said = replayed(program, *paths)
    yield said, verdict(paths)
    yield said[0], 0
    yield replayed(program, *paths, "--at", last, "--", *SHOWN), (0, all_shown, "")
    yield replayed(program, first, *others[1:]), (2, "", f"{others[1]}: bad line 1\n")
    # the first ones may be removed
    os.remove(first)
    for files in (others, *([file] for file in others)):
        status, out, err = replayed(program, *files)
        yield (status, err), (0, "")
        yield f" replayed from the base of {files[0]}, " in out, True
    yield replayed(program, others[-1], "--at", last, "--", *SHOWN_ALONE), (0, alone, "")
    yield replayed(program, others[-1]), verdict(others[-1:])


def several_files(program):
    """A run of several files, each of which replays alone: in their bases are grants, awaited removals and stale paths."""
    with folder() as path:
        server = begin(program, path, *OFTEN, "--answer", "0", "--keep", "3600", "--retry", "0")
        gone, other, router = up(server, 3), up(server, 2, sync=False), up(server, 1)
        gone.send(diamond.report(1, 5.0) + diamond.report(2, 6.0, flags=0x19))
        gone.ask(1)
        gone.close()
        other.send(diamond.report(7, 3.0, lsp_id=2))
        # LSP 50 is delegated and was initiated by a PCE, which asks for its removal; LSP 51 is delegated
        held = diamond.report(50, 10.0, flags=0x99) + diamond.report(51, 11.0, flags=0x19)
        router.send(held)
        router.ask(1)
        yield comes(lambda: not server.peers()["127.0.1.3"]["is_up"]), True
        said = server.asked("initiate 127.0.1.1 t1 10.0.0.1 10.0.0.4 500 7 0", "delete 127.0.1.1 50", "update 127.0.1.1 51", "reload")[0].decode()
        yield [line.split()[0] for line in said.splitlines()][:3], ["asked", "removing", "asked"]
        fill(server, router, path)
        server.asked("initiate 127.0.1.1 t2 10.0.0.1 10.0.0.4 500 7 0")
        report_again(server, router, path, held, LONG)
        yield from replays_alone(program, path, *end(server, path))


def tickets_wait(program):
    """While no path is granted tickets wait, and stand in the base."""
    with folder() as path:
        server = begin(program, path, *OFTEN, "--settle", "3600", "--keep", "3600")
        other, router = up(server, 2), up(server, 1)
        other.send(b"".join(diamond.request(number, 1000.0 * number) for number in range(1, 9)))
        said = server.asked("initiate 127.0.1.1 t1 10.0.0.1 10.0.0.4 500000 7 0",
                            "place 127.0.1.1 t2 10.0.0.1 10.0.0.4 1000 7 0 metric=hops max-cost=9 max-hops=4 exclude=0x8")[0]
        yield [line.split()[0] for line in said.splitlines()], [b"asked", b"asked"]
        yield comes(lambda: server.status()["tickets"] == 10), True
        fill(server, router, path)
        other.close()
        yield comes(lambda: not server.peers()["127.0.1.2"]["is_up"]), True
        report_again(server, router, path, LONG)
        yield from replays_alone(program, path, *end(server, path))


CASES = [several_files, tickets_wait]
