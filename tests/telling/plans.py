"""Lines that look for paths: which would cost less, and where LSPs would go."""
import pcep
from harness.router import Router
from harness.server import ENDED, ControlledServer
from pcep import diamond

from .read import chosen, is_read_by_python


def cheaper_paths(program):
    """`better` names delegated LSPs only, each with a path that costs less and has room, and `update` moves one there."""
    server = ControlledServer(program)
    router = Router(server, 1)
    router.come_up()
    over_c = diamond.OVER_C
    router.send(diamond.report(1, 700000.0) + diamond.report(2, 200000.0, links=over_c, flags=0x19))
    router.send(diamond.report(3, 400000.0, links=over_c, flags=0x19) + diamond.report(4, 1000.0, links=over_c))
    router.send(diamond.report(5, 1000.0, flags=0x19))
    router.ask(1, 100.0)
    (page,) = server.shown("better")
    yield chosen(page, "from", "next"), [0, None]
    better = {"peer": "127.0.1.1", "plsp_id": 2, "cost": 40, "better_cost": 20, "links": [0, 1]}
    yield page["better"], [better]
    yield server.shown("better 127.0.1.1")[0]["better"], [better]
    yield server.shown("better 127.0.1.2")[0]["better"], []
    yield [line.split() for line in server.asked("better")[0].decode().splitlines()], [
        ["PEER", "PLSP", "COST", "BETTER", "LINKS"], ["127.0.1.1", "2", "40", "20", "0,1"]]
    yield is_read_by_python(server, "better"), True
    yield server.asked("update 127.0.1.1 2")[1], 0
    yield router.hear_of(pcep.PCUPD)[:2], bytes([0x20, pcep.PCUPD])
    yield server.shown("better")[0]["better"], []
    yield server.end(), ENDED


def without_a_link(program):
    """`without` tries the LSPs over a link by their priority, each beside what those before it took, and books nothing."""
    server = ControlledServer(program)
    router = Router(server, 1)
    router.come_up()
    router.send(b"".join(diamond.report(plsp, value) for plsp, value in ((1, 300000.0), (2, 500000.0), (3, 200000.0), (4, 0.0))))
    router.send(diamond.report(5, 100000.0, links=diamond.OVER_C))
    router.ask(1, 100.0)
    (run,) = server.shown("without 0")
    yield chosen(run, "link", "rest"), [0, None]
    members = ["plsp_id", "bandwidth_bytes_per_second", "is_found", "cost", "links"]
    yield [chosen(move, *members) for move in run["moves"]], [
        [1, 300_000, True, 40, [2, 3]], [2, 500_000, True, 40, [2, 3]], [3, 200_000, False, None, []], [4, 1, True, 40, [2, 3]]]
    yield server.shown("without 3")[0]["moves"][0]["links"], []
    yield server.shown("without 4"), [None]
    yield server.asked("without 4"), (b"no such link\n", 0)
    yield server.asked("without 0")[0].decode().splitlines()[-1].split(), ["not", "rerouted", "1,", "200000", "(1.6", "Mbit/s)"]
    yield is_read_by_python(server, "without 0"), True
    yield server.shown("links 2")[0]["links"][0]["unreserved_bytes_per_second"], [900_000] * 8
    yield server.end(), ENDED


CASES = [cheaper_paths, without_a_link]
