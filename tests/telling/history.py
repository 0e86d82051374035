"""Lines that say where paths came from."""
import time

import pcep
from harness.clock import comes
from harness.router import Router
from harness.server import ENDED, ControlledServer
from pcep import diamond

from .read import chosen, is_read_by_python, report_at, steps_of


def where_paths_came_from(program):
    """`why` names the last report of a path that was booked, and the commit that granted a path, with its ticket."""
    server = ControlledServer(program)
    router = Router(server, 1)
    router.come_up()
    for turn in range(2):
        router.send(diamond.report(1, 500000.0) + diamond.report(1, 500000.0, lsp_id=2) + diamond.report(2, 1000.0))
    router.send(diamond.removal(1, lsp_id=1))
    router.send(diamond.report(7, 250000.0, links=(), flags=0x09))
    yield router.hear_of(pcep.PCUPD)[:2], bytes([0x20, pcep.PCUPD])
    router.ask(1)
    steps = steps_of(server)
    reports = [place for place, step in steps.items() if step["event"] == "report"]
    (grant,) = [step for step in steps.values() if step["outcome"] == "granted"]
    (asked,) = [step for step in steps.values() if step["outcome"] == "asked" and step["step"] < grant["step"]]
    members = ["lsp_id", "srp_id", "links", "by", "step", "ticket"]
    (one,) = server.shown("why 127.0.1.1 1")
    yield [chosen(path, *members) for path in one["paths"]], [[2, None, [0, 1], "report", reports[4], None]]
    yield chosen(one, "peer", "plsp_id", "rolled_steps", "first_step"), ["127.0.1.1", 1, 0, 0]
    (seven,) = server.shown("why 127.0.1.1 7")
    yield [chosen(path, *members) for path in seven["paths"]], [
        [1, None, [], "report", reports[7], None], [None, 1, [0, 1], "grant", grant["step"], asked["number"]]]
    yield steps[reports[7]]["peer"], "127.0.1.1"
    yield [server.shown(line) for line in ("why 127.0.1.1 9", "why 127.0.1.9 1")], [[None]] * 2
    yield server.asked("why 127.0.1.1 9"), (b"no such LSP\n", 0)
    lines = server.asked("why 127.0.1.1 7")[0].decode().splitlines()
    yield lines[0].split(), ["PATH", "LINKS", "BY", "STEP", "TICKET", "AGO", "LINK", "UNRESERVED", "BEFORE", "UNRESERVED", "AFTER"]
    yield [line.split()[:6] for line in lines[1:3]], [
        ["lsp", "1", "-", "report", str(reports[7]), "-"],
        ["srp", "1", "0,1", "grant", str(grant["step"]), str(asked["number"])]]
    yield is_read_by_python(server, "why 127.0.1.1 7"), True
    yield server.end(), ENDED


def when_paths_came(program):
    """`why` says how long ago a path's step was taken, at least and at most."""
    server = ControlledServer(program)
    router = Router(server, 1)
    router.come_up()

    def reported(plsp):
        router.send(diamond.report(plsp, 1000.0))
        router.ask(plsp)
        return ages(plsp)

    def ages(plsp):
        (seen,) = server.shown(f"why 127.0.1.1 {plsp}")
        return chosen(seen["paths"][0], "least_ms_ago", "most_ms_ago")

    def ms_between(begun, ended):
        return 1000 * (ended - begun)

    sent = time.monotonic()
    reported(1)
    known = time.monotonic()
    time.sleep(1.2)
    asked = time.monotonic()
    least, most = ages(1)
    answered = time.monotonic()
    yield ms_between(known, asked) - 2 <= least <= ms_between(sent, answered) + 2, True
    yield least <= most, True
    least, most = reported(2)
    yield least <= most <= ms_between(asked, time.monotonic()) + 2, True
    yield server.asked("why 127.0.1.1 1")[0].decode().splitlines()[1].split()[6:8], ["0", "d"]
    yield server.end(), ENDED


def what_steps_left(program):
    """`why` says what was left of a path's links at its setup priority before and after its step; paths of a tunnel share."""
    def rows(plsp, place=0):
        (seen,) = server.shown(f"why 127.0.1.1 {plsp}")
        left = seen["paths"][place]["left"]
        members = ["link", "priority", "before_bytes_per_second", "after_bytes_per_second"]
        return left and [chosen(row, *members) for row in left]

    server = ControlledServer(program)
    router = Router(server, 1)
    router.come_up()
    router.send(report_at(7, 0, 1, 500000.0) + report_at(7, 0, 1, 600000.0, lsp_id=2) + report_at(5, 3, 2, 300000.0))
    router.send(report_at(2, 2, 3, 250000.0) + report_at(7, 7, 4, 900000.0) + report_at(7, 7, 5, 1000.0, links=diamond.OVER_C))
    router.send(report_at(7, 7, 6, 5000.0, links=()) + diamond.removal(4))
    router.send(diamond.report(7, 250000.0, links=(), flags=0x09))
    yield router.hear_of(pcep.PCUPD)[:2], bytes([0x20, pcep.PCUPD])
    yield rows(1), [[0, 7, 1_000_000, 500_000], [1, 7, 1_000_000, 500_000]]
    yield rows(1, 1), [[0, 7, 500_000, 400_000], [1, 7, 500_000, 400_000]]
    yield rows(2), [[0, 5, 400_000, 100_000], [1, 5, 400_000, 100_000]]
    yield rows(3), [[0, 2, 400_000, 150_000], [1, 2, 400_000, 150_000]]
    yield rows(5), [[2, 7, 1_000_000, 999_000], [3, 7, 1_000_000, 999_000]]
    yield rows(6), None
    yield rows(7), None
    comes(lambda: rows(7, 1) is not None)
    yield rows(7, 1), [[2, 7, 999_000, 749_000], [3, 7, 999_000, 749_000]]
    router.send(report_at(7, 7, 4, 900000.0) + report_at(7, 0, 1, 500000.0))
    router.ask(1, 100.0)
    yield rows(4), [[0, 7, -150_000, -1_050_000], [1, 7, -150_000, -1_050_000]]
    yield sorted(rows(1) + rows(1, 1)), [
        [0, 7, -1_050_000, -1_050_000], [0, 7, 500_000, 400_000], [1, 7, -1_050_000, -1_050_000], [1, 7, 500_000, 400_000]]
    lines = server.asked("why 127.0.1.1 4")[0].decode().splitlines()
    yield [line.split()[-7:] for line in lines[1:]], [
        ["0", "-150000", "(-1.2", "Mbit/s)", "-1050000", "(-8.4", "Mbit/s)"],
        ["1", "-150000", "(-1.2", "Mbit/s)", "-1050000", "(-8.4", "Mbit/s)"]]
    yield server.asked("why 127.0.1.1 6")[0].decode().splitlines()[1].split()[-3:], ["-"] * 3
    yield is_read_by_python(server, "why 127.0.1.1 4"), True
    yield server.end(), ENDED


CASES = [where_paths_came_from, when_paths_came, what_steps_left]
