"""Operators and viewers that are idle, hang or speak by halves, and crowds of connections."""
import multiprocessing
import socket
import subprocess
import threading
import time

import pcep
from harness.clock import TIMEOUT_S, Timed, comes, paced
from harness.process import descriptors, threads
from harness.router import Router, time_of_request, up
from harness.server import ENDED, ControlledServer, ViewedServer, all_of, end, line_of
from pcep import diamond

REFUSED = b"refused 1\n"
IS_REFUSED = 1  # the status of `pced tell` after a refusal


def tells(server, line, within=TIMEOUT_S):
    """What `pced tell` prints, its status, and whether it had it within these seconds."""
    begun = paced()
    ran = subprocess.run([server.program, "tell", server.path, line], stdin=subprocess.DEVNULL, capture_output=True, timeout=120)
    return ran.stdout, ran.returncode, paced() - begun < within


def idle_operators(program):
    """Beside four operators who say nothing others are heard, and `end` is; who has been idle longest makes room."""
    server = ControlledServer(program)
    idle = [server.connect() for _ in range(4)]
    idle[1].sendall(b"update 10.0.0.9 ")
    time.sleep(1.5)
    for place in (0, 2, 3):
        idle[place].sendall(b"update 10.0.0.9 1\n")
        yield line_of(idle[place]), REFUSED
    yield tells(server, "update 10.0.0.9 1", 5), (REFUSED, IS_REFUSED, True)
    yield all_of(idle[1]), b""
    time.sleep(1.5)
    idle[0].sendall(b"update 10.0.0.9 1\n")
    yield line_of(idle[0]), REFUSED
    again = [server.connect() for _ in range(6)]
    time.sleep(0.1)
    begun = paced()
    yield server.asked("end"), (b"", 0)
    yield paced() - begun < 12, True
    yield end(server)[1], (0, [])
    [each.close() for each in again]


def operators_who_trickle(program):
    """Operators who send a byte now and then, or ask and ask and read nothing, don't keep `end` from being heard."""
    server = ControlledServer(program)
    is_over = threading.Event()
    hogs = [server.connect() for _ in range(4)]

    def trickle(operator):
        while not is_over.wait(0.1):
            try:
                operator.sendall(b"x")
            except OSError:
                return

    def ask(operator):
        operator.settimeout(0.2)
        while not is_over.is_set():
            try:
                operator.sendall(b"links\n" * 100)
            except TimeoutError:
                pass
            except OSError:
                return

    acts = [threading.Thread(target=act, args=(hog,)) for act, hog in zip((trickle, trickle, ask, ask), hogs)]
    [act.start() for act in acts]
    time.sleep(0.5)
    yield tells(server, "update 10.0.0.9 1", 8), (REFUSED, IS_REFUSED, True)
    begun = paced()
    yield server.asked("end"), (b"", 0)
    yield paced() - begun < 15, True
    is_over.set()
    [act.join() for act in acts]
    yield end(server)[1], (0, [])


def idle_viewers(program):
    """Beside eight viewers who ask each half second, or hang in a request, another one is answered soon."""
    server = ViewedServer(program)
    viewers = [server.view() for _ in range(8)]
    is_over = threading.Event()

    def ask(viewer, half):
        while not is_over.wait(0.5):
            try:
                if half:
                    viewer.send(b"G")
                else:
                    viewer.get("/api/status")
            except (OSError, AttributeError, TypeError):
                return

    acts = [threading.Thread(target=ask, args=(viewer, place > 4)) for place, viewer in enumerate(viewers)]
    [act.start() for act in acts]
    time.sleep(1)
    for _ in range(3):
        late = server.view()
        begun = paced()
        try:
            yield late.get("/metrics")[0], 200
        except (TimeoutError, TypeError) as fault:
            yield repr(fault), 200
        yield paced() - begun < 4, True
        late.close()
    is_over.set()
    [act.join() for act in acts]
    yield end(server), ENDED


def a_crowd_that_left(program):
    """After a crowd has gone there are as many descriptors and threads as before."""
    server = ViewedServer(program)
    first = up(server, 1), server.connect(), server.view()
    time.sleep(0.3)
    [each.close() for each in first]
    time.sleep(2)
    before = descriptors(server.process), threads(server.process)
    for number in range(300):
        router = Router(server, 1 + number % 100)
        try:
            if number % 3:
                router.send(bytes(4) if number % 3 == 1 else pcep.OPEN[:9])
        except OSError:
            pass
        if number % 5:
            router.close()
    silent = [Router(server, 1 + number % 20) for number in range(200)]
    operators = [server.connect() for _ in range(6)]
    viewers = [server.view() for _ in range(12)]
    time_of_request(up(server, 150), 1)
    [each.close() for each in [*silent, *operators, *viewers]]
    yield comes(lambda: (descriptors(server.process), threads(server.process)) <= before, 15) or (
        descriptors(server.process), threads(server.process), before), True
    yield end(server), ENDED


def connect_fast(port, place, until):
    """Connects from 60 addresses as fast as it can, and drops each connection."""
    number = 0
    while time.monotonic() < until:
        number += 1
        try:
            with socket.socket() as each:
                each.bind((f"127.{2 + place}.1.{1 + number % 60}", 0))
                each.connect(("127.0.0.1", port))
        except OSError:
            pass


def a_flood(program):
    """Beside two processes that connect and drop as fast as they can, a router has its Open within two seconds, and comes up."""
    server = ControlledServer(program)
    floods = [multiprocessing.Process(target=connect_fast, args=(server.port, place, time.monotonic() + 10)) for place in range(2)]
    [flood.start() for flood in floods]
    time.sleep(1)
    greeted, waits = [], []
    with Timed() as timed:
        for number in range(1, 7):
            begun = time.monotonic()
            router = Router(server, number)
            try:
                router.send(pcep.OPEN + pcep.KEEPALIVE)
                greeted.append(router.hear() == pcep.OPEN and router.hear() == pcep.KEEPALIVE)
            except OSError as fault:
                greeted.append(repr(fault))
            waits.append(time.monotonic() - begun)
            time.sleep(0.2)
    [flood.join() for flood in floods]
    yield greeted, [True] * 6
    yield timed.is_within(2, max(waits)), True
    yield end(server), ENDED


def a_quick_answer(program):
    """What an operator asks of a router is sent at once, and a run of five routers ends soon."""
    server = ControlledServer(program)
    routers = [up(server, number) for number in range(1, 6)]
    router = routers[0]
    yield server.asked(f"initiate {router.address} t1 10.0.0.1 10.0.0.4 500000 7 0")[0][:6], b"asked "
    yield router.hear_of(pcep.PCINITIATE)[:2], bytes([0x20, pcep.PCINITIATE])
    router.send(diamond.report(5, 500000.0, flags=0x99, request=1))
    time_of_request(router, 1)
    begun = paced()
    yield server.asked(f"delete {router.address} 5"), (b"removing 2\n", 0)
    yield router.hear_of(pcep.PCINITIATE)[:2], bytes([0x20, pcep.PCINITIATE])
    yield paced() - begun < 5, True
    router.send(diamond.report(6, 1000.0, flags=0x19))
    time_of_request(router, 2)
    begun = paced()
    yield server.asked(f"return {router.address} 6"), (b"done\n", 0)
    yield router.hear_of(pcep.PCUPD)[:2], bytes([0x20, pcep.PCUPD])
    yield paced() - begun < 5, True
    begun = paced()
    ending = threading.Thread(target=server.asked, args=("end",))
    ending.start()
    yield [each.hear_of(7) for each in routers], [pcep.CLOSE] * 5
    yield paced() - begun < 5, True
    ending.join()
    yield end(server)[1], (0, [])


CASES = [idle_operators, operators_who_trickle, idle_viewers, a_crowd_that_left, a_flood, a_quick_answer]
