"""Viewers who stay, hang or don't read."""
import signal
import socket
import threading
import time

import pcep
from harness.clock import TIMEOUT_S, paced
from harness.router import Router
from harness.server import ENDED, ViewedServer
from harness.viewer import IDLE, SOONER
from pcep import diamond

AT_ONCE = 8


def nine_at_once(program):
    """Eight connections live. For a ninth the one that was answered longest ago makes room, after a second; a slow head ends."""
    server = ViewedServer(program)
    begun, begun_paced = time.monotonic(), paced()
    viewers = [server.view() for _ in range(AT_ONCE)]
    for viewer in viewers:
        yield viewer.get("/api/tickets")[0], 200
    ninth = server.view()
    ninth.ask("/api/tickets")
    ninth.socket.settimeout(0.3)
    try:
        came = ninth.answer()
        yield came is not None and time.monotonic() - begun > 0.9, True
        ninth.ask("/api/tickets")
    except TimeoutError:
        pass
    ninth.socket.settimeout(TIMEOUT_S)
    yield ninth.answer()[0], 200
    yield paced() - begun_paced < SOONER, True
    yield viewers[0].has_ended(TIMEOUT_S), True
    if time.monotonic() - begun < SOONER:  # (if the machine is held up for longer, they have ended too)
        yield [viewer.get("/api/tickets")[0] for viewer in viewers[1:]], [200] * 7
    # (one goes of itself: its place is free at once)
    viewers[5].close()
    slow = server.view()
    begun = time.monotonic()

    def drip():
        try:
            for byte in b"GET /api/tickets HTTP/1.1\r\nX: " + b"x" * 200:
                slow.send(bytes([byte]))
                time.sleep(0.2)
        except OSError:
            pass

    dripping = threading.Thread(target=drip)
    dripping.start()
    yield slow.has_ended(TIMEOUT_S), True
    yield time.monotonic() - begun > IDLE - 1, True
    slow.close()
    dripping.join()
    yield [viewer.has_ended(TIMEOUT_S) for viewer in (viewers[1], viewers[7], ninth)], [True] * 3
    yield server.end(), ENDED


def one_who_does_not_read(program):
    """A viewer who takes nothing of a long answer holds up neither the others, nor routers, nor the end."""
    server = ViewedServer(program)
    router = Router(server, 1)
    router.come_up()
    for plsp in range(1, 257):
        router.send(diamond.report(plsp, 1000.0))
    deaf, viewer = server.view(), server.view()
    deaf.socket.setsockopt(socket.SOL_SOCKET, socket.SO_RCVBUF, 4096)
    for _ in range(100):
        deaf.ask("/api/lsps")
    waits = []
    for number in range(20):
        begun = paced()
        yield viewer.get("/api/lsps")[0], 200
        router.send(diamond.request(number + 1))
        yield router.hear_of(pcep.PCREP)[:2], bytes([0x20, pcep.PCREP])
        waits.append(paced() - begun)
    yield max(waits) < SOONER, True
    yield server.end(), ENDED


def the_end_of_a_run(program):
    """A run ends without a wait for connections that are kept, or that ask for more, and each of them ends with it."""
    server = ViewedServer(program)
    viewers = [server.view() for _ in range(AT_ONCE + 1)]
    for viewer in viewers[:4]:
        yield viewer.get("/api/tickets")[0], 200
    viewers[4].send(b"GET / HTTP/1.1\r\nHost")

    def ask():
        try:
            while viewers[0].get("/api/tickets"):
                time.sleep(0.05)
        except OSError:
            pass

    asking = threading.Thread(target=ask)
    asking.start()
    yield server.end(), ENDED
    asking.join()
    yield [viewer.has_ended() for viewer in viewers], [True] * (AT_ONCE + 1)


def a_run_that_counts(program):
    """A run of one session ends after it, though a viewer stays; without `--endless` nobody waits for viewers."""
    server = ViewedServer(program, "--sessions", "1")
    router = Router(server, 1)
    router.come_up()
    router.ask(1)
    viewer = server.view()
    yield viewer.document("/api/status")["sessions_up"], 1
    router.send(pcep.CLOSE)
    router.close()
    yield server.ended(), (0, [])
    yield viewer.has_ended(), True


def a_server_that_is_stopped(program):
    """Viewers are served again once a stopped server goes on."""
    server = ViewedServer(program)
    viewer = server.view()
    yield viewer.get("/api/tickets")[0], 200
    server.process.send_signal(signal.SIGSTOP)
    time.sleep(0.3)
    viewer.ask("/api/tickets")
    server.process.send_signal(signal.SIGCONT)
    yield viewer.answer()[0], 200
    yield server.view().get("/api/tickets")[0], 200
    yield server.end(), ENDED


def beside_routers(program):
    """Eight viewers ask without pause while sixteen routers report: every document is whole, and the books agree at the end."""
    server = ViewedServer(program)
    routers = [Router(server, number) for number in range(1, 17)]
    yield [router.come_up() for router in routers], [True] * 16
    is_over, seen, faults = threading.Event(), [0] * AT_ONCE, []

    def look(place):
        viewer = server.view()
        targets = ("/api/status", "/api/links", "/api/lsps", "/api/peers", "/api/link?number=0", "/api/tickets")
        try:
            while not is_over.is_set():
                viewer.document(targets[(seen[place] + place) % len(targets)])
                seen[place] += 1
        except (OSError, ValueError, TypeError) as fault:
            faults.append(repr(fault))

    looking = [threading.Thread(target=look, args=(place,)) for place in range(AT_ONCE)]
    [thread.start() for thread in looking]
    for plsp in range(1, 65):
        for router in routers:
            router.send(diamond.report(plsp, 100.0))
    # (each turn ends with answers, so that no more is sent than the server takes)
    until, number, answers = paced() + TIMEOUT_S, 0, []
    while number == 0 or min(seen) <= 5 and not faults and paced() < until:
        number += 1
        for router in routers:
            router.send(diamond.report(64, 100.0) + diamond.request(number))
        answers = [router.hear_of(pcep.PCREP)[:2] for router in routers]
    is_over.set()
    [thread.join() for thread in looking]
    yield answers, [bytes([0x20, pcep.PCREP])] * 16
    yield faults, []
    yield all(count > 5 for count in seen), True
    yield server.view().document("/api/links"), server.shown("links")[0]
    yield server.shown("status")[0]["lsps"], 1024
    yield server.end(), ENDED


CASES = [nine_at_once, one_who_does_not_read, the_end_of_a_run, a_run_that_counts, a_server_that_is_stopped, beside_routers]
