"""What is kept and for how long, when paths are granted, and how runs end."""
import os
import struct
import subprocess
import tempfile
import threading
import time

import pcep
from harness.clock import TIMEOUT_S, Timed, comes
from harness.logs import log_of
from harness.process import break_listener
from harness.router import Router
from harness.server import FREE, TE, Server, book_of
from pcep import diamond


def an_endless_run_ends(program):
    """Once the operator's lines end, each session is closed (RFC 5440 section 6.8)."""
    server = Server(program, "--endless")
    router = Router(server, 1)
    router.come_up()
    router.ask(1)
    ended = []
    ending = threading.Thread(target=lambda: ended.append(server.end()))
    ending.start()
    yield router.hear(), pcep.CLOSE
    yield router.take(1), b""
    ending.join()
    yield ended, [(0, b"")]


def a_router_is_forgotten(program):
    """What a router reported is dropped `--keep` seconds after its session ended, and not before."""
    server = Server(program, "--endless", "--keep", "2")
    router = Router(server, 1)
    router.come_up()
    router.send(diamond.report(1, 500000.0))
    booked = book_of(500_000, 500_000, 1_000_000, 1_000_000)
    yield server.waits_for(booked), True
    until = time.monotonic() + 2
    router.close()
    time.sleep(1.5)
    yield server.still_has(booked, until), True
    yield server.waits_for(FREE, 8), True
    yield server.end(), (0, b"")


def a_silent_connection(program):
    """A router is forgotten `--keep` seconds after its last Down, whatever silent connections of its address do meanwhile."""
    server = Server(program, "--endless", "--keep", "2")
    booked = book_of(500_000, 500_000, 1_000_000, 1_000_000)

    def session():
        router = Router(server, 1)
        router.come_up()
        router.send(diamond.report(1, 500000.0))
        heard = server.waits_for(booked)
        return router, heard

    router, heard = session()
    yield heard, True
    router.close()
    yield comes(lambda: not server.has_up(router)), True
    silent = Router(server, 1)
    yield silent.hear(), pcep.OPEN
    router, heard = session()
    yield heard, True
    time.sleep(2)
    until = time.monotonic() + 2
    router.close()
    time.sleep(0.3)
    silent.close()
    time.sleep(0.7)
    yield server.still_has(booked, until), True
    yield server.waits_for(FREE, 8), True
    router, heard = session()
    until = time.monotonic() + 2
    router.close()
    time.sleep(0.3)
    silent = Router(server, 1)
    yield silent.hear(), pcep.OPEN
    time.sleep(0.7)
    yield server.still_has(booked, until), True
    yield server.waits_for(FREE, 8), True
    yield server.end(), (0, b"")


def a_run_that_is_cut(program):
    """If the listener breaks, sessions are closed and the program ends, though its standard input never does."""
    with tempfile.TemporaryDirectory() as folder:
        os.mkfifo(f"{folder}/lines")
        lines = os.open(f"{folder}/lines", os.O_RDWR)
        server = Server(program, "--endless", stdin=lines)
        router = Router(server, 1)
        router.come_up()
        router.ask(1)
        os.write(lines, b"initiate 127.0.1.1 t1 10.0.0.1 10.0.0.4 5")
        break_listener(server)
        yield router.hear(), pcep.CLOSE
        try:
            yield server.process.wait(timeout=TIMEOUT_S), 3
        except subprocess.TimeoutExpired:
            yield "it goes on", 3
            server.kill()
        yield server.process.stdout.read(), b""
        yield server.process.stderr.read().decode().splitlines()[-1], "device fault"
        os.close(lines)


def a_server_that_settles(program):
    """No path is granted before the seconds of --settle have passed, or the routers of --settle-for are in sync."""
    started = time.monotonic()
    server = Server(program, "--endless", "--settle", "2")
    with Timed() as timed:
        router = Router(server, 1)
        router.come_up()
        yield diamond.number_of(router.ask(1)), 1
    yield time.monotonic() - started > 1.9, True
    yield timed.is_within(10), True
    yield server.end(), (0, b"")
    server = Server(program, "--endless", "--settle", "60", "--settle-for", "127.0.1.2", "--settle-for", "127.0.1.3")
    router, others = Router(server, 1), [Router(server, 2), Router(server, 3)]
    router.come_up()
    router.send(diamond.request(1))
    router.socket.settimeout(1)
    for other in others:
        try:
            yield router.hear(), None
        except TimeoutError:
            pass
        other.come_up(sync=False)
        other.send(diamond.report(1, 500000.0) + pcep.END_OF_SYNC)
    router.socket.settimeout(TIMEOUT_S)
    yield router.hear_of(pcep.PCREP)[8:16], struct.pack(">II", 0, 1)
    status, said, _ = log_of(server)
    yield status, 0
    yield [text for _, text in said].count("settled"), 1
    # (a router that went down is waited for again, and granted is not before it is back)
    server = Server(program, "--endless", "--settle", "60", "--settle-for", "127.0.1.2", "--settle-for", "127.0.1.3")
    router, second, third = (Router(server, number) for number in (1, 2, 3))
    router.come_up()
    router.send(diamond.request(1))
    second.come_up()
    second.send(diamond.report(1, 500000.0))
    yield server.waits_for(book_of(500_000, 500_000, 1_000_000, 1_000_000)), True
    second.close()
    yield comes(lambda: not server.has_up(second)), True
    third.come_up()
    router.socket.settimeout(1)
    try:
        yield router.hear(), None
    except TimeoutError:
        pass
    second = Router(server, 2)
    second.come_up()
    router.socket.settimeout(TIMEOUT_S)
    yield router.hear_of(pcep.PCREP)[8:16], struct.pack(">II", 0, 1)
    yield server.end(), (0, b"")
    for words in ("--settle", "3601"), ("--settle-for", "router"):
        run = subprocess.run([program, "serve", "--te", TE, "--listen", "127.0.0.1:1", *words], capture_output=True)
        yield run.returncode, 2


CASES = [a_router_is_forgotten, a_silent_connection, a_server_that_settles, an_endless_run_ends, a_run_that_is_cut]
