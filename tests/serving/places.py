"""Who has one of the places for connections, and who is kept out."""
import re
import resource
import tempfile
import threading
import time

import pcep
from harness.clock import HELD_UP, Timed
from harness.logs import log_of
from harness.router import Router, come_and_go
from harness.server import TE, Server
from pcep import diamond


def a_second_session(program):
    """Beside a session that is up one connection of its address is answered so, and a third is rejected."""
    server = Server(program, "--endless")
    router = Router(server, 1)
    router.come_up()
    router.ask(8)
    second = Router(server, 1)
    yield second.hear(), pcep.OPEN
    third = Router(server, 1)
    yield third.take(1), b""
    second.send(pcep.OPEN + pcep.KEEPALIVE)
    heard = second.hear_of(pcep.PCERR)
    yield heard[:2] == bytes([0x20, pcep.PCERR]) and heard[8:] == bytes([0, 0, 9, 0]), True
    router.send(diamond.request(9))
    yield router.hear()[:2], bytes([0x20, pcep.PCREP])
    yield server.end(), (0, b"")


def a_crowd(program):
    """If all places are taken, the oldest connection that isn't up, of the address that has most, makes room."""
    server = Server(program, "--endless")
    router = Router(server, 1)
    router.come_up()
    router.ask(8)
    single = Router(server, 2)
    held = [Router(server, 3) for _ in range(62)]
    yield [each.hear() for each in [single, *held]], [pcep.OPEN] * 63
    with Timed() as timed:
        other = Router(server, 4)
        yield other.come_up(), True
    yield timed.is_within(HELD_UP), True
    yield held[0].hear_of(7)[:2] in (pcep.CLOSE[:2], b""), True
    held[1].socket.settimeout(0.2)
    single.socket.settimeout(0.2)
    for still in held[1], single:
        try:
            yield still.take(1), None
        except TimeoutError:
            pass
    router.send(diamond.request(9))
    yield router.hear()[:2], bytes([0x20, pcep.PCREP])
    yield server.end(), (0, b"")


def sixty_four_that_come_and_go(program):
    """While 64 threads open and drop connections from one address, other routers have their Open soon."""
    server = Server(program, "--endless")
    is_over = threading.Event()
    threads = [threading.Thread(target=come_and_go, args=(server, 1, is_over)) for _ in range(64)]
    [thread.start() for thread in threads]
    time.sleep(0.5)
    waits = []
    with Timed() as timed:
        for number in range(2, 7):
            begun = time.monotonic()
            router = Router(server, number)
            yield router.hear(), pcep.OPEN
            waits.append(time.monotonic() - begun)
            router.close()
            time.sleep(0.3)
    is_over.set()
    [thread.join() for thread in threads]
    yield timed.is_within(HELD_UP, sorted(waits)[2]), True
    yield server.end(), (0, b"")


def an_address_that_errs(program):
    """Connections of one address that end by an error, but are held open, keep no other router from its Open."""
    server = Server(program, "--endless")
    held = [Router(server, 1) for _ in range(70)]
    for router in held:
        try:
            router.send(bytes(4))
        except OSError:
            pass
    time.sleep(0.1)
    with Timed() as timed:
        other = Router(server, 2)
        yield other.hear(), pcep.OPEN
    yield timed.is_within(HELD_UP), True
    yield server.end(), (0, b"")


def few_descriptors(program):
    """If descriptors run out for some seconds, sessions go on, and who came meanwhile is heard once they are back."""
    for limit, words, said in ((511, ["--endless"], ["LimitNOFILE=511 is low"]), (512, ["--endless"], []), (133, ["--sessions", "1"], ["LimitNOFILE=133 is low"])):
        own = resource.getrlimit(resource.RLIMIT_NOFILE)
        resource.setrlimit(resource.RLIMIT_NOFILE, (limit, own[1]))
        try:
            server = Server(program, *words)
        finally:
            resource.setrlimit(resource.RLIMIT_NOFILE, own)
        server.process.stdin.write(b"end\n")
        yield [text for level, text in log_of(server)[1] if "LimitNOFILE" in text], said
    server = Server(program, "--endless")
    router = Router(server, 1)
    router.come_up()
    limits = resource.prlimit(server.process.pid, resource.RLIMIT_NOFILE)
    resource.prlimit(server.process.pid, resource.RLIMIT_NOFILE, (3, limits[1]))
    # (an accept that waits already has its descriptor)
    yield server.logs(b"accept failed"), True
    other = Router(server, 2)
    time.sleep(6)
    resource.prlimit(server.process.pid, resource.RLIMIT_NOFILE, limits)
    yield other.hear(), pcep.OPEN
    router.send(diamond.request(8))
    yield router.hear()[:2], bytes([0x20, pcep.PCREP])
    yield server.end(), (0, b"")


def silent_addresses(program):
    """Sixteen addresses that hold all places with silent connections keep no other router from its Open."""
    server = Server(program, "--endless")
    held = [Router(server, 100 + number % 16) for number in range(96)]
    [router.hear() for router in held[32:]]
    waits = []
    with Timed() as timed:
        for number in range(1, 9):
            begun = time.monotonic()
            router = Router(server, number)
            yield router.come_up(), True
            waits.append(time.monotonic() - begun)
            held.append(router)
    yield timed.is_within(HELD_UP, sorted(waits)[4]), True
    yield server.end(), (0, b"")


def known_routers(program):
    """With --only-known, an address that no node of the link text owns is rejected, and counted."""
    known = open(TE).read().replace('"10.0.0.1"', '"127.0.1.1"')
    with tempfile.NamedTemporaryFile("w", suffix=".toml") as file:
        file.write(known)
        file.flush()
        server = Server(program, "--sessions", "1", "--only-known", te=file.name)
        for _ in range(20):
            yield Router(server, 2).take(1), b""
        router = Router(server, 1)
        yield router.come_up(), True
        router.close()
        status, said, _ = log_of(server)
    texts = [text for _, text in said]
    yield status, 0
    yield [text for text in texts if text.startswith("ended ")], ["ended 127.0.1.1 why=closed by the peer"]
    strangers = [text for text in texts if text.startswith("unknown router 127.0.1.2 count=")]
    withheld = [int(text.split()[1]) for text in texts if re.fullmatch(r"withheld \d+ lines: unknown router", text)]
    yield len(strangers) + sum(withheld), 20
    yield "unknown router 127.0.1.2 count=1" in strangers, True


CASES = [a_second_session, a_crowd, sixty_four_that_come_and_go, silent_addresses, an_address_that_errs, few_descriptors, known_routers]
