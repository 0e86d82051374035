"""What the log holds back, and what it loses."""
import fcntl
import socket
import time

import pcep
from harness.clock import TIMEOUT_S, comes
from harness.exposition import ends_of
from harness.logs import counted
from harness.router import time_of_request, up
from harness.server import ControlledServer, ViewedServer, end_with_log
from pcep import diamond

# the kinds of lines of a session that comes, has a report refused, and goes, on a server that keeps nothing
KINDS = ("up", "in sync", "refused", "ended", "forgotten")
REFUSED = diamond.report(0, 1000.0)


def from_address(server, number):
    """A connection from an address that no other number has."""
    each = socket.socket()
    each.settimeout(TIMEOUT_S)
    each.bind((f"127.1.{number // 250}.{1 + number % 250}", 0))
    each.connect(("127.0.0.1", server.port))
    return each


def come_and_go(server, number):
    """A session of an address of its own, up to its end."""
    with from_address(server, number) as router:
        router.sendall(pcep.OPEN + pcep.KEEPALIVE + REFUSED + pcep.END_OF_SYNC + pcep.CLOSE)
        while router.recv(4096):
            pass


def lost_lines(program):
    """While nobody reads the log, lines that find no room are lost; how many is said once, and then the log goes on."""
    server = ControlledServer(program, "--endless", "--keep", "0", "--log", "debug")
    fcntl.fcntl(server.process.stderr, fcntl.F_SETPIPE_SZ, 4096)
    # (1,024 lines wait at most. Of a kind less than a hundred come in a second, so that none is withheld)
    for number in range(280):
        begun = time.monotonic()
        come_and_go(server, number)
        time.sleep(max(0, 0.02 - (time.monotonic() - begun)))
    server.keep_log()
    for number in range(280, 290):
        come_and_go(server, number)
        time.sleep(0.3)
    yield comes(lambda: server.shown("peers")[0]["peers"] == []), True
    said, status, texts = end_with_log(server)
    yield (said, status), ((b"", 0), 0)
    written, lost = counted(texts, *KINDS)
    yield lost > 0, True
    yield written + lost, 290 * len(KINDS)
    yield texts[-1].startswith("audited "), True


def a_hundred_lines_over_all(program):
    """Of lines of one kind a hundred are written in a second at most, whatever routers they are about."""
    server = ViewedServer(program, "--endless")
    server.keep_log()
    router = up(server, 1)
    time_of_request(router, 1)
    begun = time.monotonic()
    for number in range(600):
        from_address(server, number).close()
    yield comes(lambda: ends_of(server) == 600) or ends_of(server), True
    most = 100 * (time.monotonic() - begun + 2)
    time.sleep(1.5)
    said, status, texts = end_with_log(server)
    yield (said, status), ((b"", 0), 0)
    lines = sum(text.startswith("ended 127.1.") for text in texts)
    yield counted(texts, "ended"), (601, 0)
    yield 100 <= lines <= most or (lines, most), True


CASES = [lost_lines, a_hundred_lines_over_all]
