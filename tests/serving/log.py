"""What stands in the log."""
import re
import subprocess
import time

import pcep
from harness.clock import TIMEOUT_S, comes
from harness.exposition import ends_of
from harness.logs import STAMPED, log_of
from harness.process import threads
from harness.router import Router
from harness.server import FREE, TE, Server, ViewedServer, end_with_log
from pcep import diamond


def a_log_that_nobody_reads(program):
    """While nobody reads standard error, connections come and go, no threads are left, and the run ends."""
    server = Server(program, "--endless", "--log", "debug")
    for number in range(3000):
        router = Router(server, 1 + number % 200)
        if number % 2:
            router.send(bytes(4))
        router.close()
    router = Router(server, 250)
    yield router.come_up(), True
    router.send(diamond.request(1))
    yield router.hear_of(pcep.PCREP)[:2], bytes([0x20, pcep.PCREP])
    yield comes(lambda: threads(server.process) < 20), True
    server.process.stdin.close()
    yield server.process.wait(timeout=TIMEOUT_S), 0


def what_the_log_says(program):
    """The log has a line with its time for what an operator needs, and what is refused only if that is asked for."""
    for level in "info", "debug", "warn", "off":
        server = Server(program, "--endless", "--keep", "0", "--log", level)
        router = Router(server, 1)
        router.come_up(sync=False)
        router.send(
            diamond.report(1, 500000.0) + diamond.report(2, 250000.0, links=(9, 9)) + diamond.report(1, 250000.0, lsp_id=2) + diamond.report(3, 1.0) + diamond.removal(3)
            + pcep.END_OF_SYNC + diamond.request(1))
        router.hear_of(pcep.PCREP)
        second = Router(server, 1)
        second.send(pcep.OPEN + pcep.KEEPALIVE)
        second.hear_of(pcep.PCERR)
        second.close()
        router.close()
        yield server.waits_for(FREE), True
        status, said, lines = log_of(server)
        yield status, 0
        yield all(STAMPED.match(line) for line in lines), True
        texts = [re.sub(r"audited steps=[1-9]\d* ", "audited ", text.split(" after=")[0]) for _, text in said]
        wanted = {
            f"listening 127.0.0.1:{server.port} nodes=4 links=4", "up 127.0.1.1 keepalive=30s dead=120s capabilities=stateful,update,initiate",
            "in sync 127.0.1.1 lsps=2", "ended 127.0.1.1 why=second session",
            "asked 127.0.1.1 ticket=1 request=1 by=request", "replied 127.0.1.1 ticket=1 request=1 links=2,3",
            "ended 127.0.1.1 why=closed by the peer", "forgotten 127.0.1.1", "audited grants=0"}
        yield set(texts) - {"refused 2 127.0.1.1"}, wanted if level in ("info", "debug") else set()
        yield "refused 2 127.0.1.1" in texts, level == "debug"
        yield texts[-1:], ["audited grants=0"] if level in ("info", "debug") else []
    server = subprocess.run([program, "serve", "--te", TE, "--listen", "127.0.0.1:1", "--log", "loud"], capture_output=True)
    yield (server.returncode, server.stderr), (2, b"--log loud: none of off, error, warn, info, debug and trace\nbad argument\n")


def why_sessions_end(program):
    """The log says of a session that ended whether the peer closed it, its timer or a bad message did, or the server; and by which PCErr."""
    server = Server(program, "--endless")
    hasty = pcep.opening(1, 2)
    stateless = pcep.opening(capabilities=None)
    ends = [
        (pcep.OPEN, pcep.CLOSE, "closed by the peer"), (pcep.OPEN, bytes(4), "malformed message"), (hasty, b"", "DeadTimer"),
        (pcep.OPEN, pcep.close(3), "closed by the peer: Close 3, malformed message"),
        (b"", b"", "session ended: PCErr 1/1, invalid Open message"),
        (stateless, diamond.report(1, 1.0), "closed for reason 1: PCErr 19/5, state report without the stateful capability"),
        (pcep.OPEN, b"", "closed by the server")]
    routers = []
    for number, (opening, last, _) in enumerate(ends, 1):
        router = Router(server, number)
        router.send(opening + pcep.KEEPALIVE + last)
        routers.append(router)
    for router in routers[:-1]:
        router.hear_all()
    _, said, _ = log_of(server)
    texts = [text for _, text in said]
    yield [text for text in texts if text.startswith("up 127.0.1.3 ")], [
        "up 127.0.1.3 keepalive=1s dead=2s capabilities=stateful,update,initiate"]
    for number, (_, _, why) in enumerate(ends, 1):
        yield f"ended 127.0.1.{number} why={why}" in texts, True


def a_noisy_address(program):
    """Of lines of one kind ten are written in a second, and the rest are counted."""
    server = ViewedServer(program, "--endless")
    other = Router(server, 2)
    yield other.come_up(), True
    other.ask(1)
    begun = time.monotonic()
    for _ in range(300):
        Router(server, 1).close()
    yield comes(lambda: ends_of(server) == 300) or ends_of(server), True
    most = 10 * (time.monotonic() - begun + 2)
    time.sleep(1.5)
    _, _, texts = end_with_log(server)
    ended = [text for text in texts if text.startswith("ended 127.0.1.1 ")]
    withheld = [int(text.split()[1]) for text in texts if re.fullmatch(r"withheld \d+ lines: ended", text)]
    yield len(ended) + sum(withheld), 300
    yield 10 <= len(ended) <= most or len(ended), True


CASES = [a_log_that_nobody_reads, what_the_log_says, why_sessions_end, a_noisy_address]
