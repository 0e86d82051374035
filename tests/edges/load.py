"""What one router costs the others: memory, time under the lock, tickets."""
import os
import resource
import struct
import threading
import time

import pcep
from harness.clock import Timed, comes, paced
from harness.process import resident
from harness.router import time_of_request, up
from harness.server import ENDED, ControlledServer, end, end_with_log
from pcep import diamond

from .shown import ring

# a route of 16,200 subobjects of four bytes, of a kind that nobody knows
UNKNOWN = pcep.make_object(pcep.ERO, bytes([0x63, 4, 0, 0]) * 16_200)
# what the server's own tables and one copy of them may take beside the history, in bytes
BESIDE = 200_000_000


def a_history_of_16_megabytes(program):
    """Beside a router that reports long routes a server with `--history 16` holds little, and answers another one."""
    server = ControlledServer(program, "--endless", "--history", "16")
    router, other = up(server, 1), up(server, 2)
    report = pcep.message(pcep.PCRPT, diamond.lsp(1, 0x18, 1, 1), UNKNOWN, diamond.ATTRIBUTES, pcep.bandwidth(1000.0))
    most, slowest = 0, 0.0
    router.socket.settimeout(60)
    for turn in range(1, 31):
        router.send(report * 20)
        slowest = max(slowest, time_of_request(other, turn))
        most = max(most, resident(server.process))
    time_of_request(router, 1)
    most = max(most, resident(server.process))
    yield most < 16_000_000 + BESIDE or most, True
    yield slowest < 5 or slowest, True
    yield server.shown("status")[0]["rolled_steps"] > 0, True
    router.send(pcep.CLOSE)
    yield end(server), ENDED


def upkeep_over_a_history_of_16_megabytes(program):
    """Grants that aren't answered end while another router has the history rolled again and again; each such end is a step, and is audited."""
    server = ControlledServer(program, "--endless", "--history", "16", "--answer", "1", "--retry", "0")
    router, other = up(server, 1), up(server, 2)
    report = pcep.message(pcep.PCRPT, diamond.lsp(1, 0x18, 1, 1), UNKNOWN, diamond.ATTRIBUTES, pcep.bandwidth(1000.0))
    other.socket.settimeout(60)
    rolled = [0]
    for turn in range(1, 4):
        yield server.asked(f"initiate {router.address} t{turn} 10.0.0.1 10.0.0.4 1000 7 7")[0][:6], b"asked "
        while rolled[-1] == server.shown("status")[0]["rolled_steps"]:
            other.send(report * 20)
            time_of_request(other, turn)
        rolled.append(server.shown("status")[0]["rolled_steps"])
        # (the grant stands once its ticket has gone)
        yield comes(lambda: not server.shown("tickets")[0]["tickets"] and not server.shown("grants")[0]["grants"]), True
    yield rolled, sorted(set(rolled))
    yield [link["unreserved_bytes_per_second"] for link in server.shown("links")[0]["links"]], [[1_000_000] * 8] * 4
    said, came, texts = end_with_log(server)
    yield (said, came), ((b"", 0), 0)
    yield [text for text in texts if text.startswith("no answer ")], [f"no answer {router.address} srp={turn} lsp=0" for turn in range(1, 4)]
    yield [text for text in texts if text.startswith("memory refused")], []
    yield texts[-1].startswith("audited "), True


def size(process):
    """The addresses that a process has, in bytes."""
    with open(f"/proc/{process.pid}/statm") as file:
        return int(file.read().split()[0]) * os.sysconf("SC_PAGE_SIZE")


def memory_that_is_refused(program):
    """If the system gives no more than another 150 MB, a router with long routes has the history rolled, and another one keeps its session."""
    server = ControlledServer(program, "--endless")
    router, other = up(server, 1), up(server, 2)
    time_of_request(other, 1)
    time_of_request(router, 1)
    most = size(server.process) + 150_000_000
    resource.prlimit(server.process.pid, resource.RLIMIT_AS, (most, most))
    report = pcep.message(pcep.PCRPT, diamond.lsp(1, 0x18, 1, 1), UNKNOWN, diamond.ATTRIBUTES, pcep.bandwidth(1000.0))
    router.socket.settimeout(60)
    for turn in range(2, 32):
        try:
            router.send(report * 20)
        except OSError:
            # (a session that finds no memory for what its router sends ends)
            router = up(server, 1)
        time_of_request(other, turn)
        yield server.asked("status")[1], 0
    yield server.status()["rolled_steps"] > 0, True
    yield server.process.poll(), None
    router.close()
    said, came, texts = end_with_log(server)
    yield (said, came), ((b"", 0), 0)
    yield [text for text in texts if text.startswith(f"ended {other.address}")], [f"ended {other.address} why=closed by the server"]


def wide_paths(program):
    """While 800 LSPs over 1,024 links each are forgotten, another router waits half a second at most."""
    server = ControlledServer(program, "--endless", "--keep", "0", te=ring())
    router, other = up(server, 1), up(server, 2)
    wide = pcep.route(pcep.ERO, [bytes([10, 0, (n + 1) % 1024 // 256, (n + 1) % 256]) for n in range(1024)])
    router.socket.settimeout(100)
    for plsp in range(1, 801):
        router.send(pcep.message(pcep.PCRPT, diamond.lsp(plsp, 0x18, 1, plsp), wide, diamond.ATTRIBUTES, pcep.bandwidth(1000.0)))
    time_of_request(router, 1)
    yield server.peers()[router.address]["lsps"], 800
    slowest, number = 0.0, 0
    router.close()
    begun = time.monotonic()
    with Timed() as timed:
        while time.monotonic() - begun < 4:
            number += 1
            slowest = max(slowest, time_of_request(other, number))
    yield comes(lambda: router.address not in server.peers(), 60), True
    yield timed.is_within(0.5, slowest), True
    yield end(server), ENDED


def across(number):
    """A request for a path of 50 links of the ring."""
    return pcep.message(pcep.PCREQ, pcep.rp(number), pcep.end_points("10.0.0.0", "10.0.0.200"), pcep.bandwidth(1000.0, pcep.MUST))


def is_path(heard):
    """Whether a reply has a path; else a NO-PATH object stands behind its RP."""
    return heard[16:17] != bytes([3])


def a_share_of_tickets(program):
    """Beside a router that asks without pause every request of another one is answered soon, by a path."""
    server = ControlledServer(program, te=ring())
    greedy, other = up(server, 1), up(server, 2)
    is_over = threading.Event()

    def ask():
        greedy.socket.settimeout(5)
        try:
            for turn in range(10_000):
                if is_over.is_set():
                    return
                greedy.send(b"".join(across(number) for number in range(turn * 200, turn * 200 + 200)))
        except OSError:
            pass

    def hear():
        try:
            while greedy.socket.recv(1 << 20):
                pass
        except OSError:
            pass

    acts = [threading.Thread(target=act) for act in (ask, hear)]
    [act.start() for act in acts]
    time.sleep(0.5)
    slowest, found = 0.0, 0
    for number in range(1, 41):
        begun = paced()
        other.send(across(number))
        heard = other.hear_of(pcep.PCREP)
        yield heard[8:16], struct.pack(">II", 0, number)
        slowest, found = max(slowest, paced() - begun), found + is_path(heard)
    yield found, 40
    yield slowest < 5 or slowest, True
    is_over.set()
    greedy.close()
    [act.join() for act in acts]
    yield end(server), ENDED


CASES = [a_history_of_16_megabytes, upkeep_over_a_history_of_16_megabytes, memory_that_is_refused, wide_paths, a_share_of_tickets]
