"""Routers, and a running server, for the programs of bench.

This is where bench finds the packages of tests (`pcep`, `harness`): its programs import this module before them.
"""
import multiprocessing
import os
import random
import socket
import subprocess
import sys
import time

ROOT = os.path.dirname(os.path.dirname(os.path.realpath(__file__)))
sys.path.append(f"{ROOT}/tests")
import pcep
from harness.grid import SIDE, report
from pcep import diamond

PORT, ECHO_PORT = 41890, 41891
# a storm of new paths: how many routers report how many LSPs each, and for what, over the network of harness.grid
ROUTERS, LSPS, BANDWIDTH = 16, 64, 1000.0
# delegated, and without a route
PATHLESS = pcep.DELEGATE | pcep.ADMIN
fork = multiprocessing.get_context("fork")


def say(text):
    print(text, file=sys.stderr, flush=True)


def request(number):
    """A path from A to D, for 1,000 bytes a second."""
    return diamond.request(number, 1000.0)


class Router:
    """A router with a loopback address of its own."""

    def __init__(self, number, port=PORT):
        self.socket = socket.socket()
        self.socket.setsockopt(socket.IPPROTO_TCP, socket.TCP_NODELAY, 1)
        self.address = f"127.0.1.{number + 1}"
        self.socket.bind((self.address, 0))
        self.socket.connect(("127.0.0.1", port))
        self.bytes = b""

    def send(self, data):
        self.socket.sendall(data)

    def take(self, count):
        while len(self.bytes) < count:
            more = self.socket.recv(65536)
            if not more:
                raise SystemExit("the server has closed")
            self.bytes += more
        taken, self.bytes = self.bytes[:count], self.bytes[count:]
        return taken

    def hear(self, wanted):
        """The next message of this type. Others are passed over."""
        while True:
            head = self.take(4)
            kind, body = head[1], self.take(int.from_bytes(head[2:], "big") - 4)
            if kind == pcep.PCERR:
                raise SystemExit(f"a PCErr: {body.hex()}")
            if kind == wanted:
                return head + body

    def come_up(self):
        self.send(pcep.OPEN + pcep.KEEPALIVE)
        self.hear(pcep.OPEN_TYPE)
        self.hear(pcep.KEEPALIVE_TYPE)

    def synchronize(self):
        self.send(pcep.END_OF_SYNC)

    def ask(self, number):
        self.send(request(number))
        self.hear(pcep.PCREP)


class Server:
    """`PROGRAM serve` on a network with this number of workers, and with other words; LOG takes its standard error."""

    def __init__(self, program, te=f"{ROOT}/examples/diamond.toml", workers=2, log=subprocess.DEVNULL, more=()):
        words = [program, "serve", "--te", te, "--listen", f"127.0.0.1:{PORT}"]
        self.process = subprocess.Popen(
            words + ["--workers", str(workers), "--endless", *more],
            stdin=subprocess.PIPE, stdout=subprocess.PIPE, stderr=log,
        )
        for _ in range(200):
            try:
                socket.create_connection(("127.0.0.1", PORT)).close()
                return
            except ConnectionRefusedError:
                time.sleep(0.05)
        raise SystemExit("the server doesn't listen")

    def tell(self, line):
        self.process.stdin.write(line.encode() + b"\n")
        self.process.stdin.flush()

    def seconds(self):
        fields = open(f"/proc/{self.process.pid}/stat").read().rsplit(")", 1)[1].split()
        return (int(fields[11]) + int(fields[12])) / os.sysconf("SC_CLK_TCK")

    def memory(self):
        for line in open(f"/proc/{self.process.pid}/status"):
            if line.startswith("VmRSS"):
                return int(line.split()[1])

    def end(self):
        self.process.stdin.close()
        status = self.process.wait(timeout=60)
        if status != 0:
            raise SystemExit(f"the server ended with status {status}")


def at_once(count, prepare, act):
    """Runs act(prepare(n)) in `count` processes that begin together. Gives what each returned, and how long all took."""
    ready, go, queue = fork.Barrier(count + 1), fork.Event(), fork.SimpleQueue()

    def one(number):
        prepared = prepare(number)
        ready.wait()
        go.wait()
        queue.put((act(prepared), time.monotonic()))

    processes = [fork.Process(target=one, args=(number,), daemon=True) for number in range(count)]
    for process in processes:
        process.start()
    ready.wait()
    start = time.monotonic()
    go.set()
    answers = [queue.get() for _ in processes]
    for process in processes:
        process.join()
    return [answer for answer, _ in answers], max(end for _, end in answers) - start


def of(times, share):
    return sorted(times)[min(len(times) - 1, int(len(times) * share))]


def newcomer(number):
    """A router that has come up and sent the end of its synchronization."""
    router = Router(number)
    router.come_up()
    router.synchronize()
    return router


def up_and_in_sync(number):
    """A router whose synchronization the server has heard to the end."""
    router = newcomer(number)
    router.ask(1)
    return router


def waits(exchange, count, pause):
    """The times of `count` exchanges, in milliseconds, with a pause before each."""
    times = []
    for number in range(count):
        time.sleep(pause)
        start = time.perf_counter_ns()
        exchange(number + 2)
        times.append((time.perf_counter_ns() - start) / 1e6)
    return times


def echo():
    listener = socket.create_server(("127.0.0.1", ECHO_PORT))
    stream, _ = listener.accept()
    stream.setsockopt(socket.IPPROTO_TCP, socket.TCP_NODELAY, 1)
    while data := stream.recv(4096):
        stream.sendall(data)


def echoes(count):
    """The times of as many echoes of a path request's bytes by a plain program, in milliseconds."""
    process = fork.Process(target=echo, daemon=True)
    process.start()
    time.sleep(0.3)
    router = Router(0, ECHO_PORT)
    size = len(request(1))

    def exchange(number):
        router.send(request(number))
        router.take(size)

    times = waits(exchange, count, 0.002)
    router.socket.close()
    process.join()
    return times


def replies(program, sessions, count):
    """The times from a path request to its reply, in milliseconds: `count` of one session, or an eighth of that in each of several."""
    server = Server(program)
    each, pause = (count, 0.002) if sessions == 1 else (count // 8, 0.02)
    taken, _ = at_once(sessions, up_and_in_sync, lambda router: waits(router.ask, each, pause))
    server.end()
    return [one for times in taken for one in times]


def new_paths(router, first, count):
    """`count` reports of a router, of LSPs from its own node to others, the same in each run."""
    chance = random.Random(router)
    start = router * SIDE * SIDE // ROUTERS
    ends = chance.sample([node for node in range(SIDE * SIDE) if node != start], first + count)
    return [report(first + n + 1, start, end, BANDWIDTH, PATHLESS) for n, end in enumerate(ends[first:])]
