"""A server in a process of its own with simulated routers on loopback, for examples/demo and examples/sprint; and where what the
examples run stands, in the repository or where a release put it."""
import contextlib
import json
import os
import re
import shutil
import signal
import socket
import subprocess
import sys
import tempfile
import threading
import time

import router

ROOT = os.path.dirname(os.path.dirname(os.path.realpath(__file__)))
PREFIX = os.path.dirname(os.path.dirname(os.path.dirname(ROOT)))  # of an installation, which has its documents in share/doc/pced
SOON = 60  # seconds


class Fault(Exception):
    """Why an example ends early, in words."""


def program():
    """The program that an example runs: ./pced, the installed one beside the documents, or the one in PATH."""
    return next((path for path in (f"{ROOT}/pced", f"{PREFIX}/bin/pced") if os.path.isfile(path)), "pced")


def peer(number):
    """The address that the router at a node connects from."""
    return f"127.0.1.{number}"


def port_for_viewers(wanted):
    """This port, or a free one if it is taken."""
    for port in (wanted, 0):
        with socket.socket() as probe, contextlib.suppress(OSError):
            probe.setsockopt(socket.SOL_SOCKET, socket.SO_REUSEADDR, 1)
            probe.bind(("127.0.0.1", port))
            return probe.getsockname()[1]
    raise Fault("no port is free for the page")


class Server:
    """A server of a network, with a folder for its control socket."""

    def __init__(self, program, network, http):
        self.program, self.folder, self.log = program, tempfile.mkdtemp(prefix="pced-demo-"), []
        self.control, self.port = f"{self.folder}/control", None
        words = [program, "serve", "--te", network, "--listen", "127.0.0.1:0", "--endless", "--control", self.control]
        try:
            self.process = subprocess.Popen([*words, "--http", f"127.0.0.1:{http}"], stdin=subprocess.DEVNULL, stderr=subprocess.PIPE,
                                            text=True, start_new_session=True)
        except OSError as error:
            os.rmdir(self.folder)
            raise Fault(f"cannot run {program}: {error.strerror}") from error
        self.reader = threading.Thread(target=self.read)
        self.reader.start()

    def read(self):
        """Takes the lines of its log; those of the launcher go on."""
        for line in self.process.stderr:
            self.log.append(line.strip())
            if line.startswith("pced: "):
                print(line, end="", file=sys.stderr, flush=True)
            listening = re.search(r" listening [0-9.]+:(\d+)", line)
            if listening:
                self.port = int(listening[1])

    def wait_until_it_listens(self):
        while self.port is None or not os.path.exists(self.control):
            if self.process.poll() is not None:
                self.reader.join()
                raise Fault(f"the server didn't start: {self.log[-1] if self.log else 'it said nothing'}")
            time.sleep(0.05)

    def tell(self, *words, lines=None):
        """What it answers to an operator's line, or to these lines."""
        done = subprocess.run([self.program, "tell", self.control, *words], input=lines or "",
                              capture_output=True, text=True, env=os.environ | {"PCED_QUIET": "1"}, start_new_session=True)
        if done.returncode:
            raise Fault(f"`tell {' '.join(words)}` failed: {(done.stderr or done.stdout).strip()}")
        return done.stdout

    def shown(self, line):
        """What it shows, as JSON."""
        return json.loads(self.tell("--json", line))

    def lsps(self):
        """The LSPs that stand, by name."""
        return {lsp["name"]: lsp for lsp in self.shown("lsps")["lsps"]}

    def has_routers(self, count):
        """Whether as many routers are up and have reported all of their LSPs: only then may they be asked for more."""
        return sum(peer["is_up"] and not peer["is_synchronizing"] for peer in self.shown("peers")["peers"]) == count

    def start_routers(self, count):
        for number in range(1, count + 1):
            threading.Thread(target=run_router, args=(number, self.port), daemon=True).start()
        wait_until("routers don't come up", lambda: self.has_routers(count))

    def end(self):
        with contextlib.suppress(Fault):
            if self.port is not None and self.process.poll() is None:
                self.tell("end")
        if self.port is None:
            self.process.terminate()
        try:
            self.process.wait(SOON)
        except subprocess.TimeoutExpired:
            self.process.kill()
        self.reader.join()
        shutil.rmtree(self.folder, ignore_errors=True)


def run_router(number, port):
    with contextlib.suppress(OSError, SystemExit):  # the server goes first
        router.Router(peer(number), ("127.0.0.1", port), say=lambda *_: None).run()


def wait_until(what, is_so):
    until = time.monotonic() + SOON
    while not is_so():
        if time.monotonic() > until:
            raise Fault(f"{what}, {SOON} seconds long")
        time.sleep(0.1)


def interrupt(number, _):
    raise KeyboardInterrupt


def show_until_the_end(program, network, http, run):
    """Runs an example with a server of this network, until it is interrupted."""
    for number in (signal.SIGTERM, signal.SIGHUP):
        signal.signal(number, interrupt)
    server = None
    try:
        port = port_for_viewers(http)
        server = Server(program, network, port)
        run(server, port)
    except KeyboardInterrupt:
        print(file=sys.stderr)
    except (Fault, OSError) as fault:
        sys.exit(f"{os.path.basename(sys.argv[0])}: {fault}")
    finally:
        signal.signal(signal.SIGINT, signal.SIG_IGN)  # the end takes a moment
        if server:
            server.end()
    print("The demo has ended.", flush=True)


def wait_for_the_end():
    print("\nType `end`, or press Ctrl-C, to end the demo.", flush=True)
    for line in sys.stdin:
        if line.strip() == "end":
            break
