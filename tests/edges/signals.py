"""Signals, by the shell program that `tools/install` puts into PATH."""
import os
import pty
import shutil
import signal
import subprocess
import tempfile
import time

import pcep
from harness.cases import ROOT
from harness.clock import TIMEOUT_S, comes
from harness.ports import free_port, listens_at
from harness.router import time_of_request, up
from harness.server import BOOK, TE, Server, asked

WRAPPER = f"{ROOT}/tools/pced.sh"


class Wrapped:
    """A server behind the shell program."""

    def __init__(self, program, *words, te=TE, shell="/bin/sh", **how):
        self.port = free_port()
        self.room = tempfile.mkdtemp()
        environment = {**os.environ, "PCED_PROGRAM": program, "TMPDIR": self.room}
        self.process = subprocess.Popen(
            [shell, WRAPPER, "serve", "--te", te, "--listen", f"127.0.0.1:{self.port}", "--endless", *words],
            env=environment, stdin=subprocess.DEVNULL, stdout=subprocess.DEVNULL, stderr=subprocess.PIPE, bufsize=0, **how)
        Server.begun.append(self)

    logs = Server.logs

    def is_up(self):
        """Whether it listens for routers soon."""
        return comes(lambda: listens_at(self.port) or self.process.poll() is not None)

    def ended(self):
        """The status, the last line of the log without its time and numbers, and what is left in its folder."""
        if not comes(lambda: self.process.poll() is not None):
            self.kill()
        lines = self.process.stderr.read().decode().splitlines()
        left = os.listdir(self.room)
        shutil.rmtree(self.room)
        return self.process.returncode, lines[-1].split("] ")[-1].split()[0] if lines else "", left

    def kill(self):
        self.process.kill()
        self.process.wait()


IN_ORDER = (0, "audited", [])


def signals_that_end(program):
    """TERM and INT, at any moment, end the run in order: each router gets its Close, the audit is logged, the status is 0."""
    for number, words in ((signal.SIGTERM, []), (signal.SIGINT, []), (signal.SIGTERM, ["--control"])):
        folder = tempfile.mkdtemp()
        server = Wrapped(program, *[each for word in words for each in (word, f"{folder}/pced")])
        yield server.is_up(), True
        routers = [up(server, place) for place in (1, 2, 3)]
        time_of_request(routers[0], 1)
        server.process.send_signal(number)
        yield [router.hear_of(7) for router in routers], [pcep.CLOSE] * 3
        yield server.ended(), IN_ORDER
        yield os.listdir(folder), []
        shutil.rmtree(folder)
    for wait in (0.1, 0.2):
        server = Wrapped(program)
        comes(lambda: os.listdir(server.room), 5)
        time.sleep(wait - 0.1)
        server.process.terminate()
        yield server.ended(), IN_ORDER


def a_signal_to_all(program):
    """A signal to the whole group, as of Ctrl-C or systemd, ends the run in order; so does one to a server in a terminal."""
    server = Wrapped(program, start_new_session=True)
    yield server.is_up(), True
    router = up(server, 1)
    time_of_request(router, 1)
    os.killpg(server.process.pid, signal.SIGINT)
    yield router.hear_of(7), pcep.CLOSE
    yield server.ended(), IN_ORDER
    port, room = free_port(), tempfile.mkdtemp()
    child, terminal = pty.fork()
    if child == 0:
        os.environ.update(PCED_PROGRAM=program, TMPDIR=room)
        os.execv("/bin/sh", ["sh", WRAPPER, "serve", "--te", TE, "--listen", f"127.0.0.1:{port}", "--endless"])
    said = []

    def status():
        try:
            said.append(os.read(terminal, 65536))
        except OSError:
            pass
        return b"listening" in b"".join(said)

    yield comes(status), True
    os.write(terminal, b"\x03")
    begun = time.monotonic()
    while time.monotonic() - begun < TIMEOUT_S:
        try:
            said.append(os.read(terminal, 65536))
        except OSError:
            break
    yield b"audited" in b"".join(said), True
    yield os.waitstatus_to_exitcode(os.waitpid(child, 0)[1]), 0
    yield os.listdir(room), []
    os.close(terminal)
    shutil.rmtree(room)


def a_signal_that_reloads(program):
    """HUP reads the link text again and the run goes on; what is wrong with it is said."""
    folder = tempfile.mkdtemp()
    te = f"{folder}/te"
    shutil.copy(TE, te)
    server = Wrapped(program, "--control", f"{folder}/pced", te=te)
    yield server.is_up(), True
    router = up(server, 1)
    text = open(TE).read()
    with open(te, "w") as file:
        file.write(text.replace("reservable=1000000", "reservable=500000"))
    server.process.send_signal(signal.SIGHUP)
    yield comes(lambda: asked(program, f"{folder}/pced", "book")[0] == BOOK.replace(b"1000000", b"500000"), 10), True
    with open(te, "w") as file:
        file.write("[")
    server.process.send_signal(signal.SIGHUP)
    yield server.logs(b"pced: reload: te fault 1\n"), True
    time_of_request(router, 1)
    server.process.terminate()
    yield server.process.wait(timeout=TIMEOUT_S), 0
    shutil.rmtree(folder)


def statuses_behind_the_shell(program):
    """The status and the words of the program come through, of `serve` and of every other command."""
    environment = {**os.environ, "PCED_PROGRAM": program}

    def ran(*words, **how):
        run = subprocess.run(["/bin/sh", WRAPPER, *words], env=environment, capture_output=True, timeout=TIMEOUT_S, **how)
        return run.returncode, run.stdout, run.stderr.splitlines()[-1:]

    yield ran("check", TE)[0], 0
    yield ran("check", "/nowhere")[0], 3
    yield ran("script", input=b"---\nbooks\n")[::2], (2, [b"bad line 2"])
    yield ran("serve", "--te", "/nowhere", "--listen", "127.0.0.1:0", stdin=subprocess.DEVNULL)[::2], (3, [b"device fault"])
    yield ran("serve", "--te", TE, "--listen", "nowhere", stdin=subprocess.DEVNULL)[::2], (2, [b"bad argument"])
    yield ran("serve", "--te", TE, "--listen", "127.0.0.1:0", "--sessions", "1", input=b"book\nend\n")[:2], (0, BOOK)
    yield subprocess.run(["/bin/sh", "-n", WRAPPER]).returncode, 0


CASES = [signals_that_end, a_signal_to_all, a_signal_that_reloads, statuses_behind_the_shell]
