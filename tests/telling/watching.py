"""`pced tell PATH watch`: what it shows, in a pipe and on a terminal, and how it ends."""
import os
import pty
import re
import select
import signal
import subprocess
import time

import pcep
from harness.cases import ROOT
from harness.clock import TIMEOUT_S, comes
from harness.router import Router
from harness.server import ENDED, ControlledServer, asked
from pcep import diamond

from .read import status_at_rest

BLOCK = b"pced "  # what each block begins with
REDRAWN = b"\x1b[?7l\x1b[H\x1b[J"  # (a row that is wider than the screen isn't broken, up to the end of the block)
WRAPS = b"\x1b[?7h"


def documented():
    """The block in docs/OPERATOR.md: what stands above its decisions, and these, line by line."""
    with open(f"{ROOT}/docs/OPERATOR.md", encoding="utf-8") as file:
        block = file.read().partition("### `watch`")[2].split("```\n")[1]
    above, head, decisions = block.partition("STEP")
    return without_times(above), (head + decisions).splitlines()


class Watching:
    """A run of `pced tell PATH watch`, and what has come of it."""

    def __init__(self, program, path, *words, **how):
        self.process = subprocess.Popen([program, "tell", path, *words], stderr=subprocess.PIPE, **how)
        self.heard = b""

    def hear(self, descriptor, is_enough, within=TIMEOUT_S):
        """Reads what comes until it is enough or has ended; whether it is enough."""
        until = time.monotonic() + within
        while not is_enough(self.heard) and time.monotonic() < until:
            if select.select([descriptor], [], [], 0.2)[0]:
                try:
                    more = os.read(descriptor, 65536)
                except OSError:  # (a terminal that nobody has open any more)
                    more = b""
                if not more:
                    break
                self.heard += more
        return is_enough(self.heard)

    def status(self):
        return self.process.wait(timeout=TIMEOUT_S)


def has_blocks(count):
    return lambda heard: heard.count(BLOCK) >= count


def with_two_routers(program):
    """A server at rest with two routers: one has an LSP that is up, and one for which a grant waits."""
    server = ControlledServer(program)
    routers = Router(server, 1), Router(server, 2)
    for router in routers:
        router.come_up()
    routers[0].send(diamond.report(1, 500000.0) + diamond.report(7, 250000.0, links=(), flags=0x09))
    routers[0].hear_of(pcep.PCUPD)
    status_at_rest(server)
    return server, routers


def without_times(text):
    """The text with AGE for each time, and one space in its tables where times make columns wide."""
    return re.sub(r"\d+ d \d\d:\d\d:\d\d", "AGE", text)


def without_widths(text):
    return [re.sub(r" {2,}", "  ", line) for line in text.splitlines()]


def in_a_pipe(program):
    """A block each second: the fullest links first, routers, the grant that waits, the latest decision first. Enter ends it."""
    server, _routers = with_two_routers(program)
    began = time.monotonic()
    watching = Watching(program, server.path, "watch", "1", stdin=subprocess.PIPE, stdout=subprocess.PIPE)
    yield watching.hear(watching.process.stdout.fileno(), has_blocks(3)), True
    yield time.monotonic() - began >= 2, True
    first, second = watching.heard.split(BLOCK)[1:3]
    text = without_times((BLOCK + first).decode())
    head, decisions = text[:text.index("STEP")], text[text.index("STEP"):].splitlines()
    above, documented_decisions = documented()
    yield [re.sub(r"steps \d+", "steps 14", line) for line in without_widths(head)], without_widths(above)
    yield decisions[-1], ""
    # (which steps the two were differs from run to run)
    steps = [line.split() for line in decisions[:-1]]
    yield [line[1:] for line in steps], [line.split()[1:] for line in documented_decisions]
    yield int(steps[1][0]) > int(steps[2][0]), True
    yield without_times((BLOCK + second).decode()), text
    watching.process.stdin.write(b"\n")
    watching.process.stdin.flush()
    yield watching.status(), 0
    yield watching.process.stderr.read(), b""
    yield server.end(), ENDED


def what_changes(program):
    """A block has what stands when it is made: a router that goes is the first, and its LSPs stay counted."""
    server, routers = with_two_routers(program)
    routers[1].send(pcep.CLOSE)
    routers[1].hear_all()
    yield comes(lambda: not server.peers()["127.0.1.2"]["is_up"]), True
    watching = Watching(program, server.path, "watch 1", stdin=subprocess.DEVNULL, stdout=subprocess.PIPE)
    yield watching.hear(watching.process.stdout.fileno(), has_blocks(1)), True
    lines = [line.split() for line in watching.heard.decode().splitlines()]
    yield [line[:2] for line in lines if line[:1] in (["127.0.1.1"], ["127.0.1.2"])][:2], [["127.0.1.2", "down"], ["127.0.1.1", "up"]]
    # without an input it goes on until the server ends, and that is no fault
    yield watching.hear(watching.process.stdout.fileno(), has_blocks(3)), True
    yield server.end(), ENDED
    yield watching.status(), 0
    yield watching.process.stderr.read(), b""


def on_a_terminal(program):
    """On a terminal each block takes the place of the one before. Enter ends it, and so does Ctrl-C."""
    server, _routers = with_two_routers(program)
    for key, status in ((b"\n", 0), (b"\x04", 0), (b"\x03", -signal.SIGINT)):
        terminal, inner = pty.openpty()
        watching = Watching(program, server.path, "watch", "1", stdin=inner, stdout=inner, preexec_fn=lambda: has_terminal(0))
        os.close(inner)
        yield watching.hear(terminal, has_blocks(2)), True
        yield watching.heard.startswith(REDRAWN + BLOCK), True
        yield watching.heard.count(REDRAWN), watching.heard.count(BLOCK)
        yield watching.heard.split(REDRAWN)[1].count(b"\r\n") <= 23, True
        yield watching.heard.split(REDRAWN)[1].endswith(b"\r\n" + WRAPS), True
        os.write(terminal, key)
        yield watching.status(), status
        os.close(terminal)
    yield server.end(), ENDED


def has_terminal(descriptor):
    """Makes this process the first of a session whose terminal this is."""
    import fcntl
    import termios
    os.setsid()
    fcntl.ioctl(descriptor, termios.TIOCSCTTY, 0)


def words_that_it_takes(program):
    """Seconds are a number from 1 to 3600, and nothing else stands beside; that nobody listens is a fault."""
    server = ControlledServer(program)
    for words in (["watch", "0"], ["watch 0"], ["watch", "x"], ["watch", "3601"], ["watch", "+1"], ["watch 1 2"], ["watch", "1", "status"], ["watch 1", "status"], ["watch", ""]):
        yield (words, *server.asked(*words)), (words, b"", 2)
    yield server.asked("watch", words=["--json"]), (b"", 2)
    # only the first line may be this word
    yield server.asked("book", "watch")[1], 2
    yield server.end(), ENDED
    yield asked(program, server.path, "watch"), (b"", 3)


CASES = [in_a_pipe, what_changes, on_a_terminal, words_that_it_takes]
