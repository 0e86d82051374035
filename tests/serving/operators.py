"""Operators on standard input and output."""
import fcntl
import os
import shutil
import struct
import subprocess
import tempfile
import termios
import time

import pcep
from harness.clock import TIMEOUT_S, comes
from harness.logs import log_of
from harness.process import break_listener, ticks
from harness.router import Router
from harness.server import FREE, TE, Server, book_of
from pcep import diamond


def operators_lines(program):
    """Lines are answered in their order, bad ones by their number, also one that is too long."""
    server = Server(program, "--endless")
    yield server.tell(""), ["bad line 1"]
    yield server.tell("books"), ["bad line 2"]
    yield server.tell("update 10.0.0.9 1"), ["refused 1"]
    yield [server.tell(line)[0] for line in ("take", "commit 1 none", "expire 1", "delete 1 1 ")], [
        "bad line 4", "bad line 5", "bad line 6", "bad line 7"]
    yield server.tell("x" * 5000), ["bad line 8"]
    yield server.book(), FREE
    yield server.end(), (0, b"")


def a_full_disk(program):
    """If what an operator is answered can't be written, sessions go on and new ones come up."""
    with open("/dev/full", "wb") as full:
        server = Server(program, "--endless", stdout=full)
    router = Router(server, 1)
    router.come_up()
    server.process.stdin.write(b"book\n")
    time.sleep(0.5)
    router.send(diamond.request(8))
    yield router.hear()[:2], bytes([0x20, pcep.PCREP])
    yield Router(server, 2).come_up(), True
    yield server.process.poll(), None
    server.kill()


def the_line_end(program):
    """The line `end` closes each session and ends the run, with its audit, though standard input goes on."""
    for words in (("--endless",), ("--sessions", "9")):
        server = Server(program, *words)
        router = Router(server, 1)
        router.come_up()
        router.ask(8)
        server.process.stdin.write(b"books\nend\nbook\n")
        yield router.hear(), pcep.CLOSE
        yield router.take(1), b""
        yield server.process.wait(timeout=TIMEOUT_S), 0
        yield server.process.stdout.read(), b"bad line 1\n"
        server.kill()


def a_pipe_that_is_held_open(program):
    """Standard input that is a named pipe, held open by the server itself, gives lines, and the last is `end`."""
    folder = tempfile.mkdtemp()
    os.mkfifo(f"{folder}/lines")
    held = os.open(f"{folder}/lines", os.O_RDWR)
    server = Server(program, "--endless", stdin=held)
    os.close(held)
    for line, answer in (("book", b"link 0 " + b" ".join([b"1000000"] * 8) + b"\n"), ("update 10.0.0.9 1", b"refused 1\n")):
        with open(f"{folder}/lines", "w") as lines:
            lines.write(line + "\n")
        yield server.process.stdout.readline(), answer
        [server.process.stdout.readline() for _ in range(3) if line == "book"]
    with open(f"{folder}/lines", "w") as lines:
        lines.write("end")
    time.sleep(0.5)
    yield server.process.poll(), None
    with open(f"{folder}/lines", "w") as lines:
        lines.write("\n")
    yield server.process.wait(timeout=TIMEOUT_S), 0
    shutil.rmtree(folder)


def a_read_that_would_block(program):
    """Standard input that doesn't block is waited for, and at little cost."""
    reads, writes = os.pipe()
    os.set_blocking(reads, False)
    server = Server(program, "--endless", stdin=reads)
    os.close(reads)
    began, begun = ticks(server.process), time.monotonic()
    time.sleep(1)
    took, seconds = ticks(server.process) - began, time.monotonic() - begun
    yield took < 0.3 * seconds * os.sysconf("SC_CLK_TCK") or (took, seconds), True
    os.write(writes, b"update 10.0.0.9 1\n")
    yield server.process.stdout.readline(), b"refused 1\n"
    os.close(writes)
    yield server.process.wait(timeout=TIMEOUT_S), 0


class LinkText:
    """The link text of the diamond in a file that changes."""

    def __init__(self):
        self.folder = tempfile.mkdtemp()
        self.path = f"{self.folder}/te"
        with open(TE) as file:
            self.first = file.read()
        self.write(self.first)

    def write(self, text):
        with open(self.path, "w") as file:
            file.write(text)

    def drop(self):
        shutil.rmtree(self.folder)


def a_reload(program):
    """The line `reload` sets the values of all links by the file as it then is, or says why it can't, and nothing changes."""
    file = LinkText()
    text, write = file.first, file.write
    server = Server(program, "--endless", te=file.path)
    router = Router(server, 1)
    router.come_up()
    router.send(diamond.report(1, 500000.0))
    yield server.waits_for(book_of(500_000, 500_000, 1_000_000, 1_000_000)), True
    yield server.tell("reload"), ["done"]
    yield server.book(), book_of(500_000, 500_000, 1_000_000, 1_000_000)
    changed = book_of(-100_000, 500_000, 1_000_000, 1_000_000)
    write(text.replace("reservable=1000000", "reservable=400000", 1))
    yield server.book(), book_of(500_000, 500_000, 1_000_000, 1_000_000)
    yield server.tell("reload"), ["done"]
    yield server.book(), changed
    for new, answer in (("[", "te fault 1"), (text.replace("igp=10", "igp=0", 1), "te fault 3"), (text.replace("10.4.0.2", "10.4.0.9"), "te fault 10"), ("", "te fault 10")):
        write(new)
        yield server.tell("reload"), [answer]
        yield server.book(), changed
    os.remove(file.path)
    yield server.tell("reload"), ["device fault"]
    yield server.tell("reload 0 10 10 0 1")[0][:8], "bad line"
    yield server.tell("reload  check")[0][:8], "bad line"
    write(text)
    yield server.tell("reload"), ["done"]
    yield server.book(), book_of(500_000, 500_000, 1_000_000, 1_000_000)
    yield diamond.number_of(router.ask(8)), 8
    yield server.end(), (0, b"")
    file.drop()


def a_reload_that_is_shown_first(program):
    """The line `reload check` says what a reload would change and how many links would be below zero, and makes nothing."""
    file = LinkText()
    text, write = file.first, file.write
    server = Server(program, "--endless", te=file.path)
    router = Router(server, 1)
    router.come_up()
    router.send(diamond.report(1, 500000.0))
    booked = book_of(500_000, 500_000, 1_000_000, 1_000_000)
    yield server.waits_for(booked), True
    yield server.tell("reload check"), ["nothing changes"]
    lines = text.splitlines()
    links = [place for place, line in enumerate(lines) if "reservable" in line]
    lines[links[0]] = lines[links[0]].replace("igp=10", "igp=16777215").replace("reservable=1000000", "reservable=400000")
    lines[links[1]] = lines[links[1]].replace("te=10", "te=1").replace("reservable=1000000", "reservable=500000")
    lines[links[2]] = lines[links[2]].replace("colour=0", "colour=4294967295")
    lines[links[3]] = lines[links[3]].replace("reservable=1000000", "reservable=1000001")
    write("\n".join(lines))
    changes = [
        "link 0 igp 10 16777215 reservable 1000000 400000", "link 1 te 10 1 reservable 1000000 500000",
        "link 2 colour 0 4294967295", "link 3 reservable 1000000 1000001", "below zero 1"]
    yield server.tell("reload check", 5), changes
    yield server.tell("reload check", 5), changes
    yield server.book(), booked
    for new, answer in (("[", "te fault 1"), (text.replace("10.4.0.2", "10.4.0.9"), "te fault 10")):
        write(new)
        yield server.tell("reload check"), [answer]
    os.remove(file.path)
    yield server.tell("reload check"), ["device fault"]
    write("\n".join(lines))
    yield server.tell("reload"), ["done"]
    yield server.book(), book_of(-100_000, 0, 1_000_000, 1_000_001)
    yield server.tell("reload check"), ["nothing changes"]
    write(text)
    yield server.tell("reload check", 5)[4], "below zero 0"
    yield server.tell("reload"), ["done"]
    yield server.tell("reload"), ["done"]
    _, said, _ = log_of(server)
    yield [line for line in said if "below" in line[1]], [
        ("WARN", "below zero link=0 local=10.1.0.1 remote=10.1.0.2 worst=-100000"), ("INFO", "reload links=4 below=1"),
        ("INFO", "reload links=4 below=0"), ("INFO", "reload links=4 below=0")]
    file.drop()


def unread(pipe):
    """The number of bytes that wait in a pipe."""
    return struct.unpack("i", fcntl.ioctl(pipe, termios.FIONREAD, bytes(4)))[0]


def an_operator_that_reads_nothing(program):
    """While nobody reads what the operator is answered, routers go on; and a run that is cut ends."""
    server = Server(program, "--endless")
    router = Router(server, 1)
    router.come_up()
    server.process.stdin.write(b"book\n" * 2000)
    yield comes(lambda: unread(server.process.stdout) > 32768), True
    yield diamond.number_of(router.ask(8)), 8
    break_listener(server)
    yield router.hear_of(7), pcep.CLOSE
    try:
        yield server.process.wait(timeout=TIMEOUT_S), 3
    except subprocess.TimeoutExpired:
        yield "it goes on", 3
    answered = server.process.stdout.read()
    yield len(answered) > 32768 and answered[:40], b"link 0 1000000 1000000 1000000 1000000 1"
    yield server.process.stderr.read().decode().splitlines()[-1], "device fault"
    server.kill()


CASES = [
    operators_lines, a_full_disk, the_line_end, a_pipe_that_is_held_open, a_read_that_would_block, a_reload, a_reload_that_is_shown_first,
    an_operator_that_reads_nothing,
]
