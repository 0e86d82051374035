"""Servers: `pced serve` on loopback, with an operator on standard input, at a control socket, and with viewers."""
import json
import os
import select
import shutil
import socket
import subprocess
import tempfile
import threading
import time

from . import cases
from .cases import ROOT
from .clock import TIMEOUT_S, comes
from .logs import texts_in
from .ports import free_port, listens_at
from .viewer import Viewer

TE = f"{ROOT}/examples/diamond.toml"
# what each link can still carry at each priority
Book = list[list[int]]


class Server:
    """A server with an operator on standard input. It is killed after the case that began it."""
    begun: list["Server"] = []

    def __init__(self, program: str, *words: str, stdin=subprocess.PIPE, stdout=subprocess.PIPE, te: str = TE, begin=subprocess.Popen, **how):
        self.program, self.port = program, free_port()
        self.process = begin([program, "serve", "--te", te, "--listen", f"127.0.0.1:{self.port}", *words],
                             stdin=stdin, stdout=stdout, stderr=subprocess.PIPE, bufsize=0, **how)
        Server.begun.append(self)
        if not comes(lambda: listens_at(self.port) or self.process.poll() is not None):
            raise ValueError("the server doesn't listen")

    def tell(self, line: str, answers: int = 1) -> list[str]:
        """The answer to an operator's line."""
        self.process.stdin.write(line.encode() + b"\n")
        return [self.process.stdout.readline().decode().rstrip("\n") for _ in range(answers)]

    def book(self) -> Book:
        """What each link can still carry at each priority."""
        return [[int(word) for word in line.split()[2:]] for line in self.tell("book", 4)]

    def waits_for(self, book: Book, within: float = TIMEOUT_S) -> bool:
        """Whether the book says so within these seconds."""
        return comes(lambda: self.book() == book, within)

    def still_has(self, book: Book, until: float) -> bool:
        """Whether the book says so, unless it is later than this once it has answered."""
        return self.book() == book or time.monotonic() > until

    def has_up(self, router) -> bool:
        """Whether the session of a router is up."""
        return any(peer["peer"] == router.address and peer["is_up"] for peer in json.loads(self.tell("json peers")[0])["peers"])

    def logs(self, text: bytes) -> bool:
        """Whether a line with this text comes soon in the log, which is read up to there."""
        while select.select([self.process.stderr], [], [], TIMEOUT_S)[0]:
            line = self.process.stderr.readline()
            if text in line or not line:
                return text in line
        return False

    def keep_log(self):
        """Has the log read as it comes, so that none of it waits in a full pipe."""
        self.log = bytearray()

        def read():
            while data := os.read(self.process.stderr.fileno(), 65536):
                self.log.extend(data)

        self.reading = threading.Thread(target=read, daemon=True)
        self.reading.start()

    def rest_of_log(self) -> list[str]:
        """The lines of the log up to its end: those that weren't read before."""
        if not hasattr(self, "log"):
            return self.process.stderr.read().decode().splitlines()
        self.reading.join(TIMEOUT_S)
        return self.log.decode().splitlines()

    def end(self) -> tuple:
        """The status, once standard input ends, and what stands on standard output."""
        self.process.stdin.close()
        rest = self.process.stdout.read()
        self.process.stderr.read()
        return self.process.wait(timeout=TIMEOUT_S), rest

    def kill(self):
        self.process.kill()
        self.process.wait()


def kill_all():
    while Server.begun:
        Server.begun.pop().kill()


cases.after_each.append(kill_all)


def book_of(*links: int) -> Book:
    """A book whose links have the same left at each priority."""
    return [[each] * 8 for each in links]


FREE = book_of(1_000_000, 1_000_000, 1_000_000, 1_000_000)
# the same as an operator is answered
BOOK = b"".join(b"link %d" % link + b" 1000000" * 8 + b"\n" for link in range(4))
# what an operator is answered who ends a server, its status, and what is left in its folder
ENDED = ((b"", 0), (0, []))
# the same of a server made by with_text
ENDED_WITH_TEXT = ((b"", 0), (0, ["te"]))


def place_of(path: str) -> int | None:
    """The number under which the file system keeps the file, None if there is none."""
    try:
        return os.lstat(path).st_ino
    except FileNotFoundError:
        return None


def asked(program: str, path: str, *lines: str, words=(), text: bytes | None = None) -> tuple[bytes, int]:
    """What `pced tell` prints, and its status."""
    source = {"stdin": subprocess.DEVNULL} if text is None else {"input": text}
    ran = subprocess.run([program, "tell", *words, path, *lines], capture_output=True, timeout=300, **source)
    return ran.stdout, ran.returncode


def meant(program: str, path: str, *lines: str, words=()) -> tuple[bytes, bytes, int]:
    """What `pced tell` prints, what it says on standard error, and its status."""
    ran = subprocess.run([program, "tell", *words, path, *lines], capture_output=True, timeout=300, stdin=subprocess.DEVNULL)
    return ran.stdout, ran.stderr, ran.returncode


def with_text(text: str) -> dict:
    """How a server is made that reads this link text, in a folder of its own."""
    folder = tempfile.mkdtemp()
    with open(f"{folder}/te", "w") as file:
        file.write(text)
    return {"te": f"{folder}/te", "folder": folder}


class ControlledServer(Server):
    """A server with a control socket in a folder of its own, and nothing on standard input."""

    def __init__(self, program: str, *words: str, folder: str | None = None, stdin=subprocess.DEVNULL, te: str = TE, **how):
        self.folder = folder or tempfile.mkdtemp()
        self.path = f"{self.folder}/pced"
        stale = place_of(self.path)
        super().__init__(program, *(words or ["--endless"]), "--control", self.path, stdin=stdin, stdout=subprocess.DEVNULL, te=te, **how)
        comes(lambda: place_of(self.path) not in (None, stale) or self.process.poll() is not None)

    def asked(self, *lines: str, words=(), text: bytes | None = None) -> tuple[bytes, int]:
        """What `pced tell` prints, and its status."""
        return asked(self.program, self.path, *lines, words=words, text=text)

    def shown(self, line: str) -> list:
        """The documents of JSON that a line is answered by, each on a line of its own."""
        text, status = self.asked(line, words=["--json"])
        if status != 0 or not text.endswith(b"\n"):
            raise ValueError(f"{line}: {text!r}, status {status}")
        return [json.loads(document) for document in text.splitlines()]

    def peers(self) -> dict:
        """What `json peers` says, by address."""
        return {peer["peer"]: peer for document in self.shown("peers") for peer in document["peers"]}

    def status(self) -> dict:
        return self.shown("status")[0]

    def connect(self) -> socket.socket:
        operator = socket.socket(socket.AF_UNIX)
        operator.settimeout(TIMEOUT_S)
        operator.connect(self.path)
        return operator

    def ended(self) -> tuple[int, list[str]]:
        """The status of a server that is to end, and what is left in its folder."""
        self.process.stderr.read()
        status, left = self.process.wait(timeout=TIMEOUT_S), os.listdir(self.folder)
        shutil.rmtree(self.folder)
        return status, left

    def end(self) -> tuple:
        """What it says that is asked to end, its status, and what is left in its folder."""
        said = self.asked("end")
        return said, self.ended()


def status_of(server: Server, within: float) -> int | str:
    """The status of a server that is to end within these seconds."""
    if comes(lambda: server.process.poll() is not None, within):
        return server.process.returncode
    server.kill()
    return "it goes on"


def end(server: ControlledServer, within: float = 20) -> tuple:
    """What a server says that is asked to end by its control socket, in these seconds; its status, and what is left in its folder."""
    said = server.asked("end") if os.path.exists(server.path) else "no socket"
    status = status_of(server, within)
    server.process.stderr.read()
    left = os.listdir(server.folder)
    shutil.rmtree(server.folder)
    return said, (status, left)


def end_with_log(server: ControlledServer) -> tuple:
    """What a server says that is asked to end by its control socket, its status, and the texts of its log."""
    said = server.asked("end")
    status = status_of(server, TIMEOUT_S)
    return said, status, texts_in(server.rest_of_log())


def all_of(operator: socket.socket) -> bytes:
    """All that comes, up to the end, also if that is a reset, because something that was sent is never read."""
    heard = b""
    try:
        while more := operator.recv(65536):
            heard += more
    except ConnectionResetError:
        pass
    return heard


def line_of(operator: socket.socket) -> bytes:
    """The next line that an operator is answered, or what comes of it."""
    heard = b""
    while not heard.endswith(b"\n"):
        more = operator.recv(1)
        if not more:
            break
        heard += more
    return heard


class ViewedServer(ControlledServer):
    """A server with viewers beside its control socket."""

    def __init__(self, program: str, *words: str, te: str = TE, **how):
        self.http = free_port()
        super().__init__(program, *(words or ["--endless"]), "--http", f"127.0.0.1:{self.http}", te=te, **how)

    def view(self, **how) -> Viewer:
        return Viewer(self.http, **how)
