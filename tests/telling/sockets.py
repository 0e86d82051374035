"""The control socket: its file, and operators who come at once, go, or don't read."""
import os
import re
import shutil
import socket
import stat
import struct
import subprocess
import tempfile
import threading
import time

import pcep
from harness.clock import TIMEOUT_S, paced
from harness.router import Router
from harness.server import BOOK, ENDED, TE, ControlledServer, all_of, asked, line_of, meant
from pcep import diamond


def mode_of(path):
    return stat.filemode(os.lstat(path).st_mode)


def lines_that_are_answered(program):
    """Lines are answered as on standard input, each on a connection of its own, and end what they ask to end."""
    server = ControlledServer(program)
    yield server.asked("book"), (BOOK, 0)
    yield server.asked("update 10.0.0.9 1"), (b"refused 1\n", 1)
    yield server.asked("update 10.0.0.9 1", "book"), (b"refused 1\n" + BOOK, 1)
    yield server.asked("books"), (b"bad line 1\n", 2)
    yield server.asked("books", "book", ""), (b"bad line 1\n" + BOOK + b"bad line 1\n", 2)
    yield server.asked("x" * 5000), (b"bad line 1\n", 2)
    yield server.asked("book\nbook"), (b"", 2)
    yield server.asked(text=b"book\nbooks\nupdate 10.0.0.9 1"), (BOOK + b"bad line 1\nrefused 1\n", 2)
    yield server.asked(text=b""), (b"", 0)
    yield server.end(), ENDED
    yield asked(program, server.path, "book"), (b"", 3)


def a_prompt(program):
    """Each line of standard input is answered before the next one is there."""
    server = ControlledServer(program)
    asks = subprocess.Popen([program, "tell", server.path], stdin=subprocess.PIPE, stdout=subprocess.PIPE, bufsize=0)
    for line, answer in ((b"update 10.0.0.9 1\n", b"refused 1\n"), (b"books\n", b"bad line 1\n"), (b"delete 1 1\n", b"refused 1\n")) * 3:
        asks.stdin.write(line)
        yield line_of_file(asks.stdout), answer
    asks.stdin.write(b"end\n")
    asks.stdin.close()
    yield asks.stdout.read(), b""
    yield asks.wait(timeout=TIMEOUT_S), 2
    yield server.ended(), (0, [])


def line_of_file(file):
    return file.readline()


def an_answer_that_breaks_off(program):
    """If nobody listens, an answer doesn't come, or its last line has no end, the status is 3; else it is by the answer."""
    folder = tempfile.mkdtemp()
    path = f"{folder}/s"
    yield asked(program, path, "book"), (b"", 3)
    listener = socket.socket(socket.AF_UNIX)
    listener.bind(path)
    yield asked(program, path, "book"), (b"", 3)
    listener.listen()
    for answer, status in (
        (b"", 3), (b"link 0 1", 3), (b"link 0 1\n", 0), (b"bad line 1", 3), (b"bad line 1\n", 2), (b"refused 4", 3), (b"refused 4\n", 1), (b"te fault 3\n", 2),
        (b"device fault\n", 3), (b"out of memory\n", 5), (b"history full\n", 5), (b"no such LSP\n", 0),
    ):
        def play():
            operator, _ = listener.accept()
            heard.append(all_of(operator))
            operator.sendall(answer)
            operator.close()

        heard = []
        playing = threading.Thread(target=play)
        playing.start()
        yield asked(program, path, "book"), (answer, status)
        playing.join()
        yield heard, [b"words book\n"]
    for words, sent, answer, said in (
        ([], b"words book\n", b"refused 4\n# refused 4: 127.0.1.1 has no LSP 9\n", (b"refused 4\n", b"refused 4: 127.0.1.1 has no LSP 9\n", 1)),
        (["--quiet"], b"book\n", b"refused 4\n", (b"refused 4\n", b"", 1)),
        (["--json"], b"words book\n", b"book\n# \n", (b"book\n", b"\n", 0)),
        ([], b"words book\n", b"bad line 1\n#bad\n", (b"bad line 1\n#bad\n", b"", 2)),
        ([], b"words book\n", b"a\n# b\n# c\n", (b"a\n# b\n# c\n", b"", 0)),
        ([], b"words book\n", b"refused 4\n# cut", (b"refused 4\n# cut", b"incomplete answer\n", 3)),
    ):
        heard = []
        playing = threading.Thread(target=play)
        playing.start()
        yield meant(program, path, "book", words=words), said
        playing.join()
        yield heard, [sent]
    listener.close()
    yield asked(program, path, "book"), (b"", 3)
    yield asked(program, f"{folder}/{'x' * 200}", "book"), (b"", 3)
    shutil.rmtree(folder)


def its_rights(program):
    """Only its owner may connect to the socket, at each moment that it is there; it is gone once the server has ended."""
    for _ in range(5):
        folder = tempfile.mkdtemp()
        seen, done = set(), []

        def watch():
            while not done:
                for root, folders, files in os.walk(folder):
                    for name in folders + files:
                        try:
                            seen.add((re.sub("[.][0-9a-f]{8}$", ".RANDOM", name), mode_of(f"{root}/{name}")))
                        except FileNotFoundError:
                            pass

        watching = threading.Thread(target=watch)
        watching.start()
        server = ControlledServer(program, folder=folder)
        yield mode_of(server.path), "srw-------"
        yield os.listdir(folder), ["pced"]
        done.append(True)
        watching.join()
        # (below the folder that only its owner may enter the socket has what rights the umask gives)
        yield {(name, mode) for name, mode in seen if (name, mode[0]) != ("s", "s")} - {("pced", "srw-------"), ("pced.RANDOM", "drwx------")}, set()
        yield server.end(), ENDED


def a_stale_file(program):
    """The socket of a killed server is replaced; a folder beside it, which may be anybody's, stays."""
    server = ControlledServer(program)
    server.kill()
    server.process.stderr.read()
    yield mode_of(server.path), "srw-------"
    yield asked(program, server.path, "book"), (b"", 3)
    os.mkdir(f"{server.path}.new")
    socket.socket(socket.AF_UNIX).bind(f"{server.path}.new/s")
    again = ControlledServer(program, folder=server.folder)
    yield again.asked("book"), (BOOK, 0)
    yield sorted(os.listdir(again.folder)), ["pced", "pced.new"]
    yield again.end(), (ENDED[0], (0, ["pced.new"]))


def a_path_that_is_taken(program):
    """A path at which a server listens, or at which there is no socket, isn't taken: the new server ends at once."""
    server = ControlledServer(program)
    words = [program, "serve", "--te", TE, "--listen", "127.0.0.1:0", "--endless", "--control"]

    def tried(path):
        ran = subprocess.run([*words, path], stdin=subprocess.DEVNULL, capture_output=True, timeout=TIMEOUT_S)
        why, fault = ran.stderr.decode().splitlines()[-2:]
        return ran.returncode, ran.stdout, why.startswith(f"cannot make the control socket {path}: "), fault

    refused = (3, b"", True, "device fault")
    yield tried(server.path), refused
    yield server.asked("book"), (BOOK, 0)
    file, folder, link = (f"{server.folder}/{name}" for name in ("file", "folder", "link"))
    with open(file, "w") as some:
        some.write("stays")
    os.mkdir(folder)
    os.symlink(server.path, link)
    yield [tried(path) for path in (file, folder, link)], [refused] * 3
    yield open(file).read(), "stays"
    yield [mode_of(path)[0] for path in (folder, link)], ["d", "l"]
    yield [tried(path) for path in (f"{server.folder}/none/pced", f"{server.folder}/{'x' * 120}", "")], [refused] * 3
    yield sorted(os.listdir(server.folder)), ["file", "folder", "link", "pced"]
    os.remove(file)
    os.rmdir(folder)
    os.remove(link)
    yield server.end(), ENDED


def four_at_once(program):
    """Four operators are heard at once while sessions go on, and a fifth once one has gone, or the longest idle one makes room."""
    server = ControlledServer(program)
    routers = [Router(server, number) for number in (1, 2, 3)]
    yield [router.come_up() for router in routers], [True] * 3
    operators = [server.connect() for _ in range(4)]
    for operator in operators:
        operator.sendall(b"update 10.0.0.9 1\n")
    yield [line_of(operator) for operator in operators], [b"refused 1\n"] * 4
    fifth = server.connect()
    fifth.sendall(b"update 10.0.0.9 2\n")
    operators[1].close()
    yield line_of(fifth), b"refused 1\n"
    time.sleep(1.2)
    for operator in operators[2:]:
        operator.sendall(b"update 10.0.0.9 1\n")
    yield [line_of(operator) for operator in operators[2:]], [b"refused 1\n"] * 2
    sixth = server.connect()
    sixth.sendall(b"update 10.0.0.9 1\n")
    yield line_of(sixth), b"refused 1\n"
    operators[0].settimeout(TIMEOUT_S)
    yield all_of(operators[0]), b""
    sixth.close()
    for operator in [operators[0], *operators[2:], fifth]:
        operator.close()
    wrong, books, is_over = [], [0] * 4, threading.Event()

    def ask(place):
        while not is_over.is_set():
            answer = server.asked("book")
            books[place] += 1
            if answer[1] != 0 or len(answer[0].splitlines()) != 4:
                wrong.append(answer)

    askers = [threading.Thread(target=ask, args=(place,)) for place in range(4)]
    [asker.start() for asker in askers]
    slowest, number, begun = 0.0, 0, paced()
    while (number < 100 or min(books) < 4 or paced() - begun < 3) and paced() - begun < TIMEOUT_S:
        number += 1
        asked = paced()
        routers[number % 3].send(diamond.request(number))
        if routers[number % 3].hear_of(pcep.PCREP)[8:16] != struct.pack(">II", 0, number):
            wrong.append(number)
        slowest = max(slowest, paced() - asked)
    is_over.set()
    [asker.join() for asker in askers]
    yield wrong, []
    yield slowest < 5, True
    yield min(books) >= 4 and number >= 100, True
    yield server.end(), ENDED


def a_teller_that_does_not_read(program):
    """An operator who reads nothing of what it is answered holds nobody up, nor the end of the run."""
    server = ControlledServer(program)
    deaf = [server.connect() for _ in range(2)]
    for operator in deaf:
        operator.settimeout(0.5)
        try:
            for _ in range(1000):
                operator.sendall(b"book\n" * 1000)
        except (TimeoutError, OSError):
            pass
    begun = paced()
    yield server.asked("book"), (BOOK, 0)
    yield paced() - begun < 10, True
    router = Router(server, 1)
    yield router.come_up(), True
    begun = paced()
    yield server.end(), ENDED
    yield paced() - begun < 15, True


def operators_that_go(program):
    """Operators who go at any moment, or send half a line, end no other one, and half a line isn't obeyed."""
    server = ControlledServer(program)
    for number in range(40):
        operator = server.connect()
        operator.sendall((b"", b"boo", b"book\n", b"book\n" * 100)[number % 4])
        if number % 3 == 0:
            operator.shutdown(socket.SHUT_RD)
        operator.close()
    operator = server.connect()
    operator.sendall(b"book\nbook")
    operator.shutdown(socket.SHUT_WR)
    yield all_of(operator), BOOK
    half = server.connect()
    half.sendall(b"update 10.0.0.9 1\nboo")
    yield line_of(half), b"refused 1\n"
    yield server.end(), ENDED
    yield all_of(half), b""


CASES = [
    lines_that_are_answered, a_prompt, an_answer_that_breaks_off, its_rights, a_stale_file, a_path_that_is_taken, four_at_once,
    a_teller_that_does_not_read, operators_that_go,
]
