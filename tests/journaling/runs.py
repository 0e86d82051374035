"""Journals of servers with routers on loopback, and what `pced replay` says of them."""
import contextlib
import glob
import os
import re
import shutil
import signal
import subprocess
import tempfile

from harness.cases import NotTried
from harness.clock import TIMEOUT_S, comes
from harness.ports import free_port
from harness.router import up
from harness.server import TE, ControlledServer
from pcep import diamond

from .account import verdict
from .drawn import replayed

INITIATE = "initiate 127.0.1.1 t1 10.0.0.1 10.0.0.4 500000 7 0"
PLACE = "place 127.0.1.1 t2 10.0.0.1 10.0.0.4 1000 7 0 metric=hops max-cost=9 max-hops=4 exclude=0x8"


@contextlib.contextmanager
def folder():
    path = tempfile.mkdtemp(prefix="pced-journal-")
    try:
        yield path
    finally:
        shutil.rmtree(path)


def files_in(path: str) -> list[str]:
    return sorted(glob.glob(f"{path}/*.journal"))


def begin(program: str, path: str, *words: str) -> ControlledServer:
    return ControlledServer(program, "--endless", "--journal", path, *words)


def use(server: ControlledServer):
    """A router that asks, reports and goes, and an operator who asks for a path and reloads the link text."""
    router = up(server, 1)
    router.ask(1)
    for plsp in (1, 2, 3):
        router.send(diamond.report(plsp, 1000.0 * plsp))
    router.send(diamond.removal(3))
    router.ask(2, 2_000_000_000.0)
    server.asked("reload", INITIATE, PLACE, "update 127.0.1.1 1", "update 127.0.1.9 1")
    router.ask(3)
    return router


def shown(server: ControlledServer, *lines: str) -> bytes:
    return server.asked(*lines)[0]


def steps_of(server: ControlledServer) -> int:
    return server.status()["steps"]


def has_grant(path: str) -> bool:
    with open(files_in(path)[-1], "rb") as file:
        return b" = granted " in file.read()


def has_step(file: str, step: int) -> bool:
    """Whether the file has the line of this step."""
    with open(file, "rb") as lines:
        return any(line.startswith(b"%d " % step) for line in lines)


def has_all(path: str, count: int) -> bool:
    """Whether the last file, or the one before it, has the line of the last of so many steps."""
    return any(has_step(file, count - 1) for file in files_in(path)[-2:])


LINES = "book", "links", "json links", "json lsps", "json tickets"


def a_run(program):
    """The journal of a run replays as recorded, and shows what the server showed at its end."""
    with folder() as path:
        server = begin(program, path)
        router = use(server)
        router.close()
        yield comes(lambda: not server.peers()["127.0.1.1"]["is_up"]), True
        at_end, count = shown(server, *LINES), steps_of(server)
        yield comes(lambda: has_all(path, count)), True
        yield replayed(program, *files_in(path), "--", *LINES), (0, at_end.decode(), "")
        yield replayed(program, *files_in(path), "--at", str(count - 1), "--", *LINES), (0, at_end.decode(), "")
        yield server.end(), ((b"", 0), (0, []))
        paths = files_in(path)
        yield len(paths), 1
        yield re.fullmatch(r"\d{8}T\d{6}Z\.journal", os.path.basename(paths[0])) is not None, True
        yield replayed(program, *paths), verdict(paths)
        yield replayed(program, *paths)[0], 0


def a_step(program):
    """Up to a step is replayed that step, and no more; a step that isn't there is refused."""
    with folder() as path:
        server = begin(program, path)
        router = up(server, 1)
        for plsp in range(1, 6):
            router.send(diamond.report(plsp, 1000.0))
        router.ask(1)
        router.close()
        server.end()
        paths = files_in(path)
        with open(paths[0]) as file:
            reports = [int(line.split()[0]) for line in file if " report " in line]
        for number, place in enumerate(reports, 1):
            yield replayed(program, *paths, "--at", str(place), "--", "book")[1].split()[2], str(1_000_000 - 1000 * number)
            yield replayed(program, *paths, "--at", str(place))[1].split()[:4], ["steps", "0", "to", str(place)]
        yield replayed(program, *paths, "--at", "1000000"), (2, "", "1000000: no such step\n")
        yield replayed(program, *paths, "--at", "1x")[0], 2
        yield replayed(program, *paths, "--at", "0", "--", "bok"), (2, "", "bok: no line that shows something\n")


def a_difference(program):
    """Between two steps differ the links and the LSP of a report in between."""
    with folder() as path:
        server = begin(program, path)
        router = up(server, 1)
        router.send(diamond.report(1, 1000.0, links=(1,)))
        router.ask(1)
        router.send(diamond.report(2, 1000.0, links=(3,)))
        router.ask(2)
        router.close()
        server.end()
        paths = files_in(path)
        with open(paths[0]) as file:
            first, second = (int(line.split()[0]) for line in file if " report " in line)
        status, out, err = replayed(program, *paths, "--diff", str(first), str(second), "--json")
        yield (status, err), (0, "")
        yield [line[:1] for line in out.splitlines()].count("-"), 2
        yield [line[:1] for line in out.splitlines()].count("+"), 3
        table = replayed(program, *paths, "--diff", str(first), str(second))[1].splitlines()
        yield [line.split()[:2] for line in table], [["-", "2"], ["+", "2"], ["-", "3"], ["+", "3"], ["+", "PEER"], ["+", "127.0.1.1"], ["+", "lsp"]]
        yield replayed(program, *paths, "--diff", str(first), str(first)), (0, "", "")
        yield replayed(program, *paths, "--diff", str(second), str(first))[0], 2


def a_killed_server(program):
    """The journal of a server that was killed replays up to where it ends."""
    with folder() as path:
        server = begin(program, path)
        use(server)
        count = steps_of(server)
        yield comes(lambda: has_all(path, count)), True
        server.process.send_signal(signal.SIGKILL)
        server.process.wait(timeout=TIMEOUT_S)
        paths = files_in(path)
        yield replayed(program, *paths), verdict(paths)
        with open(paths[0], "ab") as file:
            file.write(b"1000")
        with open(paths[0], "rb") as file:
            lines = file.read().count(b"\n")
        status, out, err = replayed(program, *paths)
        yield (status, err), (0, f"{paths[0]}: cut short at line {lines + 1}\n")
        yield (status, out, err), verdict(paths)


def spoiled_lines(lines: list[str]):
    """What may become of the lines of a journal, and with which status it is refused."""
    place = next(number for number, line in enumerate(lines) if " = granted " in line)
    front, line, behind = lines[:place], lines[place], lines[place + 1:]
    yield [*front, line, line, *behind], 2
    yield [*front, *behind], 2
    yield [*front, line.partition(" = ")[0] + " = nopath", *behind], 4
    yield [*front, line + " ", *behind], 2
    yield [*front, "at 2001-01-01T00:00:00Z", line, *behind], 2


def a_spoiled_journal(program):
    """A step that is written twice, left out, moved or answered otherwise is found."""
    with folder() as path:
        server = begin(program, path)
        router = use(server)
        yield comes(lambda: has_grant(path)), True
        router.close()
        server.end()
        with open(files_in(path)[0]) as file:
            lines = file.read().splitlines()
        for number, (spoiled, status) in enumerate(spoiled_lines(lines)):
            other = f"{path}/{number}.spoiled"
            with open(other, "w") as file:
                file.write("".join(line + "\n" for line in spoiled))
            yield replayed(program, other), verdict([other])
            yield replayed(program, other)[0], status


def no_folder(program):
    """Without its folder a server doesn't start, and says so before it hears a router."""
    ran = subprocess.run([program, "serve", "--te", TE, "--listen", f"127.0.0.1:{free_port()}", "--journal", "/nowhere/at/all"],
                         stdin=subprocess.DEVNULL, capture_output=True, text=True, timeout=TIMEOUT_S)
    yield ran.returncode, 3
    yield ran.stderr.splitlines()[-1], "device fault"
    yield "/nowhere/at/all" in ran.stderr, True


def a_full_disk(program):
    """If the disk is full, the journal is gone, and the run goes on."""
    with folder() as path:
        if os.geteuid() != 0 or subprocess.run(["mount", "-t", "tmpfs", "-o", "size=64k", "pced-journal", path], capture_output=True).returncode:
            raise NotTried("a small file system can't be mounted")
        try:
            server = begin(program, path)
            server.keep_log()
            router = up(server, 1)
            for plsp in range(1, 800):
                router.send(diamond.report(plsp, 1.0))
            yield comes(lambda: b"journal gone" in server.log), True
            yield len(router.ask(1)) > 0, True
            router.close()
            server.end()
            # what the file took replays, up to where it ends
            said = replayed(program, *files_in(path))
            yield said, verdict(files_in(path))
            yield said[0], 0
        finally:
            subprocess.run(["umount", "-l", path], capture_output=True, check=False)


CASES = [a_run, a_step, a_difference, a_killed_server, a_spoiled_journal, no_folder, a_full_disk]
