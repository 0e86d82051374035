"""Files and devices that a server is given, or finds: what it reads, what it leaves alone, and what it says when it can't start."""
import os
import resource
import shutil
import socket
import subprocess
import tempfile

from harness.clock import TIMEOUT_S, comes, paced
from harness.logs import STAMPED
from harness.process import resident
from harness.server import BOOK, ENDED, TE, ControlledServer, all_of, asked, end


def started(program, *words, te=TE, **how):
    """Status and standard error of a server that ends by itself."""
    ran = subprocess.run([program, "serve", "--te", te, "--listen", "127.0.0.1:0", "--endless", *words], stdin=subprocess.DEVNULL,
                         capture_output=True, timeout=TIMEOUT_S, **how)
    return ran.returncode, ran.stderr.decode()


def others_files(program):
    """What stands beside the control socket's path stays, also through a link, and so does what stands at the path."""
    folder = tempfile.mkdtemp()
    os.makedirs(f"{folder}/theirs")
    os.makedirs(f"{folder}/pced.new")
    for name in ("theirs/s", "pced.new/s", "pced.lock"):
        with open(f"{folder}/{name}", "w") as file:
            file.write(name)
    os.makedirs(f"{folder}/other")
    os.symlink(f"{folder}/theirs", f"{folder}/other/pced.new")
    before = sorted(os.listdir(folder))
    server = ControlledServer(program, folder=folder)
    yield server.asked("book"), (BOOK, 0)
    yield server.asked("end"), (b"", 0)
    yield server.process.wait(timeout=TIMEOUT_S), 0
    yield sorted(os.listdir(folder)), before
    server = ControlledServer(program, folder=f"{folder}/other")
    yield server.asked("book"), (BOOK, 0)
    yield server.asked("end"), (b"", 0)
    yield server.process.wait(timeout=TIMEOUT_S), 0
    yield [os.path.exists(f"{folder}/{name}") for name in ("theirs/s", "pced.new/s", "pced.lock", "other/pced.new")], [True] * 4
    shutil.rmtree(folder)


def two_on_one_path(program):
    """Of six servers that come to one path at once one has it, and the others end; so it is where a killed server left its socket."""
    for turn in range(24):
        folder = tempfile.mkdtemp()
        if turn % 2:
            with socket.socket(socket.AF_UNIX) as dead:
                dead.bind(f"{folder}/pced")
        words = [program, "serve", "--te", TE, "--listen", "127.0.0.1:0", "--endless", "--control", f"{folder}/pced"]
        servers = [subprocess.Popen(words, stdin=subprocess.DEVNULL, stdout=subprocess.DEVNULL, stderr=subprocess.DEVNULL) for _ in range(6)]
        comes(lambda: sum(each.poll() is None for each in servers) <= 1)
        alive = [each for each in servers if each.poll() is None]
        yield len(alive), 1
        yield asked(program, f"{folder}/pced", "end"), (b"", 0)
        yield comes(lambda: all(each.poll() is not None for each in servers)), True
        yield sorted(each.wait() for each in servers if each.poll() is not None), [0, 3, 3, 3, 3, 3]
        yield os.listdir(folder), []
        for each in servers:
            each.kill()
            each.wait()
        shutil.rmtree(folder)


def anothers_socket(program):
    """A server whose socket was replaced by another server's leaves that where it is when it ends."""
    folder = tempfile.mkdtemp()
    first = ControlledServer(program, folder=folder, stdin=subprocess.PIPE)
    os.remove(first.path)
    second = ControlledServer(program, folder=folder)
    first.process.stdin.write(b"end\n")
    yield first.process.wait(timeout=TIMEOUT_S), 0
    yield os.path.exists(second.path), True
    yield second.asked("book"), (BOOK, 0)
    yield end(second), ENDED


def a_reload_of_a_pipe(program):
    """`reload` of a named pipe, a folder, a device or a file above 16 MB is refused at once, and the run can be ended."""
    folder = tempfile.mkdtemp()
    te = f"{folder}/te"
    shutil.copy(TE, te)
    server = ControlledServer(program, te=te)
    for make in (lambda: os.mkfifo(te), lambda: os.mkdir(te), lambda: os.symlink("/dev/zero", te), lambda: large_file(te)):
        (os.rmdir if os.path.isdir(te) else os.remove)(te)
        make()
        for line in ("reload", "reload check"):
            operator = server.connect()
            begun = paced()
            operator.sendall(line.encode() + b"\n")
            operator.shutdown(socket.SHUT_WR)
            try:
                yield all_of(operator)[:12], b"device fault"
            except TimeoutError as fault:
                yield repr(fault), b"device fault"
            operator.close()
            yield paced() - begun < 5, True
    yield resident(server.process) < 100e6, True
    begun = paced()
    yield server.asked("end"), (b"", 0)
    yield paced() - begun < 10, True
    yield end(server)[1], (0, [])
    shutil.rmtree(folder)


def large_file(path):
    """17 MB of comments behind a link text."""
    shutil.copy(TE, path)
    with open(path, "a") as file:
        file.write(("#" + "x" * 1022 + "\n") * 17_000)


def a_link_text_that_is_no_file(program):
    """`serve` refuses a link text that is a named pipe or a device at once."""
    yield from statuses_of_no_file(program, lambda te: ["serve", "--te", te, "--listen", "127.0.0.1:0"])


def a_check_of_no_file(program):
    """`check` refuses a link text that is a named pipe or a device at once, and one of more than 16 MB; it says why."""
    yield from statuses_of_no_file(program, lambda te: ["check", te])
    with tempfile.NamedTemporaryFile("w", suffix=".toml") as file:
        file.write("#" * 16_000_000)
        file.flush()
        for text, status, said in (
            ("", 0, b""), ("#", 3, f"cannot read {file.name}: larger than 16 MB\ndevice fault\n".encode()),
        ):
            file.write(text)
            file.flush()
            ran = subprocess.run([program, "check", file.name], stdin=subprocess.DEVNULL, capture_output=True, timeout=300)
            yield ran.returncode, ran.stderr, status, said
    ran = subprocess.run([program, "check", "/dev/zero"], stdin=subprocess.DEVNULL, capture_output=True, timeout=TIMEOUT_S)
    yield ran.stdout, ran.stderr, b"", b"cannot read /dev/zero: not a regular file\ndevice fault\n"


def statuses_of_no_file(program, words):
    """What a command ends by that is given a named pipe, or a device that never ends, and what is wanted."""
    folder = tempfile.mkdtemp()
    os.mkfifo(f"{folder}/te")
    for te in (f"{folder}/te", "/dev/zero"):
        try:
            ran = subprocess.run([program, *words(te)], stdin=subprocess.DEVNULL, capture_output=True, timeout=TIMEOUT_S,
                                 preexec_fn=lambda: resource.setrlimit(resource.RLIMIT_AS, (2 << 30, 2 << 30)))
            yield te, ran.returncode, te, 3
        except subprocess.TimeoutExpired:
            yield te, "it waits", te, 3
    shutil.rmtree(folder)


def why_it_cannot_start(program):
    """A start that fails says what failed, on what, and why in the system's words, before its last line."""
    folder = tempfile.mkdtemp()
    taken = socket.create_server(("127.0.0.1", 0))
    port = taken.getsockname()[1]
    with open(f"{folder}/file", "w") as file:
        file.write("stays")
    with open(f"{folder}/bad.toml", "w") as file:
        file.write(open(TE).read().replace("10.1.0.1", "10.1.0.300"))
    live = ControlledServer(program, folder=folder)
    cases = [
        (["--te", f"{folder}/none.toml"], 3, "device fault", [f"{folder}/none.toml", "No such file or directory"]),
        (["--te", folder], 3, "device fault", [folder]),
        (["--te", TE, "--listen", f"127.0.0.1:{port}"], 3, "device fault", [f"127.0.0.1:{port}", "in use"]),
        (["--te", TE, "--listen", "192.0.2.1:4189"], 3, "device fault", ["192.0.2.1:4189", "assign requested address"]),
        (["--te", TE, "--http", f"127.0.0.1:{port}"], 3, "device fault", [f"127.0.0.1:{port}", "in use"]),
        (["--te", TE, "--control", f"{folder}/none/pced"], 3, "device fault", [f"{folder}/none/pced", "No such file or directory"]),
        (["--te", TE, "--control", f"{folder}/file"], 3, "device fault", [f"{folder}/file", "socket"]),
        (["--te", TE, "--control", live.path], 3, "device fault", [live.path]),
        (["--te", TE, "--control", f"{folder}/{'x' * 120}"], 3, "device fault", ["x" * 120]),
        (["--te", f"{folder}/bad.toml"], 2, "te fault 3", ["10.1.0.300"]),
        (["--te", TE, "--listen", "nowhere"], 2, "bad argument", ["nowhere"]),
        (["--te", TE, "--http", "nowhere"], 2, "bad argument", ["nowhere"]),
        (["--te", TE, "--http-name", "pced.example"], 2, "bad argument", ["--http-name", "--http ADDR:PORT"]),
        (["--te", TE, "--http", "127.0.0.1:0", "--http-name", "pced.example:8080"], 2, "bad argument", ["pced.example:8080"]),
        (["--te", TE, "--http", "127.0.0.1:0", "--http-name", ""], 2, "bad argument", ["--http-name"]),
        (["--te", TE, "--settle", "60", "--settle-for", "router"], 2, "bad argument", ["router"]),
        (["--te", TE, "--log", "loud"], 2, "bad argument", ["loud"]),
    ]
    for words, status, last, parts in cases:
        more = [] if "--listen" in words else ["--listen", "127.0.0.1:0"]
        ran = subprocess.run([program, "serve", "--endless", *words, *more], stdin=subprocess.DEVNULL, capture_output=True, timeout=TIMEOUT_S)
        lines = ran.stderr.decode().splitlines()
        before = [line for line in lines[:-1] if all(part in line for part in parts)]
        yield words, ran.returncode, lines[-1:], len(before) > 0 or lines, words, status, [last], True
    yield open(f"{folder}/file").read(), "stays"
    os.remove(f"{folder}/file")
    os.remove(f"{folder}/bad.toml")
    yield end(live), ENDED


def a_settle_that_waits_for_nothing(program):
    """`--settle-for` without `--settle` is a bad argument."""
    yield started(program, "--settle-for", "127.0.0.1")[0], 2


def many_links(program):
    """`reload` gives each of 300 links its values, and `reload check` names each that changes."""
    folder = tempfile.mkdtemp()

    def write(reservable):
        nodes = "".join(f'[[node]]\nname="n{n}"\nid="10.0.{n // 250}.{1 + n % 250}"\n' for n in range(301))
        links = "".join(f'[[link]]\nfrom="n{n}"\nto="n{n + 1}"\nlocal="11.0.{n // 250}.{1 + n % 250}"\nremote="12.0.{n // 250}.{1 + n % 250}"\n'
                        f"igp=10\nte=10\ncolour=0\nreservable={reservable}\n" for n in range(300))
        with open(f"{folder}/te", "w") as file:
            file.write(nodes + links)

    write(1000)
    server = ControlledServer(program, te=f"{folder}/te")
    write(2000)
    changes = server.asked("reload check")[0].decode().splitlines()
    yield changes, [f"link {n} reservable 1000 2000" for n in range(300)] + ["below zero 0"]
    yield server.asked("reload"), (b"done\n", 0)
    links = [link for document in server.shown("links") for link in document["links"]]
    yield sorted({link["reservable_bytes_per_second"] for link in links}), [2000]
    yield server.asked("reload check"), (b"nothing changes\n", 0)
    yield end(server), ENDED
    shutil.rmtree(folder)


def the_log_of_a_file(program):
    """Lines of the log have their times if JOURNAL_STREAM is set, but standard error is a file."""
    with tempfile.TemporaryFile() as log:
        subprocess.run([program, "serve", "--te", TE, "--listen", "127.0.0.1:0", "--endless"], stdin=subprocess.DEVNULL,
                       stdout=subprocess.DEVNULL, stderr=log, env={**os.environ, "JOURNAL_STREAM": "8:12345"}, timeout=TIMEOUT_S)
        log.seek(0)
        lines = log.read().decode().splitlines()
    yield len(lines) > 1 and all(STAMPED.match(line) for line in lines), True


CASES = [
    others_files, two_on_one_path, anothers_socket, a_reload_of_a_pipe, a_link_text_that_is_no_file, a_check_of_no_file, why_it_cannot_start,
    a_settle_that_waits_for_nothing, many_links, the_log_of_a_file,
]
