"""The examples of the documents."""
import re
import shlex
import shutil
import subprocess
import sys
import tempfile

from harness.cases import ROOT
from harness.clock import TIMEOUT_S, comes
from harness.exposition import family, metrics_of, text_of
from harness.server import ENDED, TE, ControlledServer, ViewedServer

from .read import chosen


def the_example_router(program):
    """Beside examples/router.py tables are those of the documents; it does what it is asked, reports that, and ends with the server."""
    folder = tempfile.mkdtemp()
    te = shutil.copy(TE, folder)
    server = ControlledServer(program, te=te)
    words = [sys.executable, f"{ROOT}/examples/router.py", "--to", f"127.0.0.1:{server.port}"]
    router = subprocess.Popen(words, stdout=subprocess.PIPE, text=True)

    def seen(plsp):
        (lsp,) = server.shown(f"lsp 127.0.1.1 {plsp}")
        return lsp and [lsp["is_delegated"], lsp["is_created"], *(chosen(path, "lsp_id", "links") for path in lsp["paths"])]

    def reports():
        return [step["event"] for step in server.shown("history 50")[0]["steps"]].count("report")

    yield comes(lambda: [peer["is_synchronizing"] for peer in server.shown("peers")[0]["peers"]] == [False]), True
    yield seen(1), [True, False, [1, [0, 1]]]
    text, status = server.asked("links", "path 10.0.0.1 10.0.0.4 200000 7 7", "without 0")
    yield (f"```\n{text.decode()}```\n" in open(f"{ROOT}/README.md").read(), status), (True, 0)
    yield server.asked("initiate 127.0.1.1 t1 10.0.0.1 10.0.0.4 500000 7 0"), (b"asked 1\n", 0)
    yield comes(lambda: seen(2) == [True, True, [1, [2, 3]]]), True
    operating = open(f"{ROOT}/docs/OPERATING.md").read()
    yield f"$ pced tell control lsps\n{server.asked('lsps')[0].decode()}$" in operating, True
    yield server.asked("delete 127.0.1.1 2"), (b"removing 2\n", 0)
    yield comes(lambda: seen(2) is None), True
    text = open(te).read().replace("te=10,", "te=100,", 1)
    with open(te, "w") as file:
        file.write(text)
    yield server.asked("reload", "update 127.0.1.1 1"), (b"done\nasked 2\n", 0)
    yield comes(lambda: seen(1) == [True, False, [2, [2, 3]]]), True
    yield [link["unreserved_bytes_per_second"][7] for link in server.shown("links")[0]["links"]], [1_000_000] * 2 + [250_000] * 2
    yield server.asked("return 127.0.1.1 1"), (b"done\n", 0)
    yield comes(lambda: reports() == 6), True
    yield server.end(), ENDED
    over_b, over_c, rest = "hops 10.1.0.2 10.2.0.2", "hops 10.3.0.2 10.4.0.2", "setup 7 hold 0, 750000 bytes per second"
    t1 = f"{over_c}, setup 7 hold 0, 500000 bytes per second"
    yield [line for line in router.stdout.read().splitlines() if not line.endswith("Keepalive")], [
        "sends Open", "hears Open",
        f"sends PCRpt PLSP-ID 1 a-to-d delegated, LSP-ID 1 up, {over_b}, {rest}", "sends PCRpt end of synchronization",
        f"hears PCInitiate SRP-ID 1, new LSP t1, {t1}", f"sends PCRpt SRP-ID 1, PLSP-ID 2 t1 delegated, LSP-ID 1 up, {t1}",
        "hears PCInitiate SRP-ID 2 to remove, PLSP-ID 2 delegated",
        "sends PCRpt SRP-ID 2 to remove, PLSP-ID 2 t1 delegated, LSP-ID 1 removed",
        f"hears PCUpd SRP-ID 3, PLSP-ID 1 delegated, {over_c}, {rest}",
        f"sends PCRpt SRP-ID 3, PLSP-ID 1 a-to-d delegated, LSP-ID 2 up, {over_c}, {rest}",
        "sends PCRpt PLSP-ID 1 a-to-d delegated, LSP-ID 1 removed",
        "hears PCUpd SRP-ID 4, PLSP-ID 1 not delegated",
        f"sends PCRpt SRP-ID 4, PLSP-ID 1 a-to-d not delegated, LSP-ID 2 up, {over_c}, {rest}", "hears Close reason 1"]
    yield router.wait(timeout=TIMEOUT_S), 0
    shutil.rmtree(folder)


def examples_between(start, end):
    """The examples of lines in docs/OPERATOR.md from one text on up to another: the words of `pced tell`, and what it prints."""
    text = open(f"{ROOT}/docs/OPERATOR.md").read()
    text = text[text.index(start):]
    text = text[:text.index(end)]
    for words, said in re.findall(r"^\$ pced tell (.+)\n((?:(?!\$ |```).*\n)*)", text, re.MULTILINE):
        words, _, last = words.partition(" | tail -")
        yield [word for word in shlex.split(words) if word != "control"], int(last or 0), said


def without_times(text):
    return re.sub(r"\d+ d \d\d:\d\d:\d\d", "AGE", re.sub(r'"uptime_ms":\d+', '"uptime_ms":0', text))


def differences(server, start, end):
    """The examples that the server answers otherwise, but for times."""
    found = []
    for words, last, said in examples_between(start, end):
        came = server.asked(*words)[0].decode()
        came = "".join(came.splitlines(keepends=True)[-last:])
        if without_times(came) != without_times(said):
            found.append((words, came))
    return found


# how many messages examples/two_routers.py has sent after each piece of it, and how many steps the server has taken then
PIECES = (1, 0), (3, 3), (5, 10), (6, 10), (7, 12), (8, 14)


def counts(server):
    """How many messages the server has heard, and how many steps it has taken."""
    metrics = metrics_of(text_of(server))
    return tuple(sum(family(metrics, name).values()) for name in ("pced_messages_received_total", "pced_steps_total"))


class OtherOrder(Exception):
    """The worker committed its search before the router's thread had asked what to send: the documents show the other order, with a step more."""


def follow(server, routers):
    """Has each piece of the example sent once all that follows from the one before is done: messages that come at once take fewer steps."""
    for piece in PIECES:
        if not comes(lambda: counts(server) == piece, 5):
            raise OtherOrder(f"{counts(server)} messages and steps, and not {piece}")
        print("", file=routers.stdin, flush=True)


def examples_of_two_routers(program):
    """How the server of examples/two_routers.py answers otherwise than docs/OPERATOR.md says, before its third LSP and after it."""
    server = ViewedServer(program)
    words = [sys.executable, f"{ROOT}/examples/two_routers.py", f"127.0.0.1:{server.port}", "enter"]
    routers = subprocess.Popen(words, stdin=subprocess.PIPE, stdout=subprocess.DEVNULL, text=True)
    try:
        follow(server, routers)
    except OtherOrder:
        routers.kill()
        routers.wait()
        server.end()
        raise
    comes(lambda: [peer["is_synchronizing"] for peer in server.shown("peers")[0]["peers"]] == [False, False])
    comes(lambda: all(grant["unanswered_ms"] is not None for grant in server.shown("grants")[0]["grants"]))
    first = differences(server, "examples/two_routers.py\n", "If the priorities of a link differ")
    print("", file=routers.stdin, flush=True)
    comes(lambda: len(server.shown("lsps")[0]["lsps"]) == 3)
    second = differences(server, "After Enter in the terminal", "A ticket exists as long")
    print("", file=routers.stdin, flush=True)
    routers.wait(timeout=TIMEOUT_S)
    return first, second, server.end()


def in_the_order_shown(program):
    """A run in which the router's thread is before the worker, as it nearly always is on a machine that isn't busy."""
    for _ in range(4):
        try:
            return examples_of_two_routers(program)
        except OtherOrder as order:
            print(f"      the other order: {order}")
    return examples_of_two_routers(program)


def the_examples_of_the_documents(program):
    """Beside examples/two_routers.py lines are answered as docs/OPERATOR.md says."""
    count = len(list(examples_between("examples/two_routers.py\n", "A ticket exists as long")))
    yield count > 15, True
    yield in_the_order_shown(program), ([], [], ENDED)


CASES = [the_example_router, the_examples_of_the_documents]
