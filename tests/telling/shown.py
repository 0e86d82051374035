"""Lines that show what stands."""
import json
import re
import shutil
import tempfile
import time

import pcep
from harness.cases import ROOT
from harness.clock import comes
from harness.router import Router
from harness.server import ENDED, TE, ControlledServer, Server, book_of
from pcep import diamond

from .read import cells, chosen, is_read_by_python, is_tight, report_at, seen_of, status_at_rest


def what_is_shown(program):
    """Lines that show are answered by JSON that reads as what stands, and by tables; nothing is done for them."""
    server = ControlledServer(program)
    router, other = Router(server, 1), Router(server, 2)
    yield [each.come_up() for each in (router, other)], [True] * 2
    router.send(diamond.report(1, 500000.0) + diamond.report(7, 250000.0, links=(), flags=0x09))
    yield router.hear_of(pcep.PCUPD)[:2], bytes([0x20, pcep.PCUPD])
    router.ask(1)
    other.ask(1)
    before = status_at_rest(server)
    yield chosen(before, "nodes", "links", "sessions_up", "lsps", "paths", "tickets", "grants", "rolled_steps"), [4, 4, 2, 2, 3, 0, 1, 0]
    (links,) = server.shown("links")
    yield [chosen(node, "node", "name", "router_id") for node in links["nodes"]][3], [3, "D", "10.0.0.4"]
    yield chosen(links["links"][1], "link", "from", "to", "local_address", "igp_metric", "te_metric"), [1, "B", "D", "10.2.0.1", 10, 10]
    left = book_of(250_000, 250_000, 1_000_000, 1_000_000)
    yield [link["unreserved_bytes_per_second"] for link in links["links"]], left
    (link,) = server.shown("link 0")
    yield link["unreserved_bytes_per_second"], left[0]
    yield [chosen(tunnel, "plsp_id", "bandwidth_bytes_per_second") for tunnel in link["tunnels"]], [[1, 500_000], [7, 250_000]]
    del link["tunnels"]
    yield server.shown("links 0"), [{"links": [link]}]
    yield server.shown("links 4"), [{"links": []}]
    (peers,) = server.shown("peers")
    yield sorted(chosen(peer, "peer", "is_up", "lsps", "delegated_lsps") for peer in peers["peers"]), [
        ["127.0.1.1", True, 2, 1], ["127.0.1.2", True, 0, 0]]
    (page,) = server.shown("lsps")
    yield page["next"], None
    yield [chosen(lsp, "peer", "plsp_id", "is_delegated", "source", "destination") for lsp in page["lsps"]], [
        ["127.0.1.1", 1, False, "10.0.0.1", "10.0.0.4"], ["127.0.1.1", 7, True, "10.0.0.1", "10.0.0.4"]]
    yield [[path["links"] for path in lsp["paths"]] for lsp in page["lsps"]], [[[0, 1]], [[], [0, 1]]]
    yield [lsp["is_down"] for lsp in page["lsps"]], [False, True]
    yield [[chosen(path, "lsp_id", "srp_id", "is_granted") for path in lsp["paths"]] for lsp in page["lsps"]], [
        [[1, None, False]], [[1, None, False], [None, 1, True]]]
    yield server.shown("lsps 127.0.1.1")[0]["lsps"], page["lsps"]
    yield server.shown("lsps 127.0.1.2")[0]["lsps"], []
    yield server.shown("lsp 127.0.1.1 7"), [page["lsps"][1]]
    yield [server.shown(line) for line in ("lsp 127.0.1.1 9", "lsp 127.0.1.9 1", "link 4")], [[None]] * 3
    (tunnels,) = server.shown("tunnels")
    yield [chosen(tunnel, "peer", "plsp_id") for tunnel in tunnels["tunnels"]], [["127.0.1.1", 1], ["127.0.1.1", 7]]
    yield [[path["links"] for path in tunnel["paths"]] for tunnel in tunnels["tunnels"]], [[[0, 1]], [[], [0, 1]]]
    yield [[chosen(held, "link", "reserved_bytes_per_second") for held in tunnel["holds"]] for tunnel in tunnels["tunnels"]], [
        [[0, 500_000], [1, 500_000]], [[0, 250_000], [1, 250_000]]]
    yield server.shown("tunnels 127.0.1.1"), [tunnels]
    yield server.shown("tunnels 127.0.1.2")[0]["tunnels"], []
    yield server.shown("tickets"), [{"tickets": []}]
    (steps,) = server.shown("history 3")
    yield [step["step"] for step in steps["steps"]], list(range(before["steps"] - 3, before["steps"]))
    found = ["is_found", "cost", "links"]
    yield chosen(server.shown("path 10.0.0.1 10.0.0.4 250000 7 7")[0], *found), [True, 20, [0, 1]]
    yield chosen(server.shown("path 10.0.0.1 10.0.0.4 600000 7 7")[0], *found), [True, 40, [2, 3]]
    tightest = ["tightest_link", "tightest_left_bytes_per_second"]
    yield chosen(server.shown("path 10.0.0.1 10.0.0.4 250000 7 7")[0], *tightest), [0, 250_000]
    yield chosen(server.shown("path 10.0.0.1 10.9.9.9 1 7 7")[0], *tightest), [None, None]
    yield chosen(server.shown("path 10.0.0.1 10.0.0.4 2000000 7 7")[0], "is_found", "obstacle"), [False, "bandwidth"]
    yield chosen(server.shown("path 10.0.0.1 10.9.9.9 1 7 7")[0], "is_found", "obstacle"), [False, None]
    for line in ("status", "links", "links 1", "link 0", "peers", "lsps", "lsp 127.0.1.1 1", "tickets", "history 9", "path 10.0.0.1 10.0.0.4 1 7 7",
                 "why 127.0.1.1 7", "better", "better 127.0.1.1", "without 0", "grants", "grants 127.0.1.1", "tunnels", "tunnels 127.0.1.1"):
        text, status = server.asked(line)
        yield (status, text[-1:], text[:1] not in (b"{", b"b")), (0, b"\n", True)
    for line in ("statu", "status ", "links x", "why 127.0.1.1", "better x", "better 1 2", "without", "without x", "tunnels x", "lsp 1", "link x", "history", "path 1 2", "json book", "json end", "json", "json json status"):
        yield server.asked(line), (b"bad line 1\n", 2)
    yield server.asked("book", words=["--json"]), server.asked("book")
    yield server.asked("books", words=["--json"]), (b"bad line 1\n", 2)
    (after,) = server.shown("status")
    yield chosen(after, "steps", "grants", "paths"), chosen(before, "steps", "grants", "paths")
    yield [[int(word) for word in line.split()[2:]] for line in server.asked("book")[0].splitlines()], left
    yield server.end(), ENDED


def tables_of_links(program):
    """`links` shows all eight numbers of a link: a line for priorities in a row at which as much is left."""
    folder = tempfile.mkdtemp()
    front, _, back = open(TE).read().replace("te=10,colour=0", "te=11,colour=2147483649", 1).rpartition("reservable=1000000")
    with open(f"{folder}/te", "w") as file:
        file.write(f"{front}reservable=0{back}")
    server = ControlledServer(program, te=f"{folder}/te")
    shutil.rmtree(folder)
    router = Router(server, 1)
    router.come_up()
    router.send(report_at(7, 5, 1, 500000.0) + report_at(3, 3, 2, 250000.0) + report_at(7, 7, 3, 100000.0))
    router.send(report_at(0, 0, 4, 1500000.0, links=diamond.OVER_C))
    router.ask(1, 100.0)
    head = ["LINK", "FROM", "TO", "LOCAL", "REMOTE", "IGP", "TE", "COLOUR", "RESERVABLE", "PRIORITY", "UNRESERVED", "RESERVED"]
    rest = [
        ["3-4", "750000 (6.0 Mbit/s)", "25%"], ["5-6", "250000 (2.0 Mbit/s)", "75%"], ["7", "150000 (1.2 Mbit/s)", "85%"]]
    first = [["0", "A", "B", "10.1.0.1", "10.1.0.2", "10", "11", "0x80000001", "1000000 (8.0 Mbit/s)", "0-2", "1000000 (8.0 Mbit/s)", "0%"], *rest]
    second = [["1", "B", "D", "10.2.0.1", "10.2.0.2", "10", "10", "0x00000000", "1000000 (8.0 Mbit/s)", "0-2", "1000000 (8.0 Mbit/s)", "0%"], *rest]
    third = [["2", "A", "C", "10.3.0.1", "10.3.0.2", "20", "20", "0x00000000", "1000000 (8.0 Mbit/s)", "0-7", "-500000 (-4.0 Mbit/s)", "150%"]]
    fourth = [["3", "C", "D", "10.4.0.1", "10.4.0.2", "20", "20", "0x00000000", "0 (0.0 kbit/s)", "0-7", "-1500000 (-12.0 Mbit/s)", "-"]]
    yield cells(server, "links"), [head, *first, *second, *third, *fourth]
    yield cells(server, "links 0"), [head, *first]
    yield cells(server, "links 2"), [head, *third]
    yield cells(server, "links 4"), [head]
    yield [is_tight(server, line) for line in ("links", "links 1")], [True] * 2
    lines = server.asked("link 0")[0].decode().splitlines()
    yield [re.split(" {2,}", row)[1:] for row in lines if row.startswith("left at")], [
        *[["1000000 (8.0 Mbit/s)", "0% reserved"]] * 3, *[["750000 (6.0 Mbit/s)", "25% reserved"]] * 2,
        *[["250000 (2.0 Mbit/s)", "75% reserved"]] * 2, ["150000 (1.2 Mbit/s)", "85% reserved"]]
    yield server.end(), ENDED


def states_of_lsps(program):
    """`lsps` names the state that the router reports of each LSP, and what else holds of it; `is_down` goes by links only, and no cell ends in a blank."""
    server = ControlledServer(program)
    router = Router(server, 1)
    router.come_up()

    def states():
        rows = server.asked("lsps")[0].decode().splitlines()
        place, end = rows[0].index("STATE"), rows[0].index("SETUP/HOLD")
        return {int(row.split()[1]): row[place:end].strip() for row in rows[1:] if row[0] != " "}

    def downs():
        return [lsp["plsp_id"] for lsp in server.shown("lsps")[0]["lsps"] if lsp["is_down"]]

    router.send(diamond.report(1, 1000.0) + diamond.report(2, 1000.0, links=(), flags=0x08) + diamond.report(3, 1000.0, links=(99,)))
    router.send(diamond.report(4, 1000.0, links=()) + diamond.report(4, 1000.0, lsp_id=2) + diamond.report(6, 1000.0, flags=0x99))
    router.send(diamond.report(7, 1000.0, links=(), flags=0x09))
    yield router.hear_of(pcep.PCUPD)[:2], bytes([0x20, pcep.PCUPD])
    router.ask(1, 100.0)
    known = {1: "up", 2: "down", 3: "unplaced", 4: "up", 6: "up delegated created", 7: "down delegated"}
    yield states(), known
    yield downs(), [2, 3, 7]
    yield [[path["is_granted"] for path in lsp["paths"]] for lsp in server.shown("lsp 127.0.1.1 7")], [[False, True]]
    yield [is_tight(server, line) for line in ("lsps", "lsp 127.0.1.1 6", "history 50", "peers", "tickets", "why 127.0.1.1 7")], [True] * 6
    yield server.asked("delete 127.0.1.1 6")[1], 0
    yield states()[6], "up delegated created removing"
    yield [row[-1] for row in cells(server, "history 50") if row[1] == "report"], ["booked"] * 6 + ["booked wants"]
    router.close()
    yield comes(lambda: not server.shown("peers")[0]["peers"][0]["is_up"]), True
    router = Router(server, 1)
    yield router.come_up(sync=False), True
    router.send(diamond.report(1, 1000.0))
    yield comes(lambda: states()[1] == "up"), True
    yield [states()[plsp] for plsp in (2, 4)], ["down stale", "up stale"]
    yield server.end(), ENDED


def grants_and_deletions(program):
    """`grants` shows what routers haven't answered, until it is answered or an operator drops it."""
    server, ages, begun = ControlledServer(program), [], time.monotonic()
    router, other = Router(server, 1), Router(server, 2)
    yield [each.come_up() for each in (router, other)], [True] * 2

    def shown(line="grants"):
        (page,) = server.shown(line)
        for each in page["grants"] + page["deletions"]:
            ages.append(each.pop("unanswered_ms"))
        return [page["from"], page["next"], page["grants"], page["deletions"]]

    def left():
        return [link["unreserved_bytes_per_second"][7] for link in server.shown("links")[0]["links"]]

    yield shown(), [0, None, [], []]
    yield server.asked("initiate 127.0.1.1 t1 10.0.0.1 10.0.0.4 500000 7 3"), (b"asked 1\n", 0)
    yield router.hear_of(pcep.PCINITIATE)[:2], bytes([0x20, pcep.PCINITIATE])
    router.send(diamond.report(7, 250000.0, links=(), flags=0x09))
    yield router.hear_of(pcep.PCUPD)[:2], bytes([0x20, pcep.PCUPD])
    unbound, bound = (
        {"peer": "127.0.1.1", "srp_id": srp, "plsp_id": plsp, "name": name, "hold_priority": hold, "bandwidth_bytes_per_second": bandwidth, "links": [0, 1]}
        for srp, plsp, name, hold, bandwidth in ((1, 0, "t1", 3, 500_000), (2, 7, None, 0, 250_000)))
    yield shown(), [0, None, [unbound, bound], []]
    yield shown("grants 127.0.1.1"), shown()
    yield shown("grants 127.0.1.2"), [0, None, [], []]
    yield comes(lambda: None not in [grant["unanswered_ms"] for grant in server.shown("grants")[0]["grants"]]), True
    table = cells(server, "grants")
    yield [re.fullmatch(r"0 d 00:\d\d:\d\d", row.pop(4)) is not None for row in table], [False, True, True]
    yield table, [
        ["PEER", "SRP", "FOR", "LSP", "HOLD", "BANDWIDTH", "LINKS"],
        ["127.0.1.1", "1", "path", "t1", "3", "500000 (4.0 Mbit/s)", "0,1"], ["127.0.1.1", "2", "path", "7", "0", "250000 (2.0 Mbit/s)", "0,1"]]
    yield left(), [250_000, 250_000, 1_000_000, 1_000_000]
    yield server.asked("update 127.0.1.1 7")[0], b"refused 6\n"
    yield server.asked("drop 127.0.1.1 2"), (b"done\n", 0)
    yield (shown(), left()), ([0, None, [unbound], []], [500_000, 500_000, 1_000_000, 1_000_000])
    yield server.asked("update 127.0.1.1 7")[0][:6], b"asked "
    yield router.hear_of(pcep.PCUPD)[:2], bytes([0x20, pcep.PCUPD])
    yield shown(), [0, None, [unbound, {**bound, "srp_id": 3}], []]
    router.send(diamond.report(6, 1000.0, diamond.OVER_C, flags=0x99))
    yield comes(lambda: server.shown("lsp 127.0.1.1 6") != [None]), True
    yield server.asked("delete 127.0.1.1 6"), (b"removing 4\n", 0)
    deletion = {"peer": "127.0.1.1", "srp_id": 4, "plsp_id": 6}
    yield shown(), [0, None, [unbound, {**bound, "srp_id": 3}], [deletion]]
    yield comes(lambda: server.shown("grants")[0]["deletions"][0]["unanswered_ms"] is not None), True
    row = cells(server, "grants")[-1]
    yield re.fullmatch(r"0 d 00:\d\d:\d\d", row.pop(4)) is not None, True
    yield row, ["127.0.1.1", "4", "deletion", "6", "-", "-", "-"]
    yield server.asked("delete 127.0.1.1 6")[0], b"refused 6\n"
    yield server.asked("drop 127.0.1.1 4"), (b"done\n", 0)
    yield shown()[3], []
    yield server.asked("delete 127.0.1.1 6"), (b"removing 5\n", 0)
    yield shown()[3], [{**deletion, "srp_id": 5}]
    before = shown()
    for line, answer in (("drop 127.0.1.1 9", b"done\n"), ("drop 2130706689 0", b"done\n"), ("drop 127.0.1.2 1", b"done\n"), ("drop 127.0.1.9 1", b"refused 1\n")):
        yield server.asked(line)[0], answer
    for line in ("drop", "drop 127.0.1.1", "drop 127.0.1.1 x", "drop 127.0.1.1 4294967296", "drop 127.0.1.1 1 1", "drop t1 1", "grants 1 1", "grants x", "json drop 127.0.1.1 1"):
        yield server.asked(line), (b"bad line 1\n", 2)
    yield shown(), before
    yield ["refused", "127.0.1.9", "refused 1"] in [row[1:] for row in cells(server, "history 20")], True
    other.close()
    yield comes(lambda: not server.shown("peers")[0]["peers"][1]["is_up"]), True
    yield server.asked("drop 127.0.1.2 1")[0], b"refused 3\n"
    most = 1000 * (time.monotonic() - begun) + 1
    yield all(age is None or 0 <= age <= most for age in ages), True
    yield server.end(), ENDED


def over_abilene(program):
    """The lines over a network of eleven nodes: Seattle to Denver by Sunnyvale, where the way straight on costs less."""
    def over(plsp, value, *hops):
        route = pcep.route(pcep.ERO, [bytes([10, 1, hop, 2]) for hop in hops])
        return pcep.message(pcep.PCRPT, diamond.lsp(plsp, 0x19, 1, plsp), route, diamond.ATTRIBUTES, pcep.bandwidth(value))

    server = ControlledServer(program, te=f"{ROOT}/examples/abilene.toml")
    router = Router(server, 1)
    router.come_up()
    router.send(over(1, 1e9, 1, 4) + over(2, 1e8, 1, 4) + over(3, 2e8, 2))
    router.ask(1, 100.0)
    (link,) = server.shown("link 0")
    yield [chosen(tunnel, "plsp_id", "bandwidth_bytes_per_second") for tunnel in link["tunnels"]], [[1, 10**9], [2, 10**8]]
    yield server.shown("links 2")[0]["links"][0]["unreserved_bytes_per_second"], [1_050_000_000] * 8
    yield [chosen(better, "plsp_id", "cost", "better_cost", "links") for better in server.shown("better")[0]["better"]], [
        [1, 2156, 2095, [2]], [2, 2156, 2095, [2]]]
    members = ["plsp_id", "is_found", "cost", "links"]
    yield [chosen(move, *members) for move in server.shown("without 2")[0]["moves"]], [[3, False, None, []]]
    yield [chosen(move, *members) for move in server.shown("without 6")[0]["moves"]], [
        [1, True, 2095, [2]], [2, True, 4661, [0, 4, 8, 13, 11]]]
    (path,) = server.shown("path 10.0.0.1 10.0.0.4 1000 7 7")
    yield chosen(path, "cost", "links", "tightest_link", "tightest_left_bytes_per_second"), [2095, [2], 2, 1_050_000_000]
    for line in ("links 2", "link 0", "path 10.0.0.1 10.0.0.4 1000 7 7", "why 127.0.1.1 1", "better", "without 2"):
        yield is_read_by_python(server, line), True
    yield server.end(), ENDED


def since_when_and_why(program):
    """`peers` says since when a router is up or down, and when and why a connection of it ended last."""
    server, begun = ControlledServer(program), time.monotonic()
    router, other = Router(server, 1), Router(server, 2)
    yield [each.come_up() for each in (router, other)], [True] * 2
    yield comes(lambda: [peer["is_up"] for peer in server.peers().values()] == [True, True]), True
    known = time.monotonic()
    time.sleep(0.5)
    least = 1000 * (time.monotonic() - known) - 2
    both = seen_of(server, "127.0.1.1", "127.0.1.2")
    most = 1000 * (time.monotonic() - begun) + 1
    yield [[peer["is_up"], least <= peer["since_ms_ago"] <= most] for peer in both], [[True, True]] * 2
    names = ("waiting_messages", "last_end_ms_ago", "last_end_reason", "last_end_number")
    yield [chosen(peer, *names) for peer in both], [[0, None, None, None]] * 2
    second = Router(server, 2)
    second.send(pcep.OPEN + pcep.KEEPALIVE)
    second.hear_all()
    yield comes(lambda: seen_of(server, "127.0.1.2")[0]["last_end_reason"]), True
    (peer,) = seen_of(server, "127.0.1.2")
    yield chosen(peer, "is_up", "last_end_reason", "last_end_number"), [True, "second session", None]
    yield peer["since_ms_ago"] > peer["last_end_ms_ago"] >= 0, True
    begun = time.monotonic()
    router.send(pcep.CLOSE)
    router.hear_all()
    yield comes(lambda: seen_of(server, "127.0.1.1")[0]["last_end_reason"]), True
    time.sleep(0.6)
    (peer,) = seen_of(server, "127.0.1.1")
    most = 1000 * (time.monotonic() - begun) + 1
    yield chosen(peer, "is_up", "last_end_reason", "last_end_number"), [False, "closed by the peer", None]
    yield 500 <= peer["last_end_ms_ago"] <= peer["since_ms_ago"] < most, True
    again = Router(server, 1)
    yield again.come_up(), True
    yield comes(lambda: seen_of(server, "127.0.1.1")[0]["is_up"]), True
    (peer,) = seen_of(server, "127.0.1.1")
    yield chosen(peer, "is_up", "last_end_reason"), [True, "closed by the peer"]
    yield peer["since_ms_ago"] < peer["last_end_ms_ago"], True
    table = server.asked("peers")[0].decode().splitlines()
    yield table[0].split()[:3], ["PEER", "STATE", "SINCE"]
    yield [line.partition("0 d ")[0].split() for line in table[1:]], [["127.0.1.1", "up"], ["127.0.1.2", "up"]]
    yield [line.rpartition(": ")[2] for line in table[1:]], ["closed by the peer", "second session"]
    yield server.end(), ENDED


def shown_on_standard_output(program):
    """Standard input takes the same lines."""
    server = Server(program, "--endless")
    (text,) = server.tell("json status")
    yield chosen(json.loads(text), "nodes", "links", "lsps"), [4, 4, 0]
    yield server.tell("links", 5)[4].split()[:3], ["3", "C", "D"]
    yield server.tell("json"), ["bad line 3"]
    yield server.end(), (0, b"")


CASES = [what_is_shown, since_when_and_why, tables_of_links, states_of_lsps, grants_and_deletions, over_abilene, shown_on_standard_output]
