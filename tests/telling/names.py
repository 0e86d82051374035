"""Names of nodes in an operator's lines."""
import re

import pcep
from harness.cases import ROOT
from harness.clock import comes
from harness.router import Router
from harness.server import ENDED_WITH_TEXT, TE, ControlledServer, meant, with_text
from pcep import diamond

# node A owns the addresses of two routers, B that of one; the names of the last two read as a number and as an address
OWNERS = ('"10.0.0.1"', '"127.0.1.1"'), ('"10.1.0.1"', '"127.0.1.2"'), ('"10.1.0.2"', '"127.0.1.3"'), ('"C"', '"7"'), ('"D"', '"10.0.0.2"')


def text_of_owners():
    """A link text in which the nodes own the addresses of routers."""
    text = open(TE).read()
    for old, new in OWNERS:
        text = text.replace(old, new)
    return text


def names_of_nodes(program):
    """A line with a name is answered as the same line with its address; what reads as a number or an address keeps that meaning."""
    server = ControlledServer(program, **with_text(text_of_owners()))
    other = Router(server, 3)
    other.come_up()
    other.send(diamond.report(1, 1000.0))
    other.ask(1)
    for named, plain in (
        ("path A B 100 7 7", "path 127.0.1.1 10.0.0.2 100 7 7"), ("json path A B 100 7 7", "json path 127.0.1.1 10.0.0.2 100 7 7"),
        ("path A 10.0.0.4 6kbit 7 7 max-hops=2", "path 127.0.1.1 10.0.0.4 750 7 7 max-hops=2"), ("path A 10.0.0.2 100 7 7", "path 127.0.1.1 10.0.0.2 100 7 7"),
        ("lsps B", "lsps 127.0.1.3"), ("json lsps B", "json lsps 127.0.1.3"), ("lsp B 1", "lsp 127.0.1.3 1"), ("grants B", "grants 127.0.1.3"), ("tunnels B", "tunnels 127.0.1.3"),
        ("better B", "better 127.0.1.3"), ("update B 1", "update 127.0.1.3 1"), ("delete B 1", "delete 127.0.1.3 1"), ("return B 9", "return 127.0.1.3 9"), ("drop B 5", "drop 127.0.1.3 5"),
        ("update A 1", "update 127.0.1.1 1"), ("update 7 1", "update 0.0.0.7 1"),
    ):
        yield (named, server.asked(named)), (named, server.asked(plain))
    for wrong, word in (("path A B 1e9 7 7", "1e9 is no bandwidth"), ("path A B 100 7 7 max-hops=x", "max-hops=x limits no path, or comes twice"), ("path A", "path wants FROM TO BW SETUP HOLD [KEY=VALUE ..]"), ("path A C 100 7 7", "no node has the name C"), ("path Z B 100 7 7", "no node has the name Z"), ("lsps Z", "Z names no peer, or several"), ("path a B 100 7 7", "no node has the name a")):
        yield meant(program, server.path, wrong), (b"bad line 1\n", f"bad line 1: {word}\n".encode(), 2)
    yield server.asked("initiate B t A 10.0.0.4 100 7 7")[1], 0
    yield other.hear_of(pcep.PCINITIATE)[:2], bytes([0x20, pcep.PCINITIATE])
    routers = [Router(server, number) for number in (1, 2)]
    yield [router.come_up() for router in routers], [True] * 2
    yield meant(program, server.path, "update A 1"), (b"bad line 1\n", b"bad line 1: A names no peer, or several\n", 2)
    steps = server.status()["steps"]
    for line in ("initiate A t A B 1 7 7", "place Z t A B 1 7 7", "delete A 1", "return A 1", "drop A 1", "initiate B t A Z 1 7 7", "place B t Z A 1 7 7"):
        yield (line, server.asked(line)), (line, (b"bad line 1\n", 2))
    yield server.status()["steps"], steps
    yield server.asked("lsps 127.0.1.2")[1], 0
    yield server.end(), ENDED_WITH_TEXT


# how the words of the document's lines are spelled: plainly, and by names and units
SPELLINGS = {
    "PEER": ("127.0.1.3", "B"), "FROM": ("127.0.1.1", "A"), "TO": ("10.0.0.2", "B"), "BW": ("750", "6kbit"), "NAME": ("t1", "t1"), "SETUP": ("7", "7"), "HOLD": ("0", "0"),
    "PLSP": ("1", "1"), "SRP": ("1", "1"), "N": ("1", "1"), "KEY=VALUE": ("max-hops=2", "max-hops=2"),
}


def lines_of_the_document():
    """Each line that docs/OPERATOR.md has in its two tables of lines, in both spellings."""
    document = open(f"{ROOT}/docs/OPERATOR.md").read()
    rows = [row for title in ("Lines that do something", "Lines that show") for row in document.split(f"## {title}\n")[1].split("\n#")[0].splitlines()]
    spans = [span for row in rows if row.startswith("| `") for span in re.findall("`([^`]*)`", row.split(" | ")[0])]
    return [[" ".join(SPELLINGS.get(word, (word, word))[way] for word in re.sub(r"[][]| \.\.", "", span).split()) for way in (0, 1)] for span in spans]


def timeless(document):
    """A document without what tells moments, and without the numbers of steps: those depend on how the messages came."""
    if isinstance(document, dict):
        return {name: timeless(value) for name, value in document.items() if not re.search("_ms$|_ms_|_ago|^steps?$", name)}
    return [timeless(each) for each in document] if isinstance(document, list) else document


def both_spellings(program):
    """Of two servers, one is asked each line of the document plainly and the other by names and units: they answer the same."""
    servers, routers = [ControlledServer(program, **with_text(text_of_owners())) for _ in range(2)], []
    for server in servers:
        router = Router(server, 3)
        router.come_up()
        router.send(diamond.report(1, 1000.0))
        router.ask(1)
        routers.append(router)
    lines = lines_of_the_document()
    words = {line[0].split()[0] for line in lines}
    yield words >= {"initiate", "place", "update", "return", "delete", "drop", "book", "reload", "end", "status", "links", "path", "why", "better", "without", "history"}, True
    asked = [line for line in lines if line[0] != line[1]]
    yield len(asked), 13
    for spelled in asked:
        if spelled[0].split()[0] in ("lsps", "lsp", "grants", "tunnels", "path", "why", "better"):
            yield (spelled[1], comes(lambda: timeless(servers[0].shown(spelled[0])) == timeless(servers[1].shown(spelled[1])))), (spelled[1], True)
        else:
            plain, named = [server.asked(line) for server, line in zip(servers, spelled)]
            yield (spelled[1], named), (spelled[1], plain)
            # (a path that was asked for is granted before the next line)
            yield [comes(lambda: server.shown("tickets")[0]["tickets"] == []) for server in servers], [True, True]
    for server in servers:
        yield server.end(), ENDED_WITH_TEXT


CASES = [names_of_nodes, both_spellings]
