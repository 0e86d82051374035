"""What viewers are shown: documents, the page, and what of them is refused."""
import tomllib

from harness.cases import ROOT
from harness.router import Router
from harness.server import ENDED, ViewedServer
from harness.viewer import text_fields
from pcep import diamond

from .answers import PAGE, refused

POLICY = ("default-src 'none'; script-src 'unsafe-inline'; style-src 'unsafe-inline'; connect-src 'self'; base-uri 'none'; "
          "form-action 'none'; frame-ancestors 'none'")


def ages(document):
    """Takes how long ago things were out of a document."""
    return [peer.pop(name) for peer in (document or {}).get("peers", []) for name in ("since_ms_ago", "last_end_ms_ago")]


def rose(first, then):
    """Whether ages, where there are any, are those of a look and of a later one."""
    return len(first) == len(then) and all(a is b is None or a <= b for a, b in zip(first, then))


def documents(program):
    """Each document is the one that an operator is given at the same moment."""
    server = ViewedServer(program)
    router, other = Router(server, 1), Router(server, 2)
    yield [each.come_up() for each in (router, other)], [True] * 2
    router.send(diamond.report(1, 500000.0))
    # (whose path request is answered has nothing under way)
    for each in (router, other):
        each.ask(8)
    for target, line in (
        ("/api/links", "links"), ("/api/peers", "peers"), ("/api/tickets", "tickets"),
        ("/api/lsps", "lsps"), ("/api/lsps?", "lsps"), ("/api/lsps?peer=127.0.1.1", "lsps 127.0.1.1"), ("/api/lsps?from=0&peer=127.0.1.2", "lsps 127.0.1.2"),
        ("/api/grants", "grants"), ("/api/grants?peer=127.0.1.2&from=0", "grants 127.0.1.2"),
        ("/api/link?number=0", "link 0"), ("/api/link?number=03", "link 3"), ("/api/link?number=4", "link 4"),
        ("/api/path?from=10.0.0.1&to=10.0.0.4&bandwidth=250000&setup=7&hold=7", "path 10.0.0.1 10.0.0.4 250000 7 7"),
        ("/api/path?bandwidth=600000&to=10.0.0.4&from=10.0.0.1", "path 10.0.0.1 10.0.0.4 600000 7 7"),
        ("/api/path?from=10.0.0.1&to=10.0.0.4&bandwidth=2000000&setup=3", "path 10.0.0.1 10.0.0.4 2000000 3 7"),
        ("/api/path?from=10.0.0.1&to=10.9.9.9&bandwidth=1&hold=0&setup=7", "path 10.0.0.1 10.9.9.9 1 7 0"),
        ("/api/path?from=10.0.0.1&to=10.0.0.4&bandwidth=6.4Mbit&max-hops=2&metric=igp", "path 10.0.0.1 10.0.0.4 800000 7 7 metric=igp max-hops=2"),
        ("/api/path?from=10.0.0.1&to=10.0.0.4&bandwidth=0.3kB&exclude=0x1&max-cost=9", "path 10.0.0.1 10.0.0.4 300 7 7 exclude=0x1 max-cost=9"),
        ("/api/path?from=10.0.0.1&to=10.0.0.4&bandwidth=9bit", "path 10.0.0.1 10.0.0.4 2 7 7"),
    ):
        seen, (shown,) = server.view().document(target), server.shown(line)
        yield rose(ages(seen), ages(shown)), True
        yield (target, seen), (target, shown)
    (first,), seen, (then,) = server.shown("status"), server.view().document("/api/status"), server.shown("status")
    uptimes = [each.pop("uptime_ms") for each in (first, seen, then)]
    yield sorted(uptimes), uptimes
    yield [seen, then], [first, first]
    yield [server.view().document("/api/lsps")["lsps"][0][name] for name in ("peer", "plsp_id")], ["127.0.1.1", 1]
    yield server.view().document("/api/path?from=10.0.0.1&to=10.0.0.4&bandwidth=250000")["links"], [0, 1]
    path = "/api/path?from=10.0.0.1&to=10.0.0.4&bandwidth"
    for value in ("1.5.5kB", ".5kB", "5.kB", "1kb", "1KB", "1Kbit", "1bits", "kB", "1 kB", "-1kB", "+1kB", "281474976.710656MB", "2251799813685248bit", "1e3B", "0x1B", "1.0"):
        yield (value, server.view().get(f"{path}={value.replace(' ', '%20')}")), (value, refused(400, "bad bandwidth"))
    for value in ("max-cost=x", "max-cost=1&max-cost=1", "exclude=1", "metric=ospf", "include-any=0x100000000"):
        yield (value, server.view().get(f"{path}=1&{value}")), (value, refused(400, "bad limit"))
    yield server.view().get(f"{path}=1&max-price=1"), refused(400, "bad query")
    yield server.end(), ENDED


def places(program):
    """Where nodes are on a map is what the link text says, in the order of its nodes."""
    te = f"{ROOT}/examples/abilene.toml"
    nodes = tomllib.load(open(te, "rb"))["node"]
    server = ViewedServer(program, te=te)
    yield server.view().document("/api/places"), {"places": [{name: node[name] for name in ("name", "x", "y")} for node in nodes]}
    yield server.view().get("/api/places?x"), refused(400, "bad query")
    yield server.end(), ENDED


def pages(program):
    """LSPs come in pages of 256, by the place at which a page says that the next one starts."""
    server = ViewedServer(program)
    router = Router(server, 1)
    router.come_up()
    for plsp in range(1, 601):
        router.send(diamond.report(plsp, 1000.0))
    router.ask(1)
    viewer, places, lsps = server.view(), [0], []
    while places[-1] is not None:
        page = viewer.document(f"/api/lsps?from={places[-1]}")
        yield page["from"], places[-1]
        lsps += page["lsps"]
        places.append(page["next"])
    yield (places[1:], [lsp["plsp_id"] for lsp in lsps]), ([256, 512, None], list(range(1, 601)))
    yield lsps, [lsp for page in server.shown("lsps") for lsp in page["lsps"]]
    yield server.view().document("/api/lsps?from=18446744073709551615")["lsps"], []
    yield server.end(), ENDED


def the_page(program):
    """The page comes as it stands in the repository, and may load nothing from elsewhere."""
    server = ViewedServer(program)
    viewer = server.view()
    wanted = 200, text_fields("text/html; charset=utf-8", PAGE, **{"content-security-policy": POLICY}), PAGE
    yield viewer.get("/"), wanted
    yield viewer.get("/", host="localhost"), wanted
    yield viewer.get("/?"), wanted
    yield server.end(), ENDED


def without_a_body(program):
    """HEAD is answered as GET is, without the body; the next answer follows at once."""
    server = ViewedServer(program)
    viewer = server.view()
    for target in ("/", "/api/links", "/api/tickets", "/nothing", "/api/link"):
        status, fields, body = viewer.get(target)
        yield viewer.get(target, method="HEAD"), (status, fields, b"")
    yield viewer.get("/api/tickets")[2], b'{"tickets":[]}'
    yield server.end(), ENDED


CASES = [documents, places, pages, the_page, without_a_body]
