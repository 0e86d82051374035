"""What is right and wrong in a request."""
import socket
import subprocess
import time

from harness.ports import free_port
from harness.server import ENDED, TE, ViewedServer

from .answers import PAGE, refused


def refusals(program):
    """What is not there, is not read, or is wrong in a request, in words; the connection is kept, and nothing changes."""
    server = ViewedServer(program)
    viewer = server.view()
    for target in ("/index.html", "/api", "/api/", "/api/lsp", "/API/status", "//", "/api/status/", "/%2e"):
        yield viewer.get(target), refused(404, "not found")
    for method in ("POST", "PUT", "DELETE", "OPTIONS", "PATCH", "get"):
        for target in ("/", "/api/links", "/metrics", "/api/path?x"):
            yield viewer.get(target, method=method), refused(405, "method not allowed", allow="GET, HEAD")
        yield viewer.get("/nothing", method=method), refused(404, "not found")
    for words, targets in {
        "bad query": ["/?x", "/metrics?x=1", "/api/status?a=1", "/api/links?number=1", "/api/lsps?peers=1.2.3.4", "/api/grants?x=1", "/api/lsps?x", "/api/path?from",
                      "/api/link?=1", "/api/lsps?PEER=1.2.3.4", "/api/link?number=0&x=1"],
        "bad peer": ["/api/lsps?peer=1", "/api/lsps?peer=", "/api/lsps?peer=10.0.0.256", "/api/lsps?peer=10.0.0.1&peer=10.0.0.1"],
        "bad from": ["/api/lsps?from=x", "/api/lsps?from=-1", "/api/lsps?from=+1", "/api/lsps?from=18446744073709551616", "/api/lsps?from=0&from=0",
                     "/api/path", "/api/path?from=1&to=10.0.0.4&bandwidth=1", "/api/path?to=10.0.0.4&bandwidth=1"],
        "bad to": ["/api/path?from=10.0.0.1", "/api/path?from=10.0.0.1&to=B&bandwidth=1"],
        "bad bandwidth": ["/api/path?from=10.0.0.1&to=10.0.0.4", "/api/path?bandwidth=281474976710656", "/api/path?bandwidth=1.5", "/api/path?bandwidth=1%30"],
        "bad setup": ["/api/path?setup=8", "/api/path?setup="],
        "bad hold": ["/api/path?hold=7&hold=7", "/api/path?hold=00000000000000000008"],
        "bad number": ["/api/link", "/api/link?number=", "/api/link?number=1&number=1", "/api/link?number=0x1"],
    }.items():
        for target in targets:
            yield (target, viewer.get(target)), (target, refused(400, words))
    yield viewer.document("/api/status")["steps"], 0
    yield server.end(), ENDED


def hosts(program):
    """A request names the server by an address or as localhost. Whoever else's name leads here learns nothing."""
    server = ViewedServer(program)
    viewer = server.view()
    for host in ("127.0.0.1", f"127.0.0.1:{server.http}", "localhost", "localhost:80", "LOCALHOST", "LocalHost:80", "192.0.2.7:1", "[::1]", "[::1]:8080"):
        yield (host, viewer.get("/api/tickets", host=host)[0]), (host, 200)
    for host in ("pce.example", "pce.example:8080", "localhost.example", "127.0.0.1.example", "127.0.0.256", "127.1", "1", "LOCALHOSTS", "a"):
        for target in ("/", "/api/tickets", "/nothing"):
            yield (host, viewer.get(target, host=host)), (host, refused(400, "bad host"))
    # the host of an absolute target counts, whatever Host says (RFC 9112 section 3.2.2)
    for host, named, status in (("pce.example", "localhost", 400), ("127.0.0.1", "pce.example", 200), ("LOCALHOST:80", "localhost", 200)):
        yield (host, viewer.get(f"http://{host}/api/tickets", host=named)[0]), (host, status)
    viewer.send(b"GET / HTTP/1.0\r\n\r\n")
    status, fields, body = viewer.answer()
    yield (status, body, viewer.has_ended()), (400, b"bad host\n", True)
    for head in (b"GET / HTTP/1.1\r\n\r\n", b"GET / HTTP/1.1\r\nHost: a b\r\n\r\n", b"GET / HTTP/1.1\r\nHost: [::x]\r\n\r\n"):
        viewer = server.view()
        viewer.send(head)
        yield viewer.answer()[::2], (400, b"")
        yield viewer.has_ended(), True
    yield server.end(), ENDED


def a_name(program):
    """With `--http-name` a request may name the server by that name too, in any case of letters, and by no other."""
    server = ViewedServer(program, "--endless", "--http-name", "Pce.Example")
    viewer = server.view()
    for host in ("pce.example", "PCE.EXAMPLE:8080", "Pce.Example", "127.0.0.1", "localhost"):
        yield (host, viewer.get("/api/tickets", host=host)[0]), (host, 200)
    for host in ("pce.example.", "pce", "example", "a.pce.example", "pce.example.org", "pce-example", "192.0.2"):
        yield (host, viewer.get("/api/tickets", host=host)), (host, refused(400, "bad host"))
    for host, named, status in (("pce.example", "localhost", 200), ("other.example", "pce.example", 400)):
        yield (host, viewer.get(f"http://{host}/api/tickets", host=named)[0]), (host, status)
    yield server.end(), ENDED
    server = ViewedServer(program)
    viewer = server.view()
    yield viewer.get("/api/tickets", host="pce.example"), refused(400, "bad host")
    viewer.send(b"GET /api/tickets HTTP/1.1\r\nHost:\r\n\r\n")
    yield viewer.answer()[0], 400
    yield server.end(), ENDED


def what_is_too_long(program):
    """Heads have 8 KB and 64 fields at most, and no request has a body. What breaks that is answered, and closed."""
    server = ViewedServer(program)
    for text, status in (
        (b"GET / HTTP/1.1\r\nHost: 127.0.0.1\r\nX: " + b"x" * 8192, 431),
        (b"GET / HTTP/1.1\r\nHost: 127.0.0.1\r\n" + b"X: x\r\n" * 64 + b"\r\n", 431),
        (b"GET /" + b"x" * 8192, 414),
        (b"GET / HTTP/1.1\r\nHost: 127.0.0.1\r\nContent-Length: 1\r\n\r\n", 413),
        (b"POST /api/links HTTP/1.1\r\nHost: 127.0.0.1\r\nTransfer-Encoding: chunked\r\n\r\n1\r\nx\r\n0\r\n\r\n", 413),
        (b"GET / HTTP/1.1\r\nHost: 127.0.0.1\r\nTransfer-Encoding: gzip, chunked\r\n\r\n", 501),
        (b"hello\r\n\r\n", 400), (b"\x16\x03\x01\x02\x00\x01\x00\x01\xfc\x03\x03\r\n\r\n", 400),
    ):
        viewer = server.view()
        viewer.send(text)
        heard = viewer.answer()
        yield (text[:20], heard and heard[0], viewer.has_ended()), (text[:20], status, True)
    viewer = server.view()
    yield viewer.get("/api/tickets", more="X: x\r\n" * 62 + f"Y: {'y' * 7000}\r\n")[0], 200
    yield server.end(), ENDED


def pipelines(program):
    """Requests that come at once, or in pieces, are answered one after another, in their order."""
    server = ViewedServer(program)
    viewer = server.view()
    targets = ["/api/tickets", "/nothing", "/api/link?number=9", "/api/lsps", "/"] * 12
    for target in targets:
        viewer.ask(target)
    came = [viewer.answer() for _ in targets]
    yield [(status, body[:10]) for status, _, body in came], [
        (200, b'{"tickets"'), (404, b"not found\n"), (200, b"null"), (200, b'{"from":0,'), (200, PAGE[:10])] * 12
    viewer = server.view()
    request = b"GET /api/link?number=9 HTTP/1.1\r\nHost: 127.0.0.1\r\n\r\n"
    for start in range(0, len(request), 5):
        viewer.send(request[start:start + 5])
        time.sleep(0.002)
    yield viewer.answer()[2], b"null"
    viewer.ask("/api/tickets", more="Connection: close\r\n")
    yield viewer.answer()[1].get("connection"), "close"
    yield viewer.has_ended(), True
    yield server.end(), ENDED


def serve_once(program, *words):
    ran = subprocess.run([program, "serve", "--te", TE, *words], stdin=subprocess.DEVNULL, capture_output=True, timeout=30)
    return ran.stdout, ran.stderr, ran.returncode


def in_use(place):
    """What is said of a place where another listens."""
    return f"cannot listen on {place}: Address already in use (os error 98)\ndevice fault\n".encode()


def where_viewers_connect(program):
    """Viewers connect to an address that is written out. A port that is taken is a fault before any router is served."""
    for word in (":8080", "8080", "127.0.0.1", "127.0.0.1:", "127.0.0.1:65536", "localhost:8080", "[::1]:8080", "127.0.0.1:80 ", ""):
        yield (word, serve_once(program, "--listen", "127.0.0.1:0", "--http", word)), (word, (b"", f"--http {word}: not ADDR:PORT, as 192.0.2.1:4189\nbad argument\n".encode(), 2))
    with socket.create_server(("127.0.0.1", 0)) as taken:
        place = f"127.0.0.1:{taken.getsockname()[1]}"
        yield serve_once(program, "--listen", "127.0.0.1:0", "--http", place), (b"", in_use(place), 3)
    port = free_port()
    yield serve_once(program, "--listen", f"127.0.0.1:{port}", "--http", f"127.0.0.1:{port}"), (b"", in_use(f"127.0.0.1:{port}"), 3)


CASES = [refusals, hosts, a_name, what_is_too_long, pipelines, where_viewers_connect]
