"""The page of a server, in a browser."""
import atexit
import json
import tempfile
import urllib.error
import urllib.request

import pcep
from harness.browser import Browser
from harness.cases import ROOT
from harness.clock import comes
from harness.ports import free_port
from harness.router import Router
from harness.server import Server

from .network import GIGABIT

PICTURES = f"{ROOT}/tests/screenshots"
# without timers, so that a router may be silent for as long as the browser takes (RFC 5440 section 7.3)
OPEN = pcep.opening(0, 0)


class Page(Browser):
    """The page of a server that was started for it, with a router at each of the first addresses."""

    def __init__(self, program, network, routers):
        self.program, self.network, self.port = program, network, free_port()
        self.file = tempfile.NamedTemporaryFile("w", suffix=".toml")
        self.file.write(network.text)
        self.file.flush()
        self.server = self.started()
        self.routers = [Router(self.server, number + 1) for number in range(routers)]
        for router in self.routers:
            router.send(OPEN + pcep.KEEPALIVE)
            router.hear_of(2)
        super().__init__()

    def started(self):
        """A server of the network, at the same address each time, which grants nothing."""
        server = Server(self.program, "--endless", "--settle", "3600", "--http", f"127.0.0.1:{self.port}", te=self.file.name)
        # (it goes on from case to case)
        Server.begun.remove(server)
        atexit.register(server.kill)
        return server

    def fetch(self, path):
        """The status, the kind and the text that the server answers."""
        try:
            with urllib.request.urlopen(f"http://127.0.0.1:{self.port}{path}", timeout=60) as answer:
                return answer.status, answer.headers["content-type"], answer.read().decode()
        except urllib.error.HTTPError as fault:
            return fault.code, fault.headers["content-type"], fault.read().decode()

    def has(self, **counts):
        """Whether the server soon has these counts."""
        def is_counted():
            status = json.loads(self.fetch("/api/status")[2])
            return all(status[name] == count for name, count in counts.items())

        return comes(is_counted)

    def load(self):
        return self.open(f"http://127.0.0.1:{self.port}/") and self.waits_for("status !== null && spots.length > 0 && drawnMs > 0")

    def text(self, element):
        return self.run(f"document.getElementById({element!r}).innerText")

    def rows(self):
        return self.run("[...document.querySelectorAll('#table tbody tr')].map(row => [...row.cells].map(cell => cell.innerText.trim()))")

    def tab(self, name):
        self.run(f"document.getElementById('tab-{name}').click()")

    def place(self, link, part=0.5, out=0):
        """Where in the window a part of a link is drawn."""
        x, y = self.run(f"(() => {{ const l = layout().lines[{link}]; return [l.x1 + (l.x2 - l.x1) * {part} - l.dy * {out},"
                        f" l.y1 + (l.y2 - l.y1) * {part} + l.dx * {out}]; }})()")
        left, top = self.run("(() => { const box = map.getBoundingClientRect(); return [box.left, box.top]; })()")
        return left + x, top + y

    def colour(self, link, part=0.5, out=0):
        """The colour there."""
        return self.run(f"(() => {{ draw(); const l = layout().lines[{link}], x = l.x1 + (l.x2 - l.x1) * {part} - l.dy * {out},"
                        f" y = l.y1 + (l.y2 - l.y1) * {part} + l.dx * {out};"
                        " return [...pen.getImageData(Math.round(x), Math.round(y), 1, 1).data].slice(0, 3); })()")

    def colours(self, link):
        """The colours along the link's middle, of which dashes leave some out."""
        return [tuple(self.colour(link, part / 40)) for part in range(12, 27)]

    def named(self, name):
        """The colour of a name in the style."""
        return tuple(int(part) for part in self.run(f"getComputedStyle(document.documentElement).getPropertyValue({name!r})").strip()[4:-1].split())

    def end(self):
        super().end()
        self.server.kill()


def filled(page):
    """Reports of paths over Abilene: two of one tunnel, one that overbooks, names that are HTML and no UTF-8."""
    network, send = page.network, lambda router, data: page.routers[router].send(data)
    over = network.over
    east = "Denver", "KansasCity", "Indianapolis", "Chicago", "NewYork"
    send(0, network.report(1, b"sea-nyc", over("Seattle", *east), 6.0 * GIGABIT, 3, 3))
    send(0, network.report(1, b"sea-nyc", over("Seattle", "Sunnyvale", *east), 4.0 * GIGABIT, 3, 3, lsp_id=2))
    send(1, network.report(2, b"svl-nyc", over("Sunnyvale", *east), 2.0 * GIGABIT, 2, 0))
    send(2, network.report(3, b"lax-wdc", over("LosAngeles", "Houston", "Atlanta", "Washington"), 4.0 * GIGABIT, 7, 1))
    send(5, network.report(4, b"hou-chi", over("Houston", "KansasCity", "Indianapolis", "Chicago"), 5.0 * GIGABIT))
    send(10, network.report(5, b"<b>nyc-wdc</b>", over("NewYork", "Washington"), 9.5 * GIGABIT, flags=0x19))
    send(9, network.report(6, b"\xff\xfe", over("Washington", "NewYork"), 0.05 * GIGABIT))
    send(6, network.report(7, b"chi-nyc", [28], 3.0 * GIGABIT))
    for number, router in enumerate(page.routers):
        if number != 3:
            router.send(pcep.END_OF_SYNC)
    send(0, pcep.message(pcep.PCREQ, pcep.rp(9), pcep.end_points("127.0.1.1", "127.0.1.9"), pcep.bandwidth(GIGABIT, pcep.MUST)))
    page.has(sessions_up=11, lsps=7, paths=8, tickets=1)


def ask(page, start, end, rate, limits=""):
    page.run(f"$('ask-from').value = {start!r}; $('ask-to').value = {end!r}; $('ask-rate').value = {rate!r}; $('ask-limits').value = {limits!r}; "
             "$('ask').requestSubmit()")
    page.waits_for("chosen.answer || chosen.fault")
    return page.text("chosen")
