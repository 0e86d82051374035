"""How the page is used, what it asks for, and how it follows the server."""
import re
import shutil
import subprocess

from .network import GIGABIT
from .page import PICTURES, ask


def renewal(page):
    """A new path is shown within some seconds, in the rows that stand, and what is written in a field stays."""
    page.run("window.kept = [...document.querySelectorAll('#table tbody tr')]; $('find').focus()")
    page.routers[4].send(page.network.report(8, b"kan-hou", page.network.over("KansasCity", "Houston"), 8.0 * GIGABIT))
    yield page.waits_for("document.querySelectorAll('#table tbody tr')[12].cells[3].innerText.trim() === '80 %'"), True
    yield page.run("kept.length === 30 && kept.every((row, n) => row === document.querySelectorAll('#table tbody tr')[n])"), True
    yield page.run("document.activeElement.id"), "find"
    page.tab("peers")
    before = page.rows()[0][8]
    yield page.waits_for(f"document.querySelector('#table tbody tr').cells[8].innerText !== {before!r}"), True
    page.tab("links")


def keys(page):
    """All is reached by keys: the map moves, tabs change, a row is chosen."""
    page.run("map.focus()")
    before = page.run("[view.x, view.scale]")
    page.press("ArrowLeft")
    page.press("+", "+")
    after = page.run("[view.x, view.scale]")
    yield (after[0] != before[0], after[1] > before[1]), (True, True)
    page.press("0", "0")
    yield page.run("view.scale") == before[1], True
    page.run("document.getElementById('tab-links').focus()")
    page.press("ArrowRight")
    yield page.run("[tab.id, document.activeElement.id]"), ["lsps", "tab-lsps"]
    page.press("ArrowLeft")
    page.run("document.querySelectorAll('#table tbody button')[5].focus()")
    page.press("Enter")
    yield page.run("[chosen.kind, chosen.number]"), ["link", 5]
    yield page.run("document.querySelector('#table tr[aria-current=true] button').innerText"), "5"
    for _ in range(60):
        page.press("Tab")
        if page.run("document.activeElement.id") == "map":
            break
    yield page.run("document.activeElement.id"), "map"
    page.run("choose({kind: 'nothing'})")


def light_and_dark(page):
    """The page follows the scheme that is preferred, with enough contrast in both."""
    grounds = []
    for scheme in "light", "dark":
        page.prefers(scheme)
        page.waits_for("draw() || true")
        grounds.append(page.run("getComputedStyle(document.body).backgroundColor"))
        light, dark = sorted((luminance(page.named("--ink")), luminance(page.named("--panel"))), reverse=True)
        yield (light + 0.05) / (dark + 0.05) >= 7, True
        for b in range(1, 6):
            light, dark = sorted((luminance(page.named(f"--load{b}")), luminance(page.named("--panel"))), reverse=True)
            yield (scheme, b, (light + 0.05) / (dark + 0.05) >= 2.2), (scheme, b, True)
        page.picture(f"{PICTURES}/{scheme}.png")
    page.prefers("light")
    page.size(1280, 800)
    ask(page, "Seattle", "NewYork", "3.5Gbit")
    page.run("choose({kind: 'link', number: 14})")
    page.waits_for("chosen.use && !isAsked")
    page.picture(f"{PICTURES}/small.png")
    page.run("choose({kind: 'nothing'})")
    yield grounds[0] != grounds[1], True
    page.prefers("light")
    page.size(420, 900)
    page.picture(f"{PICTURES}/narrow.png")
    yield page.run("document.documentElement.scrollWidth <= 420"), True
    page.size(1400, 1000)


def luminance(colour):
    """Of WCAG 2.1."""
    parts = [part / 255 for part in colour]
    parts = [part / 12.92 if part <= 0.03928 else ((part + 0.055) / 1.055) ** 2.4 for part in parts]
    return 0.2126 * parts[0] + 0.7152 * parts[1] + 0.0722 * parts[2]


def a_server_that_comes_again(page):
    """A server that is gone is named; one that comes again is shown, with what it then has."""
    page.server.kill()
    yield page.waits_for("$('fault').innerText.startsWith('Not renewed: ')"), True
    page.server = page.started()
    yield page.waits_for("$('fault').innerText === '' && status.sessions_up === 0"), True
    yield [row[3] for row in page.rows()], ["0 %"] * 30


def what_the_browser_says(page):
    """Nothing outside the server is asked for, by one connection at a time; no script fails; headers protect."""
    asked = [event["params"]["request"]["url"] for event in page.events if event["method"] == "Network.requestWillBeSent"]
    outside = [address for address in asked if not address.startswith(f"http://127.0.0.1:{page.port}/")]
    yield outside, []
    under_way, together = {}, []
    for event in page.events:
        if event["method"] == "Network.requestWillBeSent" and "/api/" in event["params"]["request"]["url"]:
            under_way[event["params"]["requestId"]] = event["params"]["request"]["url"]
            together += [list(under_way.values())] * (len(under_way) > 1)
        elif event["method"] in ("Network.loadingFinished", "Network.loadingFailed"):
            under_way.pop(event["params"]["requestId"], None)
    yield together, []
    faults = [event["params"] for event in page.events if event["method"] in ("Runtime.exceptionThrown", "Log.entryAdded")]
    yield [entry for entry in faults if "400 (Bad Request)" not in str(entry) and "getImageData" not in str(entry)], []
    heads = [event["params"]["response"]["headers"] for event in page.events if event["method"] == "Network.responseReceived"]
    first = {name.lower(): value for name, value in heads[0].items()}
    policy = first.get("content-security-policy", "").split("; ")
    yield [part for part in ("default-src 'none'", "script-src 'unsafe-inline'", "style-src 'unsafe-inline'", "connect-src 'self'") if part not in policy], []
    yield [first.get("cache-control"), first.get("x-content-type-options")], ["no-store", "nosniff"]


def metrics(page):
    """What Prometheus scrapes is of its form (Debian: apt-get install prometheus)."""
    status, kind, text = page.fetch("/metrics")
    yield (status, kind.split("; ")[:2]), (200, ["text/plain", "version=0.0.4"])
    if shutil.which("promtool"):
        ran = subprocess.run(["promtool", "check", "metrics"], input=text.encode(), capture_output=True)
        yield (ran.returncode, ran.stdout + ran.stderr), (0, b"")
    numbers = dict(re.findall(r'^pced_link_info\{link="(\d+)",([^}]*)\} 1$', text, re.M))
    rows = dict(re.findall(r'^pced_link_unreserved_bytes_per_second\{([^}]*),priority="7"\} (\S+)$', text, re.M))
    yield {int(link): int(rows[ends]) for link, ends in numbers.items()}, {
        link: int(page.network.links[link]["reservable"] - page.network.reserved(link, 7)) for link in range(30)}


CASES = [light_and_dark, renewal, keys, what_the_browser_says, metrics, a_server_that_comes_again]
