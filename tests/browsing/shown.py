"""What the page shows of Abilene."""
import re

from .network import band, percent
from .page import PICTURES, ask


def words_of_the_page(page):
    """The head counts what there is, and the map says its loads in words."""
    said = page.text("status")
    yield [word in said for word in ("11 sessions up", "7 LSPs", "8 paths", "1 ticket,")], [True] * 4
    at = [sum(band(page.network.share(link, 7)) == b for link in range(30)) for b in range(6)]
    said = page.run("map.getAttribute('aria-label')")
    yield said.startswith("Network of 11 nodes and 30 links. Reserved at priority 7: "), True
    yield f"{at[5]} links more than there is" in said, True
    yield [line.rsplit(": ", 1)[1] for line in page.text("legend").splitlines()], [str(number) for number in at]


def links_in_a_table(page):
    """Each link has a row with its ends and what is reserved, sought by words and sorted by a head."""
    links = page.network.links
    rows = page.rows()
    yield [row[:4] for row in rows], [[str(n), link["from"], link["to"], percent(page.network.share(n, 7))] for n, link in enumerate(links)]
    yield [row[4] for row in rows if row[0] in ("14", "0")], ["6.00 Gbit/s", "-3.00 Gbit/s"]
    page.run("$('find').value = 'chicago newyork'; $('find').oninput()")
    yield [row[0] for row in page.rows()], ["22", "23", "28", "29"]
    page.run("$('find').value = ''; $('find').oninput()")
    page.run("[...document.querySelectorAll('th button')].find(head => head.innerText.startsWith('Reserved')).click()")
    yield page.rows()[0][0], "14"
    yield page.run("document.querySelector('th[aria-sort=descending]').innerText"), "Reserved \u25bc"
    page.run("[...document.querySelectorAll('th button')].find(head => head.innerText.startsWith('Link')).click()")


def colours_of_links(page):
    """A link has the colour of its share, each direction and each parallel link its own, at each priority."""
    for priority in (7, 0):
        page.run(f"$('priority').value = {priority}; $('priority').onchange()")
        for link in (0, 2, 10, 11, 14, 16, 22, 23, 26, 27, 28, 29):
            wanted = page.named(f"--load{band(page.network.share(link, priority))}")
            yield (link, priority, wanted in page.colours(link)), (link, priority, True)
        rows = page.rows()
        yield [row[3] for row in rows], [percent(page.network.share(link, priority)) for link in range(30)]
    page.run("$('priority').value = 7; $('priority').onchange()")


def a_click_on_a_link(page):
    """A click on a link shows its numbers and the tunnels on it, and the pointer over it says what is reserved."""
    page.click(*page.place(14))
    yield page.waits_for("chosen.use"), True
    said = page.text("chosen")
    yield "Link 14: KansasCity \u2192 Indianapolis" in said, True
    yield "10.0 Gbit/s (1250000000 bytes/s)" in said, True
    table = page.run("[...document.querySelectorAll('#chosen table')].map(table => [...table.tBodies[0].rows].map(row => [...row.cells].map(cell => cell.innerText)))")
    yield [int(row[3]) for row in table[0]], [1250000000 - int(page.network.reserved(14, p)) for p in range(8)]
    yield sorted((row[0], row[1], row[3], row[4]) for row in table[1]), sorted(
        (f"127.0.1.{router}", f"PLSP-ID {plsp}", hold, rate) for router, plsp, hold, rate in
        ((1, 1, "3", "6.00 Gbit/s"), (2, 2, "0", "2.00 Gbit/s"), (6, 4, "7", "5.00 Gbit/s")))
    yield page.colour(14, 0.2, 5) != page.colour(10, 0.2, 5), True
    page.picture(f"{PICTURES}/link.png")
    x, y = page.place(14)
    page.point(x, y)
    yield page.text("hint"), "Link 14, KansasCity \u2192 Indianapolis: 130 % reserved at priority 7"
    page.point(5, 5)
    page.run("choose({kind: 'nothing'})")


def lsps_in_a_table(page):
    """LSPs have rows, with names as texts; one that is chosen is drawn and named with its links."""
    page.tab("lsps")
    yield page.waits_for("lsps.at !== null && document.querySelectorAll('#table tbody tr').length === 7"), True
    names = [row[2] for row in page.rows()]
    yield sorted(names), sorted(["sea-nyc", "svl-nyc", "lax-wdc", "hou-chi", "<b>nyc-wdc</b>", "0xfffe", "chi-nyc"])
    yield page.run("document.querySelectorAll('b').length"), 0
    page.run("$('find').value = 'LAX'; $('find').oninput()")
    yield [row[:3] for row in page.rows()], [["3", "127.0.1.3", "lax-wdc"]]
    before = page.colour(8, 0.4, 5)
    page.run("document.querySelector('#table tbody tr').click()")
    page.waits_for("chosen.lsp")
    yield page.colour(8, 0.4, 5) != before, True
    yield page.run("marked()[0]"), page.network.over("LosAngeles", "Houston", "Atlanta", "Washington")
    said = page.text("chosen")
    yield ["LSP lax-wdc of 127.0.1.3" in said, "7 setup, 1 holding" in said, "LosAngeles" in said], [True] * 3
    page.run("$('find').value = ''; $('find').oninput()")
    page.run("$('router').value = '127.0.1.1'; $('router').onchange()")
    yield page.waits_for("document.querySelectorAll('#table tbody tr').length === 1"), True
    page.run("$('router').value = ''; $('router').onchange()")
    page.waits_for("document.querySelectorAll('#table tbody tr').length === 7")


def sessions_and_tickets(page):
    """Sessions and tickets have rows, and grants if there are any."""
    page.tab("peers")
    rows = {row[0]: row for row in page.rows()}
    yield len(rows), 11
    yield [rows[f"127.0.1.{number}"][1] for number in (1, 4)], ["up", "synchronizing"]
    yield [rows["127.0.1.11"][6:8], rows["127.0.1.1"][6:8]], [["1", "1"], ["1", "0"]]
    yield [re.fullmatch(r"0 d 00:\d\d:\d\d", rows["127.0.1.1"][8]) is not None, rows["127.0.1.1"][9]], [True, "-"]
    page.tab("tickets")
    yield [row[1:7] for row in page.rows()], [["127.0.1.1", "answer", "request 9", "Seattle", "Atlanta", "1.00 Gbit/s"]]
    page.tab("grants")
    yield page.rows(), [["There are none."]]
    page.tab("links")


def what_if(page):
    """What a path would be is shown and drawn, or why there is none, or what is wrong with the question, in the words of operators."""
    said = ask(page, "Seattle", "NewYork", "3.5Gbit")
    way = page.network.over("Seattle", "Sunnyvale", "LosAngeles", "Houston", "Atlanta", "Washington", "NewYork")
    yield ["A path of cost 5375" in said, "Least is left on link 0, Seattle \u2192 Sunnyvale: 6.00 Gbit/s." in said], [True, True]
    yield page.run("marked()"), [way, []]
    said = ask(page, "127.0.1.1", "Houston", "9000Mbit")
    yield ["There is no path. No path has enough bandwidth left." in said, "Without that, a path of cost 3120" in said], [True, True]
    yield page.run("marked()"), [[], page.network.over("Seattle", "Sunnyvale", "LosAngeles", "Houston")]
    page.picture(f"{PICTURES}/what-if.png")
    said = ask(page, "Seattle", "NewYork", "437500000", "metric=igp  max-hops=3")
    yield ["3.50 Gbit/s (437500000 bytes/s), priorities 7 and 7, metric=igp, max-hops=3. Nothing is booked." in said, "There is no path. Each path costs more than the bound." in said], [True, True]
    for words in (("Nowhere", "Houston", "1Gbit"), ("Seattle", "Houston", "1 Gbit"), ("Seattle", "Houston", "1Gbit", "max-hops"), ("Seattle", "Houston", "1Gbit", "cost=3")):
        yield (words, "The server answers: " in ask(page, *words)), (words, True)
    page.run("choose({kind: 'nothing'})")


CASES = [words_of_the_page, links_in_a_table, colours_of_links, a_click_on_a_link, lsps_in_a_table, sessions_and_tickets, what_if]
