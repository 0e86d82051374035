"""Tunnels on many links, and links with many tunnels."""
from .network import MOST, network, report, reports, update
from .routes import widest
from .scripts import LINKS, NODES, PATHS, Script, batches, limit, pair


@limit("one tunnel on 4,096 links, which fits once more beside itself")
def _():
    links = widest()
    script = Script(network(NODES, links))
    script.comes_up(1)
    for plsp in range(1, 513):
        over = range(8 * plsp - 8, 8 * plsp)
        hops = [(links[n][0], n) for n in over]  # each link behind the node at which it begins
        script.does(f"report 1 {reports([report(plsp, hops, (hops[0][0], 5), tunnel=7, bandwidth=600_000)])}", "booked")
    script.shows({link: 600_000 for link in range(LINKS)}, LINKS)
    script.does(f"report 1 {reports([report(600, [], (0, 5), tunnel=7, bandwidth=MOST, flags=0x09)])}", "booked wants")
    script.does("update 1 600", "asked 1")
    script.does("take", "job 1 0,1,2,3,4")
    script.does("commit 1 0,1,2,3,4", "granted 1", f"out 1 {update(1, 600, range(5), MOST)}")
    script.shows({link: MOST if link < 5 else 600_000 for link in range(LINKS)}, LINKS)
    for plsp in range(1, 513):
        script.does(f"report 1 {reports([report(plsp, [], (links[8 * plsp - 8][0], 5), tunnel=7, flags=4)])}", "booked")
    script.shows({link: MOST for link in range(5)}, LINKS)
    return script


@limit("16,384 paths of one tunnel on one link, which go the greatest first")
def _():
    script = Script(pair())
    script.comes_up(1)
    for text in batches(PATHS, lambda n: report(n, [0], tunnel=7, bandwidth=n, hold=n % 8)):
        script.does(f"msg 1 {text}")
    stand = list(range(1, PATHS + 1))
    for left in (PATHS, 8_192, 100, 4, 3, 2, 1, 0):
        gone = [report(n, [], tunnel=7, flags=4) for n in reversed(stand[left:])]
        for first in range(0, len(gone), 40):
            script.does(f"msg 1 {reports(gone[first:first + 40])}")
        del stand[left:]
        most = [max((n for n in stand if n % 8 <= priority), default=0) for priority in range(8)]
        script.does("book", "link 0" + "".join(f" {MOST - held}" for held in most), f"link 1{f' {MOST}' * 8}")
    return script


@limit("four paths of one tunnel on one link, of which one goes and comes again")
def _():
    script = Script(pair())
    for n, bandwidth, held in ((1, 500, 500), (2, 700, 700), (3, 600, 700), (4, 800, 800), (4, 0, 700), (4, 900, 900), (5, 100, 900)):
        script.does(f"report 1 {reports([report(n, [0], tunnel=7, bandwidth=bandwidth, flags=0x18 if bandwidth else 4)])}", "booked")
        script.shows({0: held}, 2)
    return script


@limit("300 tunnels on one link, and 16,384 on one")
def _():
    script = Script(pair())
    for n in range(1, 301):
        script.does(f"report 1 {reports([report(n, [0], bandwidth=10)])}", "booked")
    script.shows({0: 3000}, 2)
    for first in range(301, PATHS + 1, 40):
        last = min(first + 40, PATHS + 1)
        script.does(f"report 1 {reports(report(n, [0], bandwidth=10) for n in range(first, last))}", *["booked"] * (last - first))
    script.shows({0: 10 * PATHS}, 2)
    return script
