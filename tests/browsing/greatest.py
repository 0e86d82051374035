"""The page of the greatest network."""
import random
import time

import pcep
from harness.grid import SIDE, beside

from .page import PICTURES


def the_greatest_network(page):
    """1,024 nodes and 4,096 links are laid out, drawn within 100 ms, and have their rows, as have 16,384 LSPs."""
    chance, network = random.Random(7), page.network
    for number, router in enumerate(page.routers):
        said = b""
        for plsp in range(1, 257):
            way, node = [], chance.randrange(SIDE * SIDE)
            for _ in range(chance.randrange(2, 12)):
                leaving = chance.choice((0, 2))
                way.append(4 * node + leaving)
                node = beside(node, leaving)
            said += network.report(number * 256 + plsp, b"lsp-%d-%d" % (number, plsp), list(dict.fromkeys(way)), chance.choice((5e6, 1e7, 4e7)), hold=chance.randrange(8))
        router.send(said + pcep.END_OF_SYNC)
    yield page.has(sessions_up=64, lsps=16384), True
    yield page.load(), True
    page.waits_for("(draw(), pen.getImageData(0, 0, 1, 1), true)")
    time.sleep(4)
    times = page.run("Array.from({length: 20}, () => { const began = performance.now(); draw(); pen.getImageData(0, 0, 1, 1); return performance.now() - began; })")
    print(f"      a drawing: least {min(times):.1f} ms, middle {sorted(times)[10]:.1f} ms")
    yield min(times) < 100, True
    wide, high = page.run("(() => { const b = box(spots); return [b[2] - b[0], b[3] - b[1]]; })()")
    yield 0.3 < wide / high < 3, True
    yield page.run("new Set(spots.map(spot => spot.map(part => part.toFixed(2)).join())).size") > 1000, True
    for scheme in "dark", "light":
        page.prefers(scheme)
        page.picture(f"{PICTURES}/greatest-{scheme}.png")
    yield page.text("place"), "1 to 50 of 4096"
    page.run("$('find').value = '4095'; $('find').oninput()")
    yield [row[:3] for row in page.rows()][:1], [["4095", "n1023", network.links[4095]["to"]]]
    page.run("document.querySelector('#table tbody tr').click()")
    yield page.waits_for("chosen.use"), True
    yield "Link 4095: n1023" in page.text("chosen"), True
    page.run("$('find').value = ''; $('find').oninput()")
    page.tab("lsps")
    yield page.waits_for("lsps.at !== null"), True
    yield page.text("place"), "1 to 50 of 16384"
    page.run("$('on').click()")
    yield page.text("place"), "51 to 100 of 16384"
    times = page.run("[6, 2].map(by => { const began = performance.now(); sortBy(by); return performance.now() - began; })")
    print(f"      16,384 LSPs in the order of bandwidths and of names: {times[0]:.0f} ms, {times[1]:.0f} ms")
    yield page.rows()[0][2], "lsp-0-1"
    page.run("$('find').value = 'lsp-3-17'; $('find').oninput()")
    page.run("document.querySelector('#table tbody tr').click()")
    yield page.waits_for("chosen.lsp && marked()[0].length > 0"), True
    page.run("showMarked()")
    time.sleep(0.5)
    page.picture(f"{PICTURES}/greatest-path.png")


CASES = [the_greatest_network]
