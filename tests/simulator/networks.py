"""Networks drawn at random: few nodes, parallel links, colours, metrics, and links that bear little."""

from .network import Link, Network, address

RESERVABLE = (300_000, 500_000, 700_000, 1_000_000, 1_000_000, 1_000_000, 2_000_000, 4_000_000)
GREATEST = 281_474_976_710_655


def draw_metric(draw):
    """Mostly a small one, so that costs are often equal."""
    return draw.randint(1, 16_777_215) if draw.random() < 0.03 else draw.randint(1, 9)


def draw_reservable(draw, load):
    """Enough for some of the load; at times nothing, or all."""
    chance = draw.random()
    return 0 if chance < 0.03 else GREATEST if chance < 0.06 else int(load * draw.choice(RESERVABLE))


def draw_link(draw, number, nodes, load):
    start, end = draw.sample(range(nodes), 2)
    local = address("11.0.0.1") + (number << 8)
    colour = draw.randrange(8) if draw.random() < 0.6 else 0
    return Link(start, end, local, local + 1, draw_metric(draw), draw_metric(draw), colour, draw_reservable(draw, load))


def draw_network(draw, nodes, links, load=1):
    named = [(f"n{node}", address("10.0.0.1") + node) for node in range(nodes)]
    drawn = []
    for number in range(links):
        link = draw_link(draw, number, nodes, load)
        if drawn and draw.random() < 0.25:
            twin = draw.choice(drawn)
            link = Link(twin.start, twin.end, link.local, link.remote, link.igp, link.te, link.colour, link.reservable)
        drawn.append(link)
    return Network(named, drawn)
