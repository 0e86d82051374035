"""The network of a script: who owns an address, which links a route has, and which paths there are."""
import re
from dataclasses import dataclass

NODE = re.compile(r'name="(\w+)", ?id="([\d.]+)"')
LINK = re.compile(
    r'from="(\w+)", ?to="(\w+)", ?local="([\d.]+)", ?remote="([\d.]+)", ?igp=(\d+), ?te=(\d+), ?colour=(\d+), ?reservable=(\d+)'
)
MOST_LINKS = 64


def address_of(text):
    return int.from_bytes(bytes(int(part) for part in text.split(".")), "big")


@dataclass(slots=True)
class Link:
    start: int
    end: int
    local: int
    remote: int
    igp: int
    te: int
    colour: int
    reservable: int

    def cost(self, metric):
        return {1: self.igp, 2: self.te, 3: 1}[metric]


class Network:
    """A link text that this program's own tests write: each node and link in one pair of braces."""

    def __init__(self, text):
        nodes = NODE.findall(text)
        place = {name: number for number, (name, _) in enumerate(nodes)}
        self.owner = {address_of(address): number for number, (_, address) in enumerate(nodes)}
        self.links = []
        for start, end, local, remote, *numbers in LINK.findall(text):
            link = Link(place[start], place[end], address_of(local), address_of(remote), *map(int, numbers))
            self.owner[link.local], self.owner[link.remote] = link.start, link.end
            self.links.append(link)

    def step(self, node, to, address, seen):
        """The link from a node to its neighbour: that of the address, else that of the local address seen, else the first."""
        between = [number for number, link in enumerate(self.links) if (link.start, link.end) == (node, to)]
        for chosen in (
            [number for number in between if self.links[number].remote == address],
            [number for number in between if self.links[number].local == seen],
            between,
        ):
            if chosen:
                return chosen[0]
        return None

    def walk(self, start, hops, end):
        """The links of a route, each once."""
        node, seen, links = self.owner.get(start), None, []
        if node is None:
            return ()
        for address in [*hops, end]:
            to = self.owner.get(address)
            if to is None:
                continue
            if to == node:
                seen = address
                continue
            link = self.step(node, to, address, seen)
            if link is not None and link not in links:
                links.append(link)
            node, seen = to, None
        return tuple(links)

    def simple_paths(self, source, destination):
        """Every path between two nodes that passes no node twice."""
        def onward(node, passed, links):
            if node == destination:
                yield tuple(links)
                return
            for number, link in enumerate(self.links):
                if link.start == node and link.end not in passed:
                    yield from onward(link.end, passed | {link.end}, [*links, number])

        return list(onward(source, {source}, []))

    def is_simple_path(self, links, source, destination):
        if not 1 <= len(links) <= MOST_LINKS or any(number >= len(self.links) for number in links):
            return False
        nodes = [source]
        for number in links:
            if self.links[number].start != nodes[-1]:
                return False
            nodes.append(self.links[number].end)
        return nodes[-1] == destination and len(set(nodes)) == len(nodes)

    def cost(self, links, metric):
        return sum(self.links[number].cost(metric) for number in links)
