"""A network: its link text, who owns which address, the links of a route, and all simple paths."""

import tomllib
from dataclasses import dataclass

IGP, TE, HOPS = 1, 2, 3


@dataclass(frozen=True)
class Link:
    start: int
    end: int
    local: int
    remote: int
    igp: int
    te: int
    colour: int
    reservable: int

    def metric(self, kind):
        return {IGP: self.igp, TE: self.te, HOPS: 1}[kind]


def address(text):
    first, second, third, fourth = (int(part) for part in text.split("."))
    return first << 24 | second << 16 | third << 8 | fourth


def dotted(number):
    return ".".join(str(number >> shift & 0xFF) for shift in (24, 16, 8, 0))


class Network:
    def __init__(self, nodes, links):
        """Nodes are pairs of a name and an address."""
        self.nodes, self.links = nodes, links
        self.owners = {number: node for node, (_, number) in enumerate(nodes)}
        for link in links:
            self.owners[link.local] = link.start
            self.owners[link.remote] = link.end
        self.known_paths = {}

    @staticmethod
    def of_text(text):
        tree = tomllib.loads(text)
        nodes = [(node["name"], address(node["id"])) for node in tree.get("node", [])]
        places = {name: node for node, (name, _) in enumerate(nodes)}
        return Network(nodes, [link_of(row, places) for row in tree.get("link", [])])

    def text(self):
        for name, number in self.nodes:
            yield f'[[node]]\nname = "{name}"\nid = "{dotted(number)}"'
        for link in self.links:
            yield f'[[link]]\nfrom = "{self.nodes[link.start][0]}"\nto = "{self.nodes[link.end][0]}"'
            yield f'local = "{dotted(link.local)}"\nremote = "{dotted(link.remote)}"'
            yield f"igp = {link.igp}\nte = {link.te}\ncolour = {link.colour}\nreservable = {link.reservable}"

    def walk(self, start, hops, end):
        """The links that a route uses, from the start's owner hop by hop, each once."""
        node, near, used = self.owners.get(start), None, []
        if node is None:
            return ()
        for hop in [*hops, end]:
            there = self.owners.get(hop)
            if there == node:
                near = hop
            elif there is not None:
                link = self.link_to(node, there, hop, near)
                if link is not None and link not in used:
                    used.append(link)
                node, near = there, None
        return tuple(used)

    def link_to(self, start, end, hop, near):
        """The least-numbered link by its far address, else by the near one that was named, else of all."""
        between = [n for n, link in enumerate(self.links) if (link.start, link.end) == (start, end)]
        by_far = [n for n in between if self.links[n].remote == hop]
        by_near = [n for n in between if self.links[n].local == near]
        return next(iter(by_far or by_near or between), None)

    def simple_paths(self, start, end):
        """All lists of links from one node to another that pass no node twice."""
        if (start, end) not in self.known_paths:
            self.known_paths[start, end] = list(self.ways_on((), start, end, {start}))
        return self.known_paths[start, end]

    def ways_on(self, way, node, end, passed):
        if node == end:
            yield way
            return
        for number, link in enumerate(self.links):
            if link.start == node and link.end not in passed:
                yield from self.ways_on((*way, number), link.end, end, passed | {link.end})

    def cost(self, way, kind):
        return sum(self.links[number].metric(kind) for number in way)


def link_of(row, places):
    ends = places[row["from"]], places[row["to"]]
    return Link(*ends, address(row["local"]), address(row["remote"]), row["igp"], row["te"], row["colour"], row["reservable"])
