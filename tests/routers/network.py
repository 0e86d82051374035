"""The links of a link text, and the ways over them. A way is a tuple of numbers of links."""
import tomllib
from dataclasses import dataclass


@dataclass(frozen=True)
class Link:
    start: str
    end: str
    local: str
    remote: str
    reservable: int


class Network:
    """What a link text has (docs/FORMAT.md)."""

    def __init__(self, text):
        tables = tomllib.loads(text)
        self.ids = {node["name"]: node["id"] for node in tables["node"]}
        self.links = [Link(*(link[key] for key in ("from", "to", "local", "remote", "reservable"))) for link in tables["link"]]
        self.owners = {address: name for name, address in self.ids.items()}
        for link in self.links:
            self.owners |= {link.local: link.start, link.remote: link.end}

    def interfaces(self, way):
        """A strict route: the far end of each link."""
        return [self.links[number].remote for number in way]

    def node_ids(self, way):
        return [self.ids[self.links[number].end] for number in way]

    def links_between(self, source, destination):
        """The links from the one address's node to the other's."""
        return tuple(number for number, link in enumerate(self.links) if (link.start, link.end) == (self.owners[source], self.owners[destination]))

    def ways(self, source, destination, most=6):
        """All simple ways of at most this many links from one address to another, the shortest first."""
        start, end = self.owners[source], self.owners[destination]
        found, begun = [], [((), (start,))]
        while begun:
            way, passed = begun.pop(0)
            if passed[-1] == end:
                found.append(way)
            elif len(way) < most:
                begun += [((*way, number), (*passed, link.end)) for number, link in enumerate(self.links)
                          if link.start == passed[-1] and link.end not in passed]
        return found

    def way_of(self, source, hops, destination):
        """The way that a strict route names from the source to the destination, None where it leaves a gap."""
        node, way = self.owners.get(source), []
        for hop in hops:
            there = self.owners.get(hop)
            if there is None:
                return None
            if there == node:
                continue
            numbers = [number for number, link in enumerate(self.links) if (link.start, link.end) == (node, there)]
            exact = [number for number in numbers if self.links[number].remote == hop]
            if not numbers:
                return None
            way.append((exact or numbers)[0])
            node = there
        return tuple(way) if node == self.owners.get(destination) else None


def network_of(file):
    with open(file) as text:
        return Network(text.read())
