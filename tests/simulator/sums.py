"""What paths reserve, by the definition: of each tunnel the greatest bandwidth of its paths, summed over tunnels."""

from .network import TE

MOST_LINKS = 64


def shares(paths, links):
    """For each link, what each tunnel reserves there at each priority. Other links that a base names count for nothing."""
    table = [{} for _ in range(links)]
    for path in paths:
        for link in (link for link in path.links if link < links):
            held = table[link].setdefault(path.tunnel, [0] * 8)
            for priority in range(path.hold, 8):
                held[priority] = max(held[priority], path.bandwidth)
    return table


class Left:
    """What a list of paths leaves of each link at each priority."""

    def __init__(self, network, paths):
        self.network = network
        self.shares = shares(paths, len(network.links))
        self.unreserved = [
            [link.reservable - sum(held) for held in zip(*of_link.values(), [0] * 8)]
            for link, of_link in zip(network.links, self.shares)
        ]

    def rise(self, tunnel, bandwidth, link, priority):
        """How much more the tunnel reserves with one more path."""
        held = self.shares[link].get(tunnel)
        return max(0, bandwidth - (held[priority] if held else 0))

    def has_room(self, tunnel, asked, link):
        """Whether the link bears one more path of the tunnel at each priority from holding to setup."""
        for priority in range(asked.hold, asked.setup + 1):
            rise = self.rise(tunnel, asked.bandwidth, link, priority)
            if rise > 0 and self.unreserved[link][priority] < rise:
                return False
        return True

    def is_open(self, tunnel, asked, link):
        """Whether a path may take the link: its colours pass, and it has room."""
        colour = self.network.links[link].colour
        exclude, any_of, all_of = asked.colours
        passes = colour & exclude == 0 and (any_of == 0 or colour & any_of != 0) and colour & all_of == all_of
        return passes and self.has_room(tunnel, asked, link)


def is_simple(network, way, start, end):
    """Whether the links are there, lead from one node to the other, and pass no node twice."""
    node, passed = start, [start]
    for number in way:
        if number >= len(network.links) or network.links[number].start != node:
            return False
        node = network.links[number].end
        passed.append(node)
    return node == end and len(set(passed)) == len(passed)


def keeps_bounds(network, asked, way):
    """The bounds that decide which paths may be taken: on hops, and on the metric to minimise."""
    if not 1 <= len(way) <= MOST_LINKS or asked.hop_bound is not None and len(way) > asked.hop_bound:
        return False
    return asked.bound is None or network.cost(way, asked.minimise) <= asked.bound


def keeps_other_bounds(network, asked, way):
    """The bounds that are tested on the path that was found."""
    return all(bound is None or network.cost(way, kind) <= bound for kind, bound in asked.other_bounds.items())


def admits(left, asked, tunnel, way):
    """Whether the links are a path that may be granted now, other bounds aside."""
    network = left.network
    ends = network.owners.get(asked.source), network.owners.get(asked.destination)
    if None in ends or not is_simple(network, way, *ends) or not keeps_bounds(network, asked, way):
        return False
    return all(left.is_open(tunnel, asked, link) for link in way)


def admitted(left, asked, tunnel):
    """All admissible paths: of all simple paths those that keep the bounds and whose links are open."""
    network = left.network
    ends = network.owners.get(asked.source), network.owners.get(asked.destination)
    if None in ends:
        return []
    opened = {link for link in range(len(network.links)) if left.is_open(tunnel, asked, link)}
    ways = network.simple_paths(*ends)
    return [way for way in ways if opened.issuperset(way) and keeps_bounds(network, asked, way)]


def answers(left, asked, tunnel):
    """What a search may answer: an admissible path of least cost, or None where there is none or it breaks another bound."""
    ways = admitted(left, asked, tunnel)
    if not ways:
        return {None}
    least = min(left.network.cost(way, asked.minimise) for way in ways)
    cheapest = [way for way in ways if left.network.cost(way, asked.minimise) == least]
    return {way if keeps_other_bounds(left.network, asked, way) else None for way in cheapest}


class Constraints:
    """What is asked of a path."""

    def __init__(self, source, destination, bandwidth, setup, hold, colours=(0, 0, 0), is_protected=False):
        self.source, self.destination, self.bandwidth = source, destination, bandwidth
        self.setup, self.hold, self.colours = setup, min(setup, hold), colours
        self.is_protected = is_protected
        self.minimise, self.bound, self.hop_bound, self.other_bounds = TE, None, None, {}
