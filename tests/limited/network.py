"""The networks of the limits, and messages about them in hexadecimal digits, worked out apart from the program that they try."""
import struct

import pcep

MOST = 1_000_000  # what may be reserved on a link of these networks


def network(nodes, links):
    """Nodes 0, 1 .. of the addresses 10.0.x.y, and links (from, to, metric) of the remote addresses 11.x.y.2."""
    table = "".join(f'[[node]]\nname="n{n}"\nid="{dotted(n)}"\n' for n in range(nodes))
    for i, (start, end, metric) in enumerate(links):
        table += f'[[link]]\nfrom="n{start}"\nto="n{end}"\nlocal="11.{i >> 8}.{i & 255}.1"\nremote="11.{i >> 8}.{i & 255}.2"\n'
        table += f"igp=1\nte={metric}\ncolour=0\nreservable={MOST}\n"
    return table + "---\n"


def dotted(node):
    return f"10.0.{node >> 8}.{node & 255}"


def remote(link):
    return struct.pack(">I", (11 << 24) + (link << 8) + 2)


def message(kind, *items):
    return pcep.message(kind, *items).hex()


def route(hops):
    """The route over links; a pair is a node and a link."""
    pairs = [hop if isinstance(hop, tuple) else (None, hop) for hop in hops]
    return pcep.route(pcep.ERO, [address for node, link in pairs for address in ([] if node is None else [dotted(node)]) + [remote(link)]])


def attributes(setup, hold, bandwidth):
    return pcep.attributes(setup, hold) + pcep.bandwidth(bandwidth)


def report(plsp, links, ends=(0, 1), lsp=1, tunnel=None, bandwidth=1, flags=0x18, hold=0):
    """The state report of an LSP that is up over these links, at 7/hold: its objects."""
    names = pcep.identifiers(dotted(ends[0]), lsp, plsp if tunnel is None else tunnel, dotted(ends[1]), dotted(0))
    item = pcep.lsp(plsp, flags, names) + route(links)
    return item if flags & pcep.REMOVE else item + attributes(7, hold, bandwidth)


def reports(items):
    return message(pcep.PCRPT, *items)


MARKER = pcep.END_OF_SYNC.hex()
GREETING = (pcep.OPEN + pcep.KEEPALIVE).hex()


def request(number, ends, links=None, bandwidth=1):
    """A path request, of at most `links` links: its objects."""
    item = pcep.rp(number) + pcep.end_points(dotted(ends[0]), dotted(ends[1])) + pcep.bandwidth(bandwidth)
    return item if links is None else item + pcep.metric(3, links, 1)


def initiation(srp, name, ends, links, bandwidth):
    """What asks a router for an LSP over these links, at 7/0."""
    lsp = pcep.lsp(0, pcep.DELEGATE | pcep.ADMIN, pcep.tlv(pcep.NAME, name.encode()))
    return message(pcep.PCINITIATE, pcep.srp(srp), lsp, pcep.end_points(dotted(ends[0]), dotted(ends[1])), route(links), attributes(7, 0, bandwidth))


def update(srp, plsp, links, bandwidth):
    return message(pcep.PCUPD, pcep.srp(srp), pcep.lsp(plsp, pcep.DELEGATE | pcep.ADMIN), route(links), attributes(7, 0, bandwidth))


def found(number, links, cost):
    return message(pcep.PCREP, pcep.rp(number), route(links), pcep.metric(2, cost, 2))


def refusal(srp):
    """A PCErr of a router for a request of this SRP-ID."""
    return pcep.error(24, 1, srp).hex()


def no_path(number, why):
    """The reply that there is no path, with a NO-PATH-VECTOR."""
    return message(pcep.PCREP, pcep.rp(number), pcep.make_object(pcep.NO_PATH, bytes(4) + pcep.tlv(1, struct.pack(">I", why))))


def too_many(number):
    """The PCE takes no further request."""
    return no_path(number, 1)


def unknown_ends(number):
    """Nobody owns the source and the destination."""
    return no_path(number, 6)
