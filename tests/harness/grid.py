"""A grid of 32 x 32 nodes whose ends meet, with 4,096 links, and reports of LSPs in it."""
import pcep

SIDE = 32
RESERVABLE = 1000000000
EAST, WEST, SOUTH, NORTH = range(4)
WAYS = [(0, 1), (0, -1), (1, 0), (-1, 0)]


def address(node):
    return bytes([10, 0, node // 256, node % 256])


def remote(node, way):
    """The address at the far end of the link that leaves a node this way; its number is 4 * node + way."""
    return bytes([12, way, node // 256, node % 256])


def beside(node, way):
    """The node that a link leads to."""
    row, column = divmod(node, SIDE)
    down, right = WAYS[way]
    return (row + down) % SIDE * SIDE + (column + right) % SIDE


def dotted(data):
    return ".".join(str(byte) for byte in data)


def grid():
    """The link text: each node has a link to each of its four neighbours."""
    lines = [f'[[node]]\nname="n{node}"\nid="{dotted(address(node))}"' for node in range(SIDE * SIDE)]
    for node in range(SIDE * SIDE):
        for way in range(4):
            local = f"11.{way}.{node // 256}.{node % 256}"
            lines.append(
                f'[[link]]\nfrom="n{node}"\nto="n{beside(node, way)}"\nlocal="{local}"\nremote="{dotted(remote(node, way))}"\n'
                f"igp=10\nte=10\ncolour=0\nreservable={RESERVABLE}"
            )
    return "\n".join(lines) + "\n"


def report(number, start, end, bandwidth, flags=0x18, hops=(), hold=0, srp=None):
    """The state report of an LSP between two nodes, over these addresses; setup at 7. It answers the request of an SRP-ID if one is given."""
    first = [] if srp is None else [pcep.srp(srp)]
    lsp = pcep.lsp(number, flags, pcep.identifiers(address(start), 1, number, address(end)))
    return pcep.message(pcep.PCRPT, *first, lsp, pcep.route(pcep.ERO, hops), pcep.attributes(7, hold), pcep.bandwidth(bandwidth))
