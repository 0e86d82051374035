"""The base of a journal's file: the whole state at its beginning, as lines. They are written of a plain state, and read into one.

    base STEPS GRANTS CHANGES SESSION TICKET
    value IGP TE COLOUR RESERVABLE                                  (one for each link)
    peer PEER up|down SESSION update|- initiate|- syncing|synced SRP
    waits HEX                                                       (a message for the peer above it)
    path PEER PLSP lsp N|srp N TUNNEL HOLD BW fresh|stale LINKS|-
    record PEER PLSP NAME|- delegated|- created|- SRP|- TUNNEL CONSTRAINTS
    name PEER SRP NAME
    ticket ID PEER SESSION TRIES SEEN taken|waits PURPOSE CONSTRAINTS
    end

Each word but `end` has a space behind it.
"""

from collections import Counter
from dataclasses import dataclass, field, replace

from . import wire, words
from .facts import MOST_PATHS, MOST_TRIES, Path, Peer, Record, Ticket
from .network import IGP, TE, dotted
from .steps import LONG, METRICS, WORD, BadLine, digits, need, number
from .steps import peer as address_in
from .sums import Constraints

END = "end"
PLSP, HALF, PRIORITY, METRIC = 1 << 20, 1 << 16, 8, 1 << 24
KINDS = ("base", "value", "peer", "waits", "path", "record", "name", "ticket")
MOST_STEPS = 1 << 62


@dataclass
class Base:
    """What the lines say."""

    steps: int = 0
    grants: int = 0
    changes: int = 0
    last_session: int = 0
    last_ticket: int = 0
    values: list = field(default_factory=list)
    peers: list = field(default_factory=list)
    paths: list = field(default_factory=list)
    records: list = field(default_factory=list)
    names: list = field(default_factory=list)
    tickets: list = field(default_factory=list)


# ---- written


def line_of(*given):
    return "".join(f"{word} " for word in given)


def or_none(value):
    return "-" if value is None else value


def end_word(address):
    return "-" if address is None else dotted(address)


def hex_word(text):
    return text.hex() or "-"


def flag(word, is_set):
    return word if is_set else "-"


def tunnel_words(tunnel):
    kind, peer, *rest = tunnel
    if kind == "signalled":
        endpoint, number_of, extended = rest
        return [kind, dotted(peer), dotted(endpoint), number_of, extended]
    return [kind, dotted(peer), *rest]


def constraint_words(asked):
    metric = {metric: word for word, metric in METRICS.items()}[asked.minimise]
    bounds = [asked.bound, asked.hop_bound, *(asked.other_bounds.get(kind) for kind in (IGP, TE))]
    ends = [end_word(asked.source), end_word(asked.destination)]
    wanted = [asked.bandwidth, asked.setup, asked.hold, *asked.colours, metric]
    return [*ends, *wanted, *map(or_none, bounds), flag("protect", asked.is_protected)]


def peer_line(number_of, peer):
    up, syncing = "up" if peer.up else "down", "syncing" if peer.syncing else "synced"
    capabilities = flag("update", peer.update), flag("initiate", peer.create)
    return line_of("peer", dotted(number_of), up, peer.session, *capabilities, syncing, peer.last_srp)


def path_line(path):
    part = ["lsp", path.lsp] if path.srp is None else ["srp", path.srp]
    links, fresh = ",".join(map(str, path.links)) or "-", "fresh" if path.fresh else "stale"
    return line_of("path", dotted(path.peer), path.plsp, *part, *tunnel_words(path.tunnel), path.hold, path.bandwidth, fresh, links)


def record_line(peer, plsp, record):
    flags = flag("delegated", record.delegated), flag("created", record.created), or_none(record.removing)
    return line_of("record", dotted(peer), plsp, hex_word(record.name), *flags, *tunnel_words(record.tunnel), *constraint_words(record.asked))


def purpose_words(ticket):
    wanted = constraint_words(ticket.wanted or ticket.asked)
    if ticket.purpose == "update":
        return ["update", ticket.of]
    if ticket.purpose == "initiate":
        return ["initiate", ticket.of.hex(), *wanted]
    return ["answer", ticket.of, or_none(ticket.plsp), *wanted]


def ticket_line(ticket):
    state = [ticket.session, ticket.tries, ticket.seen, "taken" if ticket.taken else "waits"]
    return line_of("ticket", ticket.number, dotted(ticket.peer), *state, *purpose_words(ticket), *constraint_words(ticket.asked))


def base_lines(state, steps, grants):
    """The lines of the state after so many steps, of which so many were grants."""
    lines = [line_of("base", steps, grants, state.changes, state.last_session, state.last_ticket)]
    lines += [line_of("value", link.igp, link.te, link.colour, link.reservable) for link in state.network.links]
    for number_of, peer in state.peers.items():
        lines.append(peer_line(number_of, peer))
        lines += [line_of("waits", message.hex()) for message in peer.outgoing]
    lines += map(path_line, state.path_rows)
    lines += [record_line(*key, state.records[key]) for key in state.records.rows]
    lines += [line_of("name", dotted(peer), srp, name.hex()) for peer, srp, name in state.names]
    return [*lines, *map(ticket_line, state.tickets), END]


# ---- read


class Words:
    """The words of a line, one after another."""

    def __init__(self, line):
        *self.rest, last = line.split(" ")
        need(last == "" and self.rest)

    def word(self):
        need(self.rest)
        return self.rest.pop(0)

    def number(self, limit):
        return number(self.word(), limit)

    def address(self):
        return address_in(self.word())

    def one_of(self, *words_of):
        word = self.word()
        need(word in words_of)
        return word

    def maybe(self, read):
        """What `-` stands for if it is missing."""
        if self.rest[:1] == ["-"]:
            self.rest.pop(0)
            return None
        return read()

    def name(self):
        name = digits(self.word())
        need(1 <= len(name) <= 64)
        return name

    def bandwidth(self):
        value = self.number(words.LIMIT)
        need(words.raised(value) == value)
        return value

    def has(self, flag_word):
        return self.one_of(flag_word, "-") == flag_word

    def tunnel(self):
        kind, peer = self.one_of("signalled", "unsignalled", "asked"), self.address()
        if kind == "signalled":
            return kind, peer, self.address(), self.number(HALF), self.number(WORD)
        return kind, peer, self.number(PLSP if kind == "unsignalled" else WORD)

    def constraints(self):
        source, destination, bandwidth = self.maybe(self.address), self.maybe(self.address), self.bandwidth()
        setup, hold = self.number(PRIORITY), self.number(PRIORITY)
        need(hold <= setup)
        asked = Constraints(source, destination, bandwidth, setup, hold, tuple(self.number(WORD) for _ in range(3)))
        asked.minimise = METRICS[self.one_of(*METRICS)]
        asked.bound, asked.hop_bound, igp, te = (self.maybe(lambda: self.number(LONG)) for _ in range(4))
        asked.other_bounds = {IGP: igp, TE: te}
        asked.is_protected = self.has("protect")
        return asked

    def links(self):
        word = self.word()
        return () if word == "-" else tuple(number(link, LONG) for link in word.split(","))

    def purpose(self):
        """The purpose, what it is of, the LSP that a request names, and what was asked for with it."""
        kind = self.one_of("update", "initiate", "answer")
        if kind == "update":
            return kind, self.number(PLSP), None, None
        if kind == "initiate":
            return kind, self.name(), None, self.constraints()
        return kind, self.number(WORD), self.maybe(lambda: self.number(PLSP)), self.constraints()


class Reader:
    """Takes the lines of a base, in their order."""

    def __init__(self):
        self.base, self.last = Base(), None

    def take(self, line):
        need(line.isascii())
        given = Words(line)
        kind = given.one_of(*KINDS)
        need(self.may_follow(kind))
        self.last = kind
        getattr(self, "read_" + kind)(given)
        need(not given.rest)

    def may_follow(self, kind):
        if self.last is None or kind == "base":
            return self.last is None and kind == "base"
        if kind == "waits" or self.last == "waits" and kind == "peer":
            return self.last in ("peer", "waits")
        return KINDS.index(self.last) <= KINDS.index(kind)

    def read_base(self, given):
        base = self.base
        base.steps, base.grants, base.changes, base.last_session, base.last_ticket = (given.number(LONG) for _ in range(5))

    def read_value(self, given):
        igp, te, colour, reservable = (given.number(limit) for limit in (METRIC, METRIC, WORD, words.LIMIT))
        need(igp and te)
        self.base.values.append({"igp": igp, "te": te, "colour": colour, "reservable": reservable})

    def read_peer(self, given):
        number_of, up, session = given.address(), given.one_of("up", "down") == "up", given.number(LONG)
        update, create = given.has("update"), given.has("initiate")
        syncing = given.one_of("synced", "syncing") == "syncing"
        self.base.peers.append((number_of, Peer(up, session, update, create, syncing, given.number(WORD))))

    def read_waits(self, given):
        """A whole message."""
        message = digits(given.word())
        need(len(message) >= 4 and message[0] == 0x20 and int.from_bytes(message[2:4], "big") == len(message))
        try:
            list(wire.objects_in(message[4:]))
        except wire.Malformed as fault:
            raise BadLine from fault
        self.base.peers[-1][1].outgoing += (message,)

    def read_path(self, given):
        peer, plsp, part = given.address(), given.number(PLSP), given.one_of("lsp", "srp")
        part_number, tunnel = given.number(HALF if part == "lsp" else WORD), given.tunnel()
        hold, bandwidth, fresh = given.number(PRIORITY), given.bandwidth(), given.one_of("fresh", "stale") == "fresh"
        lsp, srp = (part_number, None) if part == "lsp" else (None, part_number)
        self.base.paths.append(Path(peer, plsp, lsp, srp, tunnel, hold, bandwidth, given.links(), fresh))

    def read_record(self, given):
        key = given.address(), given.number(PLSP)
        name = given.maybe(lambda: digits(given.word()))
        need(name != b"")
        delegated, created = given.has("delegated"), given.has("created")
        removing, tunnel = given.maybe(lambda: given.number(WORD)), given.tunnel()
        self.base.records.append((key, Record(name or b"", delegated, created, given.constraints(), tunnel, removing)))

    def read_name(self, given):
        self.base.names.append((given.address(), given.number(WORD), given.name()))

    def read_ticket(self, given):
        number_of, peer, session = given.number(LONG), given.address(), given.number(LONG)
        tries, seen, taken = given.number(WORD), given.number(LONG), given.one_of("taken", "waits") == "taken"
        purpose, of, plsp, wanted = given.purpose()
        self.base.tickets.append(Ticket(number_of, peer, session, purpose, of, plsp, given.constraints(), tries, seen, taken, wanted))


# ---- what may stand


def twice(items):
    return [item for item, count in Counter(items).items() if count > 1]


def numbers_rise(base):
    numbers = [0, *(ticket.number for ticket in base.tickets)]
    return all(before < after for before, after in zip(numbers, numbers[1:])) and numbers[-1] <= base.last_ticket


def has_tries_left(ticket):
    return ticket.tries <= MOST_TRIES if ticket.taken else ticket.tries < MOST_TRIES


def asked_for(base):
    """Each peer's SRP-IDs of grants and of awaited removals."""
    grants = [(path.peer, path.srp) for path in base.paths if path.srp is not None]
    return grants + [(key[0], record.removing) for key, record in base.records if record.removing is not None]


def may_stand(links, base):
    """Whether all holds of the base that holds of each state over so many links."""
    lsps_of_grants = [(path.peer, path.plsp) for path in base.paths if path.srp is not None and path.plsp]
    unbound = [(path.peer, path.srp) for path in base.paths if path.srp is not None and not path.plsp]
    known, named = [key for key, _ in base.records], [(peer, srp) for peer, srp, _ in base.names]
    once = (asked_for(base), lsps_of_grants, known, named, [number_of for number_of, _ in base.peers])
    has_paths = {(path.peer, path.plsp) for path in base.paths}.issuperset(known) and all(plsp for _, plsp in known)
    counted = max(base.grants, base.changes, base.last_session, base.last_ticket) <= base.steps <= MOST_STEPS
    few = len(base.values) == links and len(base.paths) <= MOST_PATHS
    in_order = numbers_rise(base) and all(map(has_tries_left, base.tickets))
    return few and counted and in_order and has_paths and not any(map(twice, once)) and sorted(unbound) == sorted(named)


def put_over(state, base):
    """A state of which nothing is known knows what the base says."""
    links = state.network.links
    state.network.links = [replace(link, **values) for link, values in zip(links, base.values)]
    state.changes, state.last_session, state.last_ticket = base.changes, base.last_session, base.last_ticket
    state.peers = dict(base.peers)
    for path in base.paths:
        state.paths.setdefault(path.peer, []).append(path)
        state.path_rows.append(path)
    for key, record in base.records:
        state.records[key] = record
    for name in base.names:
        state.names.append(name)
    state.tickets = list(base.tickets)
