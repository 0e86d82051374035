"""What is known of peers, LSPs, paths and tickets, by plain lists and sums (RFC 8231, RFC 8281, RFC 3209 section 2.4.3).
Each event is one step of the history and gives its reply."""
import struct
from dataclasses import dataclass, field
from typing import Any

from . import messages as m
from . import objects as o
from .numbers import word_of

MOST_PEERS, MOST_PATHS, MOST_TICKETS, TRIES = 64, 16_384, 1_024, 4
LAST_SRP = 0xFFFFFFFE
REPORTED, GRANTED = "reported", "granted"


class Refusal(Exception):
    """The event changes nothing; `ends` are those that no node owns."""

    def __init__(self, number, ends=0):
        self.number, self.ends = number, ends


@dataclass
class Peer:
    up: bool = False
    session: int = 0
    update: bool = False
    create: bool = False
    syncing: bool = False
    last_srp: int = 0
    queue: list = field(default_factory=list)


@dataclass
class Path:
    peer: int
    plsp: int
    part: tuple
    tunnel: tuple
    hold: int
    bandwidth: int
    links: tuple
    fresh: bool = True
    name: Any = None


@dataclass
class Record:
    name: bytes = b""
    delegated: bool = False
    created: bool = False
    constraints: Any = None
    tunnel: Any = None
    removing: Any = None


@dataclass
class Ticket:
    number: int
    peer: int
    session: int
    purpose: tuple
    constraints: Any
    tries: int = 0
    seen: int = 0
    taken: bool = False


class Database:
    def __init__(self, network):
        self.network = network
        self.peers, self.records, self.tickets = {}, {}, {}
        self.paths, self.history = [], []
        self.changes = self.last_ticket = self.last_session = 0

    def step(self, event, *words):
        """Takes one event: its reply in words, which the history keeps, and what the reply is about."""
        try:
            reply, what = getattr(self, f"on_{event.replace(' ', '_')}")(*words)
        except Refusal as refusal:
            reply, what = f"refused {refusal.number}", refusal
        self.history.append(f"{event.split()[0]} {reply}")
        return reply, what

    # what stands

    def share(self, paths, tunnel, link, priority):
        return max((path.bandwidth for path in paths if path.tunnel == tunnel and link in path.links and path.hold <= priority), default=0)

    def unreserved(self, link, priority, more=()):
        greatest = {}
        for path in (*self.paths, *more):
            if link in path.links and path.hold <= priority:
                greatest[path.tunnel] = max(path.bandwidth, greatest.get(path.tunnel, 0))
        return self.network.links[link].reservable - sum(greatest.values())

    def book(self):
        return [
            f"link {link} " + " ".join(str(self.unreserved(link, priority)) for priority in range(8))
            for link in range(len(self.network.links))
        ]

    def of(self, peer, plsp):
        return [path for path in self.paths if (path.peer, path.plsp) == (peer, plsp)]

    def grant_of(self, peer, plsp):
        return next((path for path in self.of(peer, plsp) if path.part[0] == GRANTED), None)

    def replace(self, dropped, added=()):
        """Changes paths, and forgets the LSPs that have none any more."""
        self.changes += 1 if dropped or added else 0
        gone = {id(path) for path in dropped}
        self.paths = [path for path in self.paths if id(path) not in gone] + list(added)
        standing = {(path.peer, path.plsp) for path in self.paths}
        self.records = {key: record for key, record in self.records.items() if key in standing}

    def is_srp_used(self, peer, srp):
        return any(path.peer == peer and path.part == (GRANTED, srp) for path in self.paths) or any(
            key[0] == peer and record.removing == srp for key, record in self.records.items()
        )

    def next_srp(self, peer):
        last = self.peers[peer].last_srp
        return 1 if last >= LAST_SRP else last + 1

    # tests, in the order in which they are made

    def known_and_up(self, peer):
        if peer not in self.peers:
            raise Refusal(1)
        if not self.peers[peer].up:
            raise Refusal(3)
        return self.peers[peer]

    def in_sync(self, peer, right, why):
        known = self.known_and_up(peer)
        if known.syncing:
            raise Refusal(18)
        if not getattr(known, right):
            raise Refusal(why)
        return known

    def test_ends(self, constraints):
        ends = [self.network.owner.get(end) for end in (constraints.source, constraints.destination)]
        unknown = (4 if ends[0] is None else 0) | (2 if ends[1] is None or ends[0] == ends[1] and ends[0] is not None else 0)
        if unknown:
            raise Refusal(13, unknown)

    def delegated(self, peer, plsp, with_tickets):
        record = self.records.get((peer, plsp))
        if record is None:
            raise Refusal(4)
        if not record.delegated:
            raise Refusal(5)
        self.test_pending(peer, plsp, record, with_tickets)
        return record

    def test_pending(self, peer, plsp, record, with_tickets):
        if self.grant_of(peer, plsp) or record.removing is not None or with_tickets and self.has_ticket(peer, plsp):
            raise Refusal(6)

    def has_ticket(self, peer, plsp):
        return any(ticket.peer == peer and ticket.purpose == ("update", plsp) for ticket in self.tickets.values())

    # the life of a peer

    def on_up(self, peer, capabilities):
        if peer in self.peers and self.peers[peer].up:
            raise Refusal(2)
        if peer not in self.peers and len(self.peers) >= MOST_PEERS:
            raise Refusal(12)
        known = self.peers.setdefault(peer, Peer())
        self.last_session += 1
        known.up, known.session = True, self.last_session
        known.update, known.create = capabilities or (False, False)
        known.syncing = capabilities is not None
        if capabilities is None:
            self.drop_stale(peer)
        return "done", None

    def drop_stale(self, peer):
        self.replace([path for path in self.paths if path.peer == peer and not path.fresh])

    def on_marker(self, peer):
        self.known_and_up(peer).syncing = False
        self.drop_stale(peer)
        return "done", None

    def on_down(self, peer):
        known = self.known_and_up(peer)
        known.up, known.queue = False, []
        for (owner, _), record in self.records.items():
            if owner == peer:
                record.delegated, record.removing = False, None
        for path in self.paths:
            if path.peer == peer:
                path.fresh = False
        return "done", None

    def on_expire(self, peer):
        if peer not in self.peers:
            raise Refusal(1)
        if self.peers[peer].up:
            raise Refusal(2)
        self.replace([path for path in self.paths if path.peer == peer])
        del self.peers[peer]
        return "done", None

    def on_drain(self, peer):
        known = self.known_and_up(peer)
        queue, known.queue = known.queue, []
        return f"out {len(queue)}", queue

    # what a peer says

    def on_report(self, peer, report):
        self.known_and_up(peer)
        plsp = report.plsp
        if plsp in (0, 0xFFFFF):
            raise Refusal(19)
        unsignalled = ("unsignalled", peer, plsp)
        sender, lsp_id, tunnel_id, extended, endpoint = report.identifiers or (0,) * 5
        is_zero = not any(report.identifiers or ())
        tunnel = unsignalled if is_zero else ("signalled", peer, endpoint, tunnel_id, extended)
        grant, own = self.grant_of(peer, plsp), self.of(peer, plsp)
        binds = False
        if grant is None and report.srp is not None:
            grant = next((path for path in self.paths if (path.peer, path.plsp, path.part) == (peer, 0, (GRANTED, report.srp))), None)
            binds = grant is not None
        settles = grant is not None and grant.part[1] == report.srp and report.operational in (m.DOWN, m.UP, m.ACTIVE)
        dropped, added = [], []
        for path in own:
            if path.part[0] == GRANTED:
                continue
            if is_zero or path.part[1] == lsp_id or not report.is_removed and path.tunnel == unsignalled:
                dropped.append(path)
        if grant is not None:
            if settles or report.is_removed and is_zero:
                dropped.append(grant)
            elif binds or not report.is_removed:
                dropped.append(grant)
                moved = grant.tunnel if report.is_removed else tunnel
                added.append(Path(peer, plsp, grant.part, moved, grant.hold, grant.bandwidth, grant.links))
        if report.is_removed:
            self.replace(dropped, added)
            return "booked", False
        return self.book_report(peer, report, sender, endpoint, lsp_id, is_zero, tunnel, dropped, added)

    def book_report(self, peer, report, sender, endpoint, lsp_id, is_zero, tunnel, dropped, added):
        asked = m.Constraints()
        asked.take_lspa(report.lspa)
        asked.bandwidth = max(report.bandwidths, default=0)
        links = ()
        if report.operational != m.DOWN:
            links = self.network.walk(sender, report.ero if report.rro is None else report.rro, endpoint)
        added.append(Path(peer, report.plsp, (REPORTED, lsp_id), tunnel, asked.hold, asked.bandwidth, links))
        if len(self.paths) - len(dropped) + len(added) > MOST_PATHS:
            raise Refusal(11)
        record = self.records.get((peer, report.plsp), Record())
        if not is_zero:
            asked.source, asked.destination = sender, endpoint
        elif record.constraints:
            asked.source, asked.destination = record.constraints.source, record.constraints.destination
        name = record.name if report.name is None else report.name
        self.records[peer, report.plsp] = Record(
            name, report.flags & 0x1 != 0, report.flags & 0x80 != 0, asked, tunnel, record.removing
        )
        self.replace(dropped, added)
        known, plsp = self.peers[peer], report.plsp
        wants = (
            report.flags & 0x1 and known.update and not known.syncing and report.operational == m.DOWN and not report.ero
            and not self.grant_of(peer, plsp) and not self.has_ticket(peer, plsp) and record.removing is None
        )
        return ("booked wants", True) if wants else ("booked", False)

    def on_refused(self, peer, srp):
        self.known_and_up(peer)
        self.replace([path for path in self.paths if path.peer == peer and path.part == (GRANTED, srp)])
        for (owner, _), record in self.records.items():
            if owner == peer and record.removing == srp:
                record.removing = None
        return "done", None

    # what is asked for

    def ticket(self, peer, purpose, constraints):
        self.test_ends(constraints)
        if len(self.tickets) >= MOST_TICKETS:
            raise Refusal(10)
        self.last_ticket += 1
        number = self.last_ticket
        self.tickets[number] = Ticket(number, peer, self.peers[peer].session, purpose, constraints)
        return f"asked {number}", number

    def on_ask_update(self, peer, plsp):
        self.in_sync(peer, "update", 7)
        record = self.delegated(peer, plsp, True)
        return self.ticket(peer, ("update", plsp), record.constraints)

    def on_ask_initiate(self, peer, name, constraints):
        self.in_sync(peer, "create", 8)
        taken = [record.name for (owner, _), record in self.records.items() if owner == peer]
        taken += [ticket.purpose[1] for ticket in self.tickets.values() if ticket.peer == peer and ticket.purpose[0] == "initiate"]
        taken += [path.name for path in self.paths if path.peer == peer and path.plsp == 0 and path.part[0] == GRANTED]
        if name in taken:
            raise Refusal(16)
        return self.ticket(peer, ("initiate", name), constraints)

    def on_ask_answer(self, peer, number, plsp, constraints):
        self.known_and_up(peer)
        return self.ticket(peer, ("answer", number, plsp), constraints)

    def take_srp(self, peer):
        """The number of a next request, once that it isn't in use."""
        srp = self.next_srp(peer)
        if self.is_srp_used(peer, srp):
            raise Refusal(17)
        self.peers[peer].last_srp = srp
        return srp

    def on_return(self, peer, plsp):
        known = self.in_sync(peer, "update", 7)
        record = self.delegated(peer, plsp, False)
        srp = self.take_srp(peer)
        record.delegated = False
        known.queue.append(m.message(m.M_PCUPD, srp_object(srp), lsp_object(plsp, 0x8), m.pcep_object(o.ERO, b"")))
        return "done", None

    def on_delete(self, peer, plsp):
        known = self.in_sync(peer, "create", 8)
        record = self.records.get((peer, plsp))
        if record is None:
            raise Refusal(4)
        if not record.created:
            raise Refusal(9)
        self.delegated(peer, plsp, False)
        srp = self.take_srp(peer)
        record.removing = srp
        known.queue.append(m.message(m.M_PCINITIATE, srp_object(srp, 1), lsp_object(plsp, 0x1)))
        return f"removing {srp}", srp


def srp_object(number, flags=0):
    return m.pcep_object(o.SRP, struct.pack(">II", flags, number))


def lsp_object(plsp, flags, tlvs=b""):
    return m.pcep_object(o.LSP, struct.pack(">I", plsp << 12 | flags) + tlvs)


def route_object(network, links):
    return m.pcep_object(o.ERO, b"".join(struct.pack(">BBIBB", 1, 8, network.links[link].remote, 32, 0) for link in links))


def attributes(asked, is_protected):
    return m.pcep_object(o.LSPA, struct.pack(">III4B", *asked.colours, asked.setup, asked.hold, is_protected, 0)) + m.pcep_object(
        o.BANDWIDTH, struct.pack(">I", word_of(asked.bandwidth))
    )
