"""Tickets that are taken and committed: the paths that a search may answer, and what becomes of an answer."""
import struct

from . import messages as m
from . import objects as o
from .database import GRANTED, MOST_PATHS, TRIES, Database, Path, Refusal, attributes, lsp_object, route_object, srp_object
from .numbers import word_of


class Searches(Database):
    def own_tunnel(self, ticket):
        """Whose shares the ticket's path may take again: none for an initiation."""
        if ticket.purpose[0] == "initiate":
            return None
        record = self.records.get((ticket.peer, ticket.purpose[-1]))
        return record and record.tunnel

    def bears(self, path, setup):
        """Whether the path takes nothing that isn't there, from its holding priority to its setup priority."""
        for link in path.links:
            for priority in range(path.hold, setup + 1):
                before = self.share(self.paths, path.tunnel, link, priority)
                if max(before, path.bandwidth) > before and self.unreserved(link, priority, [path]) < 0:
                    return False
        return True

    def is_admissible(self, ticket, links):
        asked = ticket.constraints
        source, destination = (self.network.owner.get(end) for end in (asked.source, asked.destination))
        if not self.network.is_simple_path(links, source, destination):
            return False
        exclude, include_any, include_all = asked.colours
        for colour in (self.network.links[link].colour for link in links):
            if colour & exclude or include_any and not colour & include_any or colour & include_all != include_all:
                return False
        if len(links) > asked.bounds.get(3, len(links)):
            return False
        cost = self.network.cost(links, asked.minimise)
        if cost > asked.bounds.get(asked.minimise, cost):
            return False
        own = self.own_tunnel(ticket)
        return self.bears(Path(ticket.peer, 0, (GRANTED, 0), own, asked.hold, asked.bandwidth, links), asked.setup)

    def keeps_bounds(self, ticket, links):
        return all(self.network.cost(links, metric) <= bound for metric, bound in ticket.constraints.bounds.items())

    def found_for(self, ticket):
        """What a search may answer now: any path of least cost, or none where such a one breaks a bound."""
        asked = ticket.constraints
        source, destination = (self.network.owner.get(end) for end in (asked.source, asked.destination))
        paths = [links for links in self.network.simple_paths(source, destination) if self.is_admissible(ticket, links)]
        if not paths:
            return {None}
        least = min(self.network.cost(links, asked.minimise) for links in paths)
        chosen = [links for links in paths if self.network.cost(links, asked.minimise) == least]
        return {links if self.keeps_bounds(ticket, links) else None for links in chosen}

    def on_take(self):
        waiting = [number for number, ticket in self.tickets.items() if not ticket.taken]
        if not waiting:
            return "idle", None
        ticket = self.tickets[min(waiting)]
        ticket.tries, ticket.taken, ticket.seen = ticket.tries + 1, True, self.changes
        return f"job {ticket.number}", ticket

    def on_commit(self, number, links):
        ticket = self.tickets.get(number)
        if ticket is None:
            raise Refusal(14)
        if not ticket.taken:
            raise Refusal(15)
        reply = self.judged(ticket, links)
        if reply == "again":
            ticket.taken = False
        else:
            del self.tickets[number]
        return reply, None

    def is_gone(self, ticket):
        known, purpose = self.peers.get(ticket.peer), ticket.purpose
        if known is None or not known.up or known.session != ticket.session:
            return True
        if purpose[0] == "answer":
            return False
        if known.syncing:
            return True
        if purpose[0] == "initiate":
            return False
        record = self.records.get((ticket.peer, purpose[1]))
        return (
            record is None or not record.delegated or record.removing is not None
            or self.grant_of(ticket.peer, purpose[1]) is not None
        )

    def judged(self, ticket, links):
        if self.is_gone(ticket):
            return "gone"
        is_answer = ticket.purpose[0] == "answer"
        if links is None:
            if ticket.seen != self.changes and ticket.tries < TRIES:
                return "again"
            return self.without_path(ticket, "nopath")
        if not self.is_admissible(ticket, links) or not self.keeps_bounds(ticket, links):
            return "again" if ticket.tries < TRIES else self.without_path(ticket, "givenup")
        if is_answer:
            return self.answer(ticket, links)
        srp = self.next_srp(ticket.peer)
        if len(self.paths) >= MOST_PATHS or self.is_srp_used(ticket.peer, srp):
            return "givenup"
        return self.grant(ticket, links, srp)

    def without_path(self, ticket, reply):
        if ticket.purpose[0] == "answer":
            self.peers[ticket.peer].queue.append(no_path(ticket.purpose[1]))
        return reply

    def answer(self, ticket, links):
        asked = ticket.constraints
        cost = word_of(self.network.cost(links, asked.minimise))
        self.peers[ticket.peer].queue.append(m.message(
            m.M_PCREP, rp_object(ticket.purpose[1]), route_object(self.network, links),
            m.pcep_object(o.METRIC, struct.pack(">HBBI", 0, 2, asked.minimise, cost)),
        ))
        return "answered"

    def grant(self, ticket, links, srp):
        peer, asked, (purpose, whom) = ticket.peer, ticket.constraints, ticket.purpose
        if purpose == "update":
            tunnel, plsp, name = self.own_tunnel(ticket), whom, None
            kind, first, is_protected = m.M_PCUPD, lsp_object(plsp, 0x9), asked.is_protected
        else:
            tunnel, plsp, name = ("asked", peer, srp), 0, whom
            padded = whom + bytes(-len(whom) % 4)
            kind, first = m.M_PCINITIATE, lsp_object(0, 0x9, struct.pack(">HH", o.SYMBOLIC_NAME, len(whom)) + padded)
            first += m.pcep_object(o.END_POINTS, struct.pack(">II", asked.source, asked.destination), flags=2)
            is_protected = False
        self.peers[peer].last_srp = srp
        self.peers[peer].queue.append(m.message(kind, srp_object(srp), first, route_object(self.network, links), attributes(asked, is_protected)))
        self.replace([], [Path(peer, plsp, (GRANTED, srp), tunnel, asked.hold, asked.bandwidth, links, True, name)])
        return f"granted {srp}"


def rp_object(number):
    return m.pcep_object(o.RP, struct.pack(">II", 0, number), flags=2)


def no_path(number, vector=None):
    tlv = b"" if vector is None else struct.pack(">HHI", o.NO_PATH_VECTOR, 4, vector)
    return m.message(m.M_PCREP, rp_object(number), m.pcep_object(o.NO_PATH, bytes(4) + tlv))
