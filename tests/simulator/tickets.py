"""Paths that are asked for, searched for and granted."""

from . import sums, wire
from .facts import (
    MANY_TICKETS,
    MOST_PATHS,
    MOST_TICKETS,
    MOST_TRIES,
    NAME_IN_USE,
    NO_INITIATE,
    NO_UPDATE,
    NOT_TAKEN,
    PENDING,
    UNKNOWN_NODE,
    UNKNOWN_TICKET,
    Path,
    Peer,
    Refusal,
    Ticket,
    need,
)
from .laws import Broken


class Tickets:
    """The events of tickets, on the state's lists."""

    def on_ask(self, peer, purpose, of, asked, plsp=None):
        self.must_be_up(peer) if purpose == "answer" else self.must_be_in_sync(peer)
        if purpose == "update":
            need(self.peers[peer].update, NO_UPDATE)
            self.must_be_held(peer, of)
            need(not self.is_update_asked(peer, of), PENDING)
            asked = self.records[peer, of].asked
        elif purpose == "initiate":
            need(self.peers[peer].create, NO_INITIATE)
            need(not self.is_name_used(peer, of), NAME_IN_USE)
        self.must_have_ends(asked)
        need(len(self.tickets) < MOST_TICKETS, MANY_TICKETS)
        self.last_ticket += 1
        self.tickets.append(Ticket(self.last_ticket, peer, self.peers[peer].session, purpose, of, plsp, asked))
        return ["asked", self.last_ticket]

    def is_name_used(self, peer, name):
        by_record = any(p == peer and record.name == name for (p, _), record in self.records.items())
        by_ticket = any((t.peer, t.purpose, t.of) == (peer, "initiate", name) for t in self.tickets)
        return by_record or by_ticket or any((p, held) == (peer, name) for p, _, held in self.names)

    def must_have_ends(self, asked):
        start, end = (self.network.owners.get(address) for address in (asked.source, asked.destination))
        if start is None or end is None or start == end:
            both = "both" if end is None else "source"
            raise Refusal(UNKNOWN_NODE, both if start is None else "destination")

    def on_take(self):
        ticket = next((ticket for ticket in self.tickets if not ticket.taken), None)
        if ticket is None:
            return ["idle"]
        ticket.taken, ticket.tries, ticket.seen = True, ticket.tries + 1, self.changes
        return ["job", ticket.number]

    def searched(self, number):
        """What a search for the ticket may answer now."""
        ticket = next(ticket for ticket in self.tickets if ticket.number == number)
        return sums.answers(self.left(), ticket.asked, self.own_tunnel(ticket))

    def on_commit(self, number, offer):
        ticket = next((ticket for ticket in self.tickets if ticket.number == number), None)
        need(ticket is not None, UNKNOWN_TICKET)
        need(ticket.taken, NOT_TAKEN)
        verdict = self.judge(ticket, offer)
        if verdict == "again":
            ticket.taken = False
            return ["again"]
        self.tickets.remove(ticket)
        if verdict == "granted":
            return self.grant(ticket, offer)
        if verdict == "answered":
            cost = self.network.cost(offer, ticket.asked.minimise)
            self.queue(ticket.peer, wire.answer(ticket.of, self.far_ends(offer), ticket.asked.minimise, cost))
        elif verdict != "gone" and ticket.purpose == "answer":
            self.queue(ticket.peer, wire.no_path(ticket.of))
        return [verdict]

    def judge(self, ticket, offer):
        if self.is_gone(ticket):
            return "gone"
        again = "again" if ticket.tries < MOST_TRIES else None
        if offer is None:
            return "nopath" if ticket.seen == self.changes else again or "nopath"
        good = sums.admits(self.left(), ticket.asked, self.own_tunnel(ticket), offer)
        if not good or not sums.keeps_other_bounds(self.network, ticket.asked, offer):
            return again or "givenup"
        if ticket.purpose == "answer":
            return "answered"
        number_used = self.is_number_used(ticket.peer, self.next_number(ticket.peer))
        return "givenup" if number_used or len(self.all_paths()) >= MOST_PATHS else "granted"

    def is_gone(self, ticket):
        peer = self.peers.get(ticket.peer, Peer())
        if not peer.up or peer.session != ticket.session:
            return True
        if ticket.purpose == "answer":
            return False
        record = self.records.get((ticket.peer, ticket.of))
        moot = record is None or not record.delegated or self.is_pending(ticket.peer, ticket.of)
        return peer.syncing or ticket.purpose == "update" and moot

    def far_ends(self, way):
        return [self.network.links[link].remote for link in way]

    def grant(self, ticket, offer):
        peer, srp, asked = ticket.peer, self.next_number(ticket.peer), ticket.asked
        update = ticket.purpose == "update"
        before, tunnel = self.left(), self.own_tunnel(ticket)
        grant = Path(peer, ticket.of if update else 0, None, srp, tunnel, asked.hold, asked.bandwidth, offer)
        self.change(peer, [], [grant])
        self.must_take_what_is_there(grant, asked, before)
        if update:
            self.ask_for(peer, wire.update(srp, ticket.of, self.far_ends(offer), asked))
        else:
            self.names.append((peer, srp, ticket.of))
            self.ask_for(peer, wire.initiate(srp, ticket.of, self.far_ends(offer), asked))
        self.grants += 1
        return ["granted", srp]

    def must_take_what_is_there(self, grant, asked, before):
        """No link of a grant is below zero at a priority, setup or better, at which its tunnel reserves more."""
        after = self.left()
        for link in grant.links:
            for priority in range(asked.setup + 1):
                fell = after.unreserved[link][priority] < before.unreserved[link][priority]
                if fell and after.unreserved[link][priority] < 0:
                    raise Broken(f"a grant took what is not there: {grant}, link {link}, priority {priority}")
