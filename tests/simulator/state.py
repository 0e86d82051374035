"""What the server knows, in plain lists, and what each event does to it."""

from dataclasses import replace

from . import sums, wire
from .facts import (
    LAST_NUMBER,
    MANY_PEERS,
    MOST_PEERS,
    NO_INITIATE,
    NO_UPDATE,
    NOT_CREATED,
    NOT_DELEGATED,
    NUMBER_IN_USE,
    PEER_DOWN,
    PEER_UP,
    PENDING,
    SYNCING,
    UNKNOWN_LINK,
    UNKNOWN_LSP,
    UNKNOWN_PEER,
    Peer,
    Refusal,
    need,
)
from .reports import Reports
from .rows import KeyedRows, Rows
from .tickets import Tickets


class State(Reports, Tickets):
    def __init__(self, network):
        self.network = network
        self.peers, self.paths, self.records = {}, {}, KeyedRows()
        # all paths, in the order in which a base has them
        self.path_rows = Rows()
        self.names, self.tickets = Rows(), []
        self.changes = self.last_session = self.last_ticket = self.grants = 0
        self.last_left = None

    # ---- looks

    def all_paths(self):
        return [path for paths in self.paths.values() for path in paths]

    def left(self):
        """Summed anew where something changed."""
        if self.last_left is None or self.last_left[0] != self.changes:
            self.last_left = self.changes, sums.Left(self.network, self.all_paths())
        return self.last_left[1]

    def paths_of(self, peer, plsp):
        return [path for path in self.paths.get(peer, ()) if path.plsp == plsp]

    def grants_of(self, peer, plsp):
        return [path for path in self.paths_of(peer, plsp) if path.srp is not None]

    def is_pending(self, peer, plsp):
        record = self.records.get((peer, plsp))
        return bool(self.grants_of(peer, plsp)) or record is not None and record.removing is not None

    def is_update_asked(self, peer, plsp):
        return any((t.peer, t.purpose, t.of) == (peer, "update", plsp) for t in self.tickets)

    def next_number(self, peer):
        last = self.peers[peer].last_srp
        return last + 1 if last < LAST_NUMBER else 1

    def is_number_used(self, peer, number):
        by_grant = any(path.srp == number for path in self.paths.get(peer, ()))
        return by_grant or any(p == peer and record.removing == number for (p, _), record in self.records.items())

    def own_tunnel(self, ticket):
        """The tunnel whose reservations the ticket's path shares; one that no path has where there is none."""
        plsp = ticket.of if ticket.purpose == "update" else ticket.plsp
        record = self.records.get((ticket.peer, plsp))
        if ticket.purpose == "initiate":
            return ("asked", ticket.peer, self.next_number(ticket.peer) if ticket.peer in self.peers else 1)
        return record.tunnel if record else ("unsignalled", ticket.peer, 0)

    # ---- tests

    def must_be_up(self, peer):
        need(peer in self.peers, UNKNOWN_PEER)
        need(self.peers[peer].up, PEER_DOWN)

    def must_be_in_sync(self, peer):
        self.must_be_up(peer)
        need(not self.peers[peer].syncing, SYNCING)

    def must_be_held(self, peer, plsp):
        record = self.records.get((peer, plsp))
        need(record is not None, UNKNOWN_LSP)
        need(record.delegated, NOT_DELEGATED)
        need(not self.is_pending(peer, plsp), PENDING)

    def must_have_a_number(self, peer):
        need(not self.is_number_used(peer, self.next_number(peer)), NUMBER_IN_USE)

    # ---- changes

    def change(self, peer, dropped, added):
        """Paths go and come. The name of an unbound grant goes with it."""
        if not dropped and not added:
            return
        paths = self.paths.setdefault(peer, [])
        for path in self.path_rows.in_order(dropped):
            paths.remove(path)
            self.path_rows.remove(path)
            if path.srp is not None and path.plsp == 0 and (entry := self.name_of(peer, path.srp)):
                self.names.remove(entry)
        for path in added:
            paths.append(path)
            self.path_rows.append(path)
        self.changes += 1

    def name_of(self, peer, srp):
        return next((entry for entry in self.names if entry[:2] == (peer, srp)), None)

    def drop(self, peer, goes):
        """The paths that pass the test go, with the peer's records that then have none."""
        self.change(peer, [path for path in self.paths.get(peer, ()) if goes(path)], [])
        left = {path.plsp for path in self.paths.get(peer, ())}
        for key in [key for key in self.records.rows if key[0] == peer and key[1] not in left]:
            del self.records[key]

    def queue(self, peer, message):
        self.peers[peer].outgoing += (message,)

    def ask_for(self, peer, message):
        """The message takes the peer's next number."""
        self.peers[peer].last_srp = self.next_number(peer)
        self.queue(peer, message)

    # ---- events

    def apply(self, event, *words):
        """The reply to an event: a list of its name and what goes with it."""
        try:
            return getattr(self, "on_" + event)(*words) or ["done"]
        except Refusal as refusal:
            return ["refused", refusal.why, refusal.ends]

    def on_up(self, peer, capabilities):
        known = self.peers.get(peer, Peer())
        need(not known.up, PEER_UP)
        need(peer in self.peers or len(self.peers) < MOST_PEERS, MANY_PEERS)
        self.last_session += 1
        update, create = capabilities or (False, False)
        syncing = capabilities is not None
        self.peers[peer] = replace(known, up=True, session=self.last_session, update=update, create=create, syncing=syncing)
        if not syncing:
            self.drop(peer, lambda path: not path.fresh)

    def on_marker(self, peer):
        self.must_be_up(peer)
        self.peers[peer].syncing = False
        self.drop(peer, lambda path: not path.fresh)

    def on_down(self, peer):
        self.must_be_up(peer)
        self.peers[peer] = replace(self.peers[peer], up=False, syncing=False, outgoing=())
        for path in self.paths.get(peer, ()):
            self.path_rows.change(path, replace(path, fresh=False))
        self.paths[peer] = [replace(path, fresh=False) for path in self.paths.get(peer, ())]
        for (owner, _), record in self.records.items():
            if owner == peer:
                record.delegated, record.removing = False, None

    def on_expire(self, peer):
        need(peer in self.peers, UNKNOWN_PEER)
        need(not self.peers[peer].up, PEER_UP)
        self.drop(peer, lambda path: True)
        del self.peers[peer]

    def on_drain(self, peer):
        self.must_be_up(peer)
        waiting, self.peers[peer].outgoing = self.peers[peer].outgoing, ()
        return ["out", waiting]

    def on_reload(self, number, igp, te, colour, reservable):
        """A link has other values; no path changes."""
        need(number < len(self.network.links), UNKNOWN_LINK)
        link = self.network.links[number]
        self.network.links[number] = replace(link, igp=igp, te=te, colour=colour, reservable=reservable)
        self.changes += 1

    def on_refused(self, peer, srp):
        self.must_be_up(peer)
        grants = [path for path in self.paths.get(peer, ()) if path.srp == srp]
        self.change(peer, grants, [])
        for grant in grants:
            if not self.paths_of(peer, grant.plsp):
                self.records.pop((peer, grant.plsp), None)
        for (owner, _), record in self.records.items():
            if not grants and owner == peer and record.removing == srp:
                record.removing = None

    # ---- an operator's

    def on_return(self, peer, plsp):
        self.must_be_in_sync(peer)
        need(self.peers[peer].update, NO_UPDATE)
        self.must_be_held(peer, plsp)
        self.must_have_a_number(peer)
        self.records[peer, plsp].delegated = False
        self.ask_for(peer, wire.give_back(self.next_number(peer), plsp))

    def on_delete(self, peer, plsp):
        self.must_be_in_sync(peer)
        need(self.peers[peer].create, NO_INITIATE)
        record = self.records.get((peer, plsp))
        need(record is not None, UNKNOWN_LSP)
        need(record.created, NOT_CREATED)
        self.must_be_held(peer, plsp)
        self.must_have_a_number(peer)
        record.removing = self.next_number(peer)
        self.ask_for(peer, wire.delete(record.removing, plsp))
        return ["removing", record.removing]
