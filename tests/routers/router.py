"""A simulated router (PCC). One class with switches for what routers do differently.

It lives in a thread of its own: connects, comes up, reports all of its LSPs, answers what it is asked as its temper says, and
sends Keepalives. What a case has it do goes through the same lock.
"""
import heapq
import itertools
import select
import socket
import struct
import threading
import time
from collections import defaultdict
from dataclasses import replace

import pcep
from harness.clock import TIMEOUT_S, paced
from pcep.reading import asks_of

from .lsp import Lsp, Path, Temper, settle

# after how many seconds a router whose connection has ended tries again
AGAIN = 0.2


class Router:
    """A router that connects from an address to a PCE."""

    def __init__(self, server, address, network, temper=Temper(), holds=()):
        self.server, self.address, self.network, self.temper = server, address, network, temper
        self.lock = threading.RLock()
        self.tunnels, self.order = itertools.count(1), itertools.count()
        self.lsps, self.last_plsp = {}, 0
        # what was heard; what reports named, as (session, SRP-ID, moment); each LSP that was reported, as (session, PLSP-ID, LSP)
        self.heard, self.named, self.reported = [], [], []
        # when LSPs were reported that are up, by the session's number
        self.shown_up = defaultdict(list)
        # when each session sent its end of synchronization, by the session's number, and when each ended
        self.synced, self.ended, self.reasons = {}, {}, []
        self.session, self.socket, self.rest = 0, None, b""
        self.has_greeted = self.is_over = False
        self.due, self.returns_at, self.sent_at = [], 0.0, 0.0
        for lsp in holds:
            self.hold(lsp)
        self.thread = threading.Thread(target=self.run, daemon=True)
        self.thread.start()

    # ---- what a case has it do

    def hold(self, lsp):
        """Takes an LSP in, without a word. Its PLSP-ID."""
        with self.lock:
            self.last_plsp += 1
            self.lsps[self.last_plsp] = lsp
            return self.last_plsp

    def lsp(self, name, source, destination, bandwidth, way=None, state=pcep.UP, **more):
        """A new LSP, over a way or without a route. Its PLSP-ID; it is reported where the session is up."""
        with self.lock:
            new = Lsp(name, source, destination, next(self.tunnels), bandwidth, protects=self.temper.protects, **more)
            new.paths[1] = Path(state, tuple(way), bandwidth) if way else Path(pcep.DOWN, (), bandwidth)
            plsp = self.hold(new)
            if self.is_up:
                self.report(plsp)
            return plsp

    def move(self, plsp, way, bandwidth=None, srp=None, after=None):
        """Sets a path up over a way, then removes the one before (make-before-break, RFC 3209 section 2.5)."""
        with self.lock:
            lsp, temper = self.lsps[plsp], self.temper
            old = lsp.lsp_id
            if lsp.current is not None and lsp.current.state != pcep.DOWN:
                lsp.lsp_id = max(lsp.paths) % 0xFFFF + 1
            lsp.bandwidth = lsp.bandwidth if bandwidth is None else bandwidth
            lsp.why = ()
            new, final = lsp.lsp_id, pcep.ACTIVE if after == "active" else pcep.UP
            self.show(plsp, temper.begins, way, lsp.bandwidth, srp)
            again = 0 if srp is None or temper.answers == "first" else srp

            def is_up_now():
                if self.lsps.get(plsp) is lsp and new in lsp.paths:
                    lsp.paths[new].state = final
                    self.report(plsp, again if srp is not None else None, new)

            def is_gone():
                if self.lsps.get(plsp) is lsp and old in lsp.paths and old != lsp.lsp_id:
                    self.remove_path(plsp, old)

            if temper.begins not in (pcep.UP, pcep.ACTIVE):
                self.later(temper.signals, is_up_now)
            if old != new:
                self.later(temper.signals + temper.late, is_gone)

    def show(self, plsp, state, way, bandwidth, srp=None):
        """Reports the LSP's current path so."""
        with self.lock:
            lsp = self.lsps[plsp]
            lsp.paths[lsp.lsp_id] = Path(state, tuple(way), bandwidth)
            self.report(plsp, srp)

    def say_state(self, plsp, state, srp=None, why=(), **changes):
        """Reports the LSP's current path in this state, and what else has changed."""
        with self.lock:
            lsp = self.lsps[plsp]
            for name, value in changes.items():
                setattr(lsp, name, value)
            lsp.why = why
            self.show(plsp, state, lsp.current.way if lsp.current else (), lsp.bandwidth, srp)

    def remove_path(self, plsp, lsp_id, srp=None):
        with self.lock:
            self.report(plsp, srp, lsp_id, removed=True)
            del self.lsps[plsp].paths[lsp_id]

    def remove(self, plsp, srp=None):
        """Removes an LSP with all of its paths."""
        with self.lock:
            lsp = self.lsps[plsp]
            for place, lsp_id in enumerate(list(lsp.paths)):
                self.report(plsp, srp if place == 0 else None, lsp_id, removed=True)
            del self.lsps[plsp]

    def lose_connection(self, comes_back=AGAIN):
        """Closes its connection, and comes back after these seconds (None: never)."""
        with self.lock:
            self.hang_up("closed by itself", comes_back)

    def leave(self):
        """Is gone for good, with its LSPs."""
        with self.lock:
            self.lose_connection(None)
            self.lsps.clear()

    def end(self):
        self.is_over = True
        self.lose_connection(None)
        self.thread.join(TIMEOUT_S)

    # ---- what a case looks at

    @property
    def is_up(self):
        return self.socket is not None and self.session in self.synced

    def asks(self, kind=pcep.PCUPD, plsp=None):
        """What it was asked for so far, of this kind and, if given, of this LSP."""
        with self.lock:
            return [ask for ask in self.heard if ask.kind == kind and plsp in (None, ask.plsp)]

    def waits_for_asks(self, count, kind=pcep.PCUPD, within=TIMEOUT_S, plsp=None):
        """The asks, once there are so many, or what there is after these seconds of `paced`."""
        until = paced() + within
        while len(self.asks(kind, plsp)) < count and paced() < until:
            time.sleep(0.01)
        return self.asks(kind, plsp)

    def waits_until_up(self, within=TIMEOUT_S, session=1):
        until = paced() + within
        while not (self.is_up and self.session >= session) and paced() < until:
            time.sleep(0.01)
        if not self.is_up:
            raise ValueError(f"{self.address} doesn't come up: {self.reasons}")
        return self

    # ---- its thread

    def later(self, seconds, act):
        heapq.heappush(self.due, (time.monotonic() + seconds, next(self.order), self.session, act))

    def run(self):
        while not self.is_over:
            with self.lock:
                now = time.monotonic()
                if self.socket is None and self.returns_at is not None and now >= self.returns_at:
                    self.connect()
                while self.due and self.due[0][0] <= now:
                    _, _, session, act = heapq.heappop(self.due)
                    if session == self.session and self.socket is not None:
                        act()
                if self.socket is not None and now - self.sent_at > min(10, self.temper.timers[1] / 4 or 10):
                    self.send(pcep.message(pcep.KEEPALIVE_TYPE))
                source = self.socket
            # (due acts of a case's are looked for a hundred times a second)
            if source is None:
                time.sleep(0.01)
            else:
                try:
                    ready = select.select([source], [], [], 0.01)[0]
                except (OSError, ValueError):
                    continue
                if ready:
                    with self.lock:
                        if self.socket is source:
                            self.hear()

    def connect(self):
        self.session += 1
        self.rest, self.has_greeted = b"", False
        try:
            each = socket.socket()
            each.setsockopt(socket.IPPROTO_TCP, socket.TCP_NODELAY, 1)
            each.settimeout(TIMEOUT_S)
            each.bind((self.address, 0))
            each.connect(self.server)
            self.socket = each
        except OSError as fault:
            self.reasons.append(repr(fault))
            self.returns_at = time.monotonic() + AGAIN
            return
        self.send(pcep.opening(*self.temper.timers))
        if self.temper.renumbers and self.session > 1:
            # the LSPs in the other order, under numbers that others had
            self.lsps = dict(enumerate(reversed(list(self.lsps.values())), 1))
            self.last_plsp = len(self.lsps)

    def hang_up(self, why, comes_back=AGAIN):
        if self.socket is not None:
            self.socket.close()
            self.socket = None
            self.ended[self.session] = time.monotonic()
            self.reasons.append(why)
            [settle(lsp) for lsp in self.lsps.values()]
        self.due.clear()
        self.returns_at = None if comes_back is None else time.monotonic() + comes_back

    def send(self, data):
        if self.socket is None:
            return
        try:
            self.socket.sendall(data)
            self.sent_at = time.monotonic()
        except OSError as fault:
            self.hang_up(repr(fault))

    def hear(self):
        try:
            data = self.socket.recv(1 << 16)
        except OSError as fault:
            return self.hang_up(repr(fault))
        if not data:
            return self.hang_up("closed by the PCE")
        self.rest += data
        while self.socket is not None and len(self.rest) >= 4:
            length = struct.unpack(">H", self.rest[2:4])[0]
            if len(self.rest) < max(4, length):
                return None
            heard, self.rest = self.rest[:max(4, length)], self.rest[max(4, length):]
            self.take(heard)
        return None

    def take(self, heard):
        kind = heard[1]
        if kind == pcep.OPEN_TYPE:
            self.send(pcep.message(pcep.KEEPALIVE_TYPE))
        elif kind == pcep.KEEPALIVE_TYPE and not self.has_greeted:
            self.has_greeted = True
            self.synchronize()
        elif kind in (pcep.PCUPD, pcep.PCINITIATE, pcep.PCERR):
            for ask in asks_of(heard, time.monotonic(), self.session):
                self.heard.append(ask)
                if kind != pcep.PCERR:
                    self.answer(ask)
                elif ask.error[0] in (1, 9):
                    self.hang_up(f"PCErr {ask.error}")
        elif kind == pcep.CLOSE_TYPE:
            self.hang_up("Close of the PCE")

    def synchronize(self):
        """Reports all LSPs, and the end of that (RFC 8231 section 5.6)."""
        for plsp, lsp in self.lsps.items():
            for lsp_id in lsp.paths:
                self.report(plsp, None, lsp_id, sync=True)
        self.synced[self.session] = time.monotonic()
        self.send(pcep.END_OF_SYNC)

    def report(self, plsp, srp=None, lsp_id=None, sync=False, removed=False):
        """Reports one path (RFC 8231 section 6.1), under an SRP-ID (0: the reserved one)."""
        lsp = self.lsps[plsp]
        lsp_id = lsp.lsp_id if lsp_id is None else lsp_id
        path = lsp.paths[lsp_id]
        flags = (pcep.DELEGATE * lsp.delegated | pcep.SYNC * sync | pcep.REMOVE * removed | pcep.ADMIN * lsp.admin | pcep.CREATE * lsp.created
                 | (0 if removed else path.state) << 4)
        parts = [] if srp is None else [pcep.srp(srp)]
        parts.append(pcep.lsp(plsp, flags, pcep.identifiers(lsp.source, lsp_id, lsp.tunnel, lsp.destination), pcep.tlv(pcep.NAME, lsp.name.encode()), *lsp.why))
        parts.append(pcep.route(pcep.ERO, () if removed else self.network.interfaces(path.way)))
        if not removed:
            parts += [pcep.attributes(lsp.setup, lsp.hold, lsp.protects), pcep.bandwidth(path.bandwidth), *self.record_of(path)]
            is_hidden = self.temper.records == "labels" and self.is_recorded(path)
            path.shown_way = self.network.links_between(lsp.source, lsp.destination)[:1] if is_hidden else path.way
        if srp:
            self.named.append((self.session, srp, time.monotonic()))
        if not removed and path.state in (pcep.UP, pcep.ACTIVE):
            self.shown_up[self.session].append(time.monotonic())
        self.reported.append((self.session, plsp, replace(lsp)))
        self.send(pcep.message(pcep.PCRPT, *parts))

    def is_recorded(self, path):
        """Whether a report of the path has an RRO: it is up, and isn't only being set up."""
        return path.state in (pcep.UP, pcep.ACTIVE, pcep.GOING_DOWN) and path.way != () and self.temper.records is not None

    def record_of(self, path):
        if not self.is_recorded(path):
            return []
        if self.temper.records == "labels":
            return [pcep.labels(len(path.way))]
        hops = self.network.node_ids if self.temper.records == "nodes" else self.network.interfaces
        return [pcep.route(pcep.RRO, hops(path.way))]

    # ---- how it answers

    def answer(self, ask):
        temper = self.temper
        if temper.drops > len(self.ended):
            self.lose_connection()
        elif temper.answers == "never":
            pass
        elif temper.answers == "error":
            self.send(pcep.error(24, 1, ask.srp) if ask.kind == pcep.PCINITIATE else pcep.error(19, 1, ask.srp))
        elif ask.kind == pcep.PCINITIATE and not ask.removes:
            self.create(ask)
        elif ask.plsp not in self.lsps:
            self.send(pcep.error(19, 3, ask.srp))
        elif ask.removes:
            self.remove(ask.plsp, ask.srp)
        elif not ask.delegates:
            self.say_state(ask.plsp, self.lsps[ask.plsp].current.state, ask.srp, delegated=False)
        else:
            self.update(ask)

    def update(self, ask):
        lsp = self.lsps[ask.plsp]
        way = self.network.way_of(lsp.source, ask.hops, lsp.destination)
        if way is None:
            self.send(pcep.error(19, 1, ask.srp))
        elif self.temper.refuses:
            # it stays as it is, and the report says why (RFC 8231 section 7.3.3)
            failed = pcep.tlv(pcep.ERROR_CODE, struct.pack(">I", 8)), pcep.rsvp_error(self.network.node_ids(way)[0], 1, 2)
            self.say_state(ask.plsp, lsp.current.state, ask.srp, why=failed)
        else:
            lsp.protects, lsp.setup, lsp.hold = ask.protects, ask.setup, ask.hold
            self.move(ask.plsp, way, int(ask.bandwidth), ask.srp)

    def create(self, ask):
        source, destination = ask.ends
        way = self.network.way_of(source, ask.hops, destination)
        if way is None or self.temper.refuses:
            self.send(pcep.error(24, 3, ask.srp))
            return
        new = Lsp(ask.name.decode(), source, destination, next(self.tunnels), int(ask.bandwidth), ask.setup, ask.hold, created=True)
        new.paths[1] = Path(pcep.DOWN, (), new.bandwidth)
        self.move(self.hold(new), way, None, ask.srp)
