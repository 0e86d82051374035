"""What reports do to paths and records (RFC 8231 section 6.1)."""

from dataclasses import replace

from . import wire
from .facts import BAD_REPORT, MANY_PATHS, MOST_PATHS, Path, Record, need
from .sums import Constraints


class Reports:
    """The events of reports, on the state's lists."""

    def on_report(self, peer, report):
        self.must_be_up(peer)
        need(report.plsp not in (0, 0xFFFFF), BAD_REPORT)
        return self.take_removal(peer, report) if report.removed else self.take_report(peer, report)

    def grants_met(self, peer, report):
        """The LSP's grant, or where it has none the unbound grant of the report's SRP-ID."""
        unbound = [path for path in self.grants_of(peer, 0) if path.srp == report.srp]
        return self.grants_of(peer, report.plsp) or unbound

    def must_have_room(self, dropped, added):
        stand = sum(len(paths) for paths in self.paths.values())
        need(stand - len(dropped) + len(added) <= MOST_PATHS, MANY_PATHS)

    def take_report(self, peer, report):
        tunnel, zero = tunnel_of(peer, report), not any(report.identifiers)
        met = self.grants_met(peer, report)
        kept = [path for path in met if not is_settled(path, report)]
        replaced = [path for path in self.paths_of(peer, report.plsp) if is_replaced(path, report, zero)]
        moved = [replace(path, plsp=report.plsp, tunnel=tunnel, fresh=True) for path in kept]
        added = [self.reported(peer, report, tunnel), *moved]
        self.must_have_room(met + replaced, added)
        self.change(peer, met + replaced, added)
        record = self.recorded(peer, report, tunnel, zero)
        self.records[peer, report.plsp] = record
        return ["booked", self.wants_path(peer, report, bool(kept), record)]

    def reported(self, peer, report, tunnel):
        sender, lsp, _, _, endpoint = report.identifiers
        hops = report.ero if report.rro is None else report.rro
        links = () if report.operational == wire.DOWN else self.network.walk(sender, hops, endpoint)
        return Path(peer, report.plsp, lsp, None, tunnel, report.hold, report.bandwidth, links)

    def recorded(self, peer, report, tunnel, zero):
        old = self.records.get((peer, report.plsp))
        ends = report.identifiers[0], report.identifiers[4]
        if zero:
            ends = (old.asked.source, old.asked.destination) if old else (None, None)
        asked = Constraints(*ends, report.bandwidth, report.setup, report.hold, report.colours, report.is_protected)
        name = report.name if report.name is not None else old.name if old else b""
        return Record(name, report.delegated, report.created, asked, tunnel, old.removing if old else None)

    def wants_path(self, peer, report, has_grant, record):
        down = report.delegated and report.operational == wire.DOWN and not report.ero
        known = self.peers[peer]
        free = not has_grant and record.removing is None
        return down and free and known.update and not known.syncing and not self.is_update_asked(peer, report.plsp)

    def take_removal(self, peer, report):
        zero = not any(report.identifiers)
        met = self.grants_met(peer, report)
        gone = [path for path in self.paths_of(peer, report.plsp) if zero or path.lsp == report.identifiers[1]]
        bound = [path for path in met if path.plsp == 0 and not is_settled(path, report) and not zero]
        settled = [path for path in met if path not in gone and (path.plsp == 0 or is_settled(path, report))]
        self.change(peer, gone + settled, [replace(path, plsp=report.plsp, fresh=True) for path in bound])
        if not self.paths_of(peer, report.plsp):
            self.records.pop((peer, report.plsp), None)
        return ["booked", False]


def tunnel_of(peer, report):
    if not any(report.identifiers):
        return ("unsignalled", peer, report.plsp)
    _, _, tunnel, extended, endpoint = report.identifiers
    return ("signalled", peer, endpoint, tunnel, extended)


def is_settled(path, report):
    """The peer has done what it was asked, or won't."""
    return path.srp == report.srp and report.operational in (wire.DOWN, wire.UP, wire.ACTIVE)


def is_replaced(path, report, zero):
    if path.lsp is None:
        return False
    return zero or path.lsp == report.identifiers[1] or path.tunnel[0] == "unsignalled"
