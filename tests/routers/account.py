"""An account of its own of what routers hold, and of what a PCE may send to a router.

The paths of one tunnel share what they reserve on a link: the greatest bandwidth counts (shared explicit style, RFC 3209 section
2.4.3). A path that is down reserves nothing (RFC 8231 section 7.3).
"""
import bisect
from collections import Counter, defaultdict

import pcep

# how many asks for one LSP a router may get within these numbers of seconds; and half as many more for each report of an LSP that is
# up, in that time or the second before, since pauses begin anew then
MOST_ASKS = {1: 8, 10: 20}


def left_of(network, holdings):
    """What is left of each link at each priority. A holding is a tunnel, a way, a bandwidth and a holding priority."""
    shares = defaultdict(Counter)
    for tunnel, way, bandwidth, hold in holdings:
        for link in way:
            for priority in range(hold, 8):
                shares[link, priority][tunnel] = max(shares[link, priority][tunnel], bandwidth)
    return [[link.reservable - sum(shares[number, priority].values()) for priority in range(8)] for number, link in enumerate(network.links)]


def holdings_of(router):
    """What a router holds, as far as its reports say where."""
    for lsp in router.lsps.values():
        for path in lsp.paths.values():
            if path.state != pcep.DOWN:
                yield (router.address, lsp.destination, lsp.tunnel, lsp.source), path.shown_way, path.bandwidth, lsp.hold


def holding_of_grant(network, router, srp, plsp, links, ask):
    """What a grant holds: what the router was asked to carry out, or, if that never came to it, what the server has on these links.
    A new LSP that its router hasn't reported yet is a tunnel of its own."""
    lsp = router.lsps.get(plsp)
    if lsp is not None:
        tunnel, source, destination = (router.address, lsp.destination, lsp.tunnel, lsp.source), lsp.source, lsp.destination
    else:
        tunnel, (source, destination) = (router.address, "no LSP", srp), ask.ends if ask and ask.ends else (None, None)
    if ask is None:
        return tunnel, links, lsp.bandwidth if lsp else 0, lsp.hold if lsp else 7
    return tunnel, network.way_of(source, ask.hops, destination) or links, int(ask.bandwidth), ask.hold


def is_covered(network, router, plsp, ask):
    """Whether the router reported a path of the LSP that holds all of the grant: its links, its bandwidth, at its priority or a better one."""
    lsp = router.lsps.get(plsp)
    if lsp is None or ask is None or ask.session != router.session or lsp.hold > ask.hold:
        return False
    way = network.way_of(lsp.source, ask.hops, lsp.destination)
    return way is not None and any(
        path.state != pcep.DOWN and set(way) <= set(path.shown_way) and path.bandwidth >= ask.bandwidth for path in lsp.paths.values())


def age_of(router, ask, now):
    """For how long a grant has stood since it was made, or since a report named it last."""
    return now - max([ask.moment, *(moment for session, srp, moment in router.named if (session, srp) == (ask.session, ask.srp))])


# ---- what can be judged from the wire only

def faults_of_numbers(asks):
    """SRP-IDs are neither reserved nor used twice in a session (RFC 8231 section 7.2)."""
    used = Counter((ask.session, ask.srp) for ask in asks)
    yield from (f"SRP-ID {srp} is reserved" for _, srp in used if srp in (0, 0xFFFFFFFF))
    yield from (f"SRP-ID {srp} comes {times} times in a session" for (_, srp), times in used.items() if times > 1)


def faults_of_update(router, ask, known):
    """An update is of an LSP that the router delegated in this session (RFC 8231 section 6.2). `known`: its reports in the session."""
    if not known:
        yield f"PCUpd {ask.srp}: PLSP-ID {ask.plsp} was never reported in this session"
        return
    if not any(lsp.delegated for lsp in known):
        yield f"PCUpd {ask.srp}: PLSP-ID {ask.plsp} was never delegated in this session"
    if ask.flags & (pcep.SYNC | pcep.REMOVE | 0x70):
        yield f"PCUpd {ask.srp}: one of the flags S, R and O is set (RFC 8231 section 7.3)"
    if ask.hops is None:
        yield f"PCUpd {ask.srp}: no ERO"
    elif ask.delegates and router.network and router.network.way_of(known[-1].source, ask.hops, known[-1].destination) is None:
        yield f"PCUpd {ask.srp}: the route {ask.hops} doesn't lead from {known[-1].source} to {known[-1].destination}"
    if ask.session in router.synced and ask.moment < router.synced[ask.session]:
        yield f"PCUpd {ask.srp} comes before the end of synchronization (RFC 8231 section 5.6)"


def faults_of_initiation(ask, known):
    """An initiation has a name, ends and a route (RFC 8281 section 5.3), a deletion an LSP that the router reported."""
    if ask.removes:
        if not known:
            yield f"PCInitiate {ask.srp}: PLSP-ID {ask.plsp} was never reported in this session"
    elif ask.plsp or not ask.name or not ask.ends or not ask.hops:
        yield f"PCInitiate {ask.srp} lacks a name, ends or a route, or has a PLSP-ID: {ask}"


def count_within(moments, begin, span):
    """How many of these moments, in order, are within so many seconds from the beginning."""
    return bisect.bisect_left(moments, begin + span) - bisect.bisect_left(moments, begin)


def faults_of_pace(asks, shown_up):
    """One LSP is asked for a few times a second at most. `shown_up`: when the router reported an LSP that is up, by session."""
    moments = defaultdict(list)
    for ask in asks:
        moments[ask.session, ask.plsp, ask.name].append(ask.moment)
    for (session, plsp, name), found in moments.items():
        for span, most in MOST_ASKS.items():
            for begin in found:
                count, ups = count_within(found, begin, span), count_within(shown_up[session], begin - 1, span + 1)
                if count > most + ups * most // 2:
                    yield f"PLSP-ID {plsp} {name!r} was asked for {count} times within {span} s, beside {ups} reports of LSPs that are up"
                    break


def reports_of(router):
    """The LSPs as they were reported, by session and PLSP-ID."""
    found = defaultdict(list)
    for session, plsp, lsp in router.reported:
        found[session, plsp].append(lsp)
    return found


def wire_faults(router):
    """What is wrong with what a router was sent."""
    asks, reports = [ask for ask in router.heard if ask.kind in (pcep.PCUPD, pcep.PCINITIATE)], reports_of(router)
    found = [*faults_of_numbers(asks), *faults_of_pace(asks, router.shown_up)]
    for ask in asks:
        known = reports[ask.session, ask.plsp]
        found += faults_of_update(router, ask, known) if ask.kind == pcep.PCUPD else faults_of_initiation(ask, known)
    return [f"{router.address}: {text}" for text in found]


def unprotected(router):
    """The updates that change the wish for local protection of an LSP (RFC 3209 section 4.7.1)."""
    reports = reports_of(router)
    return [ask.srp for ask in router.heard if ask.kind == pcep.PCUPD and ask.delegates
            and any(lsp.protects != ask.protects for lsp in reports[ask.session, ask.plsp])]
