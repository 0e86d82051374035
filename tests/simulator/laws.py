"""What holds of the state after each event, whatever was sent, on its plain lists."""

from .facts import MOST_PATHS, MOST_PEERS, MOST_TICKETS, MOST_TRIES


def twice(items):
    """What stands more than once."""
    seen = set()
    return {item for item in items if item in seen or seen.add(item)}


def records_without_a_path(state, paths):
    """Each record has a path or a grant of its LSP."""
    return state.records.keys() - {(path.peer, path.plsp) for path in paths}


def names_without_a_grant(state, paths):
    """The names that are held for unbound grants are those of the unbound grants."""
    unbound = {(path.peer, path.srp) for path in paths if path.srp is not None and path.plsp == 0}
    return unbound ^ {(peer, srp) for peer, srp, _ in state.names} | twice((peer, srp) for peer, srp, _ in state.names)


def numbers_used_twice(state, paths):
    """Of one peer no two grants or awaited removals have one SRP-ID."""
    grants = [(path.peer, path.srp) for path in paths if path.srp is not None]
    return twice(grants + [(peer, record.removing) for (peer, _), record in state.records.items() if record.removing])


def grants_of_one_lsp(state, paths):
    """An LSP has at most one grant."""
    return twice((path.peer, path.plsp) for path in paths if path.srp is not None and path.plsp)


def paths_of_one_lsp_id(state, paths):
    """An LSP has at most one path of an LSP ID."""
    return twice((path.peer, path.plsp, path.lsp) for path in paths if path.lsp is not None)


def tickets_out_of_order(state, paths):
    """Tickets' numbers rise, none is above the last, and none was taken more often than it may be."""
    numbers = [0, *(ticket.number for ticket in state.tickets), state.last_ticket + 1]
    fall = {after for before, after in zip(numbers, numbers[1:]) if before >= after}
    return fall | {ticket.number for ticket in state.tickets if ticket.tries > MOST_TRIES}


def more_than_may_be(state, paths):
    """There are no more peers, tickets or paths than there may be."""
    amounts = ((state.peers, MOST_PEERS), (state.tickets, MOST_TICKETS), (paths, MOST_PATHS))
    return {len(items) for items, most in amounts if len(items) > most}


LAWS = (
    records_without_a_path,
    names_without_a_grant,
    numbers_used_twice,
    grants_of_one_lsp,
    paths_of_one_lsp_id,
    tickets_out_of_order,
    more_than_may_be,
)


class Broken(Exception):
    """A law doesn't hold."""


def must_hold(state):
    paths = state.all_paths()
    for law in LAWS:
        if found := law(state, paths):
            raise Broken(f"{law.__name__}: {sorted(found, key=str)[:5]}")
