"""The lines of steps: `STEP EVENT.. = REPLY`, read into events of the plain state, and written."""

import re

from . import spelled, wire, words
from .network import HOPS, IGP, TE, dotted
from .session import constraints_of
from .sums import Constraints

MOST_BYTES = 1 << 18
WORD, LONG = 1 << 32, 1 << 64
CAPABILITIES = {("-",): None, (): (False, False), ("update",): (True, False), ("initiate",): (False, True), ("update", "initiate"): (True, True)}
OF_PEER = ("marker", "down", "expire", "drain")
NUMBERED = {"refused": WORD, "return": 1 << 20, "delete": 1 << 20}
# replies of one number, and what it is below
COUNTED = {"asked": LONG, "job": LONG, "granted": WORD, "removing": WORD, "out": LONG}
PLAIN = ("done", "booked", "booked wants", "idle", "answered", "again", "nopath", "givenup", "gone")
METRICS = {"te": TE, "igp": IGP, "hops": HOPS}
REFUSALS = [str(why) for why in range(1, 21) if why != 13] + ["13 source", "13 destination", "13 both"]


class BadLine(Exception):
    """The line is none of a journal."""


def need(holds):
    if not holds:
        raise BadLine


# ---- words


def number(word, limit):
    need(re.fullmatch("0|[1-9][0-9]{0,19}", word) and int(word) < limit)
    return int(word)


def numbers(given, limits):
    need(len(given) == len(limits))
    return [number(word, limit) for word, limit in zip(given, limits)]


def peer(word):
    parts = word.split(".")
    first, second, third, fourth = numbers(parts, [256] * 4)
    return first << 24 | second << 16 | third << 8 | fourth


def digits(word):
    need(re.fullmatch("([0-9a-f][0-9a-f])*", word))
    return bytes.fromhex(word)


def one_item(word, kind, spelling_of):
    """The one report or request of a message in its one spelling."""
    message = digits(word)
    need(len(message) >= 4 and message[0] == 0x20 and message[1] == kind and int.from_bytes(message[2:4], "big") == len(message))
    try:
        _, items = wire.read(message)
    except (wire.Malformed, wire.Unrecognized, wire.Refused) as fault:
        raise BadLine from fault
    need(len(items) == 1 and spelling_of(message, items[0]) == message)
    return items[0]


def report_in(word):
    return one_item(word, wire.REPORT, lambda message, _: spelled.report_bytes(spelled.reports_of(message[4:])[0]))


def request_in(word):
    return one_item(word, wire.REQUEST, lambda _, request: spelled.request_bytes(request))


# ---- events, as the plain state takes them


def bound_in(word):
    return None if word == "-" else number(word, LONG)


def asked_in(given):
    need(len(given) == 11)
    source, destination = map(peer, given[:2])
    bandwidth = number(given[2], words.LIMIT)
    need(words.raised(bandwidth) == bandwidth)
    setup, hold = numbers(given[3:5], (8, 8))
    need(hold <= setup and given[5] in METRICS)
    asked = Constraints(source, destination, bandwidth, setup, hold, tuple(numbers(given[8:], [WORD] * 3)))
    asked.minimise, asked.bound, asked.hop_bound = METRICS[given[5]], *map(bound_in, given[6:8])
    return asked


def purpose_in(word, rest):
    if word == "update":
        return ("update", *numbers(rest, [1 << 20]), None)
    if word == "initiate":
        name = digits(rest[0]) if rest else b""
        need(1 <= len(name) <= 64)
        return "initiate", name, asked_in(rest[1:])
    need(word == "answer" and len(rest) == 1)
    request = request_in(rest[0])
    return "answer", request.number, constraints_of(request), request.plsp


def offer_in(word):
    if word == "none":
        return None
    return tuple(number(link, LONG) for link in word.split(",")) if word else ()


def entries_in(given):
    entries = []
    while given:
        link, igp, te, colour, reservable = numbers(given[:5], (LONG, 1 << 24, 1 << 24, WORD, words.LIMIT))
        need(igp and te)
        entries.append((link, igp, te, colour, reservable))
        need(len(given) == 5 or given[5] == ";" and len(given) > 6)
        given = given[6:]
    return entries


def event_in(word, given):
    """The event's name and what goes with it."""
    if word == "take":
        need(not given)
        return ("take",)
    if word == "commit":
        need(len(given) == 2)
        return "commit", number(given[0], LONG), offer_in(given[1])
    if word == "reload":
        return "reload", entries_in(given)
    need(given)
    from_peer, rest = peer(given[0]), given[1:]
    if word == "up":
        need(tuple(rest) in CAPABILITIES)
        return "up", from_peer, CAPABILITIES[tuple(rest)]
    if word == "report":
        need(len(rest) == 1)
        return "report", from_peer, report_in(rest[0])
    if word == "ask":
        need(rest)
        return ("ask", from_peer, *purpose_in(rest[0], rest[1:]))
    if word in NUMBERED:
        return (word, from_peer, *numbers(rest, [NUMBERED[word]]))
    need(word in OF_PEER and not rest)
    return word, from_peer


def reply_in(text):
    word, _, rest = text.partition(" ")
    if word in COUNTED:
        number(rest, COUNTED[word])
    else:
        need(text in PLAIN or word == "refused" and rest in REFUSALS)
    return text


def step_in(line):
    """The step's place, its event, and the text of its reply."""
    need(len(line) <= MOST_BYTES and line.isascii())
    front, equals, reply = line.partition("=")
    need(equals and front.endswith(" ") and reply.startswith(" "))
    place, *given = front[:-1].split(" ")
    need(given)
    return number(place, LONG), event_in(given[0], given[1:]), reply_in(reply[1:])


# ---- written


def reply_text(reply):
    kind, *rest = reply
    if kind == "refused":
        return f"refused {rest[0]}" + (f" {rest[1]}" if rest[1] else "")
    if kind == "booked":
        return "booked wants" if rest[0] else "booked"
    if kind == "out":
        return f"out {len(rest[0])}"
    return f"{kind} {rest[0]}" if rest else kind


def bound_word(bound):
    return "-" if bound is None else bound


def asked_words(asked):
    ends, metrics = [dotted(asked.source), dotted(asked.destination)], {metric: word for word, metric in METRICS.items()}
    limits = [metrics[asked.minimise], bound_word(asked.bound), bound_word(asked.hop_bound), *asked.colours]
    return [*ends, asked.bandwidth, asked.setup, asked.hold, *limits]


def event_words(event, message=None):
    """The words of an event. A report and a request are given as the bytes of their messages of one item."""
    word, *rest = event
    if word == "take":
        return ["take"]
    if word == "commit":
        links = "none" if rest[1] is None else ",".join(map(str, rest[1]))
        return ["commit", rest[0], links]
    if word == "reload":
        return ["reload", *" ; ".join(" ".join(map(str, entry)) for entry in rest[0]).split(" ")] if rest[0] else ["reload"]
    head = [word, dotted(rest[0])]
    if word == "up":
        sent = {sent: given for given, sent in CAPABILITIES.items()}[rest[1]]
        return head + list(sent)
    if word == "report":
        return [*head, message.hex()]
    if word == "ask" and rest[1] == "update":
        return [*head, "update", rest[2]]
    if word == "ask" and rest[1] == "initiate":
        return [*head, "initiate", rest[2].hex(), *asked_words(rest[3])]
    if word == "ask":
        return [*head, "answer", message.hex()]
    return head + rest[1:]


def line_of(place, event, reply, message=None):
    return " ".join(map(str, [place, *event_words(event, message), "=", reply_text(reply)]))
