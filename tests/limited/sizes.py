"""Long messages, and bytes that wait."""
from .network import reports
from .scripts import PEERS, Script, down, knows, limit, longest_report, pair


def fed(pieces):
    """A session that is fed these pieces, which are one or more times the longest report."""
    script = Script(pair())
    script.comes_up(1)
    for piece in pieces:
        script.does(f"msg 1 {piece}")
    knows(script, 1, longest_report()[1])
    return script


@limit("a line `report` of 65,532 bytes")
def _():
    text, count = longest_report()
    script = Script(pair())
    script.does(f"report 1 {text}", *["booked"] * count)
    knows(script, 1, count)
    return script


@limit("a message of 8,192 bytes in a session")
def _():
    count = 8188 // len(down(1))
    script = Script(pair())
    script.comes_up(1)
    script.does(f"msg 1 {reports(down(n) for n in range(1, count + 1))}")
    knows(script, 1, count)
    return script


@limit("a message of 65,532 bytes in a session, in one line")
def _():
    return fed([longest_report()[0]])


@limit("a message of 65,532 bytes in lines of 997 bytes")
def _():
    text = longest_report()[0]
    return fed(text[at:at + 1994] for at in range(0, len(text), 1994))


@limit("a message of 65,532 bytes, byte by byte")
def _():
    text = longest_report()[0]
    return fed(text[at:at + 2] for at in range(0, len(text), 2))


@limit("two messages of 65,532 bytes in one line")
def _():
    return fed([longest_report()[0] * 2])


@limit("57,176 bytes of short messages and 65,523 of the longest in one line, and its last nine one by one")
def _():
    text, count = longest_report()
    script = Script(pair())
    script.comes_up(1)
    script.does(f"msg 1 {reports([down(1)] * 60) * 14}{text[:-18]}")
    for at in range(len(text) - 18, len(text), 2):
        knows(script, 1, 1)
        script.does(f"msg 1 {text[at:at + 2]}")
    knows(script, 1, count)
    return script


@limit("65,531 bytes that wait in each of 64 sessions")
def _():
    text, count = longest_report()
    script = Script(pair())
    for peer in range(1, PEERS + 1):
        script.comes_up(peer)
        script.does(f"msg {peer} {text[:-2]}")
    for peer in range(1, 17):
        script.does(f"msg {peer} {text[-2:]}")
        knows(script, peer, count)
    return script
