"""Many paths, peers, tickets and steps."""
from .network import MARKER, found, initiation, message, refusal, report, reports, request, too_many, unknown_ends
from .scripts import PATHS, PEERS, STEPS, TICKETS, Script, batches, chain, filled, knows, limit, pair


@limit("16,384 paths of one peer, and the next refused")
def _():
    script = Script(chain(2))
    script.comes_up(1)
    script.shows({}, 2)
    script.shows(filled(script), 2)
    script.does(f"report 1 {reports([report(PATHS + 1, [0, 1], (0, 2))])}", "refused 11")
    script.does(f"report 1 {reports([report(1, [0], (0, 1), tunnel=99, bandwidth=5)])}", "booked")
    script.shows({0: 55, 1: 50}, 2)
    for n in range(1, PATHS + 1):
        script.does(f"report 1 {reports([report(n, [], flags=4)])}", "booked")
    script.shows({}, 2)
    knows(script, 1, 0)
    return script


@limit("the end of synchronization of a peer with 16,384 paths")
def _():
    script = Script(chain(2))
    script.comes_up(1)
    held = filled(script)
    script.does("end 1", "down 1")
    script.comes_up(1, False)
    script.shows(held, 2)
    script.does(f"msg 1 {reports([report(1, [0, 1], (0, 2))])}")
    script.does(f"msg 1 {MARKER}")
    script.shows({0: 1, 1: 1}, 2)
    knows(script, 1, 1)
    return script


@limit("the expiry of a peer with 16,384 paths")
def _():
    script = Script(chain(2))
    script.comes_up(1)
    filled(script)
    script.does("end 1", "down 1")
    script.does("expire 1", "done")
    script.shows({}, 2)
    return script


@limit("the end of a session with 16,384 delegated LSPs, which are known in the next")
def _():
    script = Script(chain(2))
    script.comes_up(1)
    filled(script, flags=0x19)
    script.does(f"update 1 {PATHS}", "asked 1")
    script.does("end 1", "down 1")
    script.comes_up(1, False)
    held = filled(script)
    script.does(f"msg 1 {MARKER}")
    knows(script, 1, PATHS)
    script.shows(held, 2)
    return script


@limit("16,384 paths of 64 peers, and the end of each session and peer")
def _():
    script = Script(chain(2))
    each = PATHS // PEERS
    for peer in range(1, PEERS + 1):
        script.comes_up(peer)
        for text in batches(each, lambda n: report(n, [0, 1], (0, 2))):
            script.does(f"msg {peer} {text}")
    script.shows({0: PATHS, 1: PATHS}, 2)
    script.does(f"report 1 {reports([report(PATHS, [0, 1], (0, 2))])}", "refused 11")
    for peer in range(1, PEERS + 1):
        script.does(f"end {peer}", f"down {peer}")
        script.does(f"expire {peer}", "done")
        script.shows({link: PATHS - each * peer for link in (0, 1)}, 2)
    return script


@limit("64 peers, and the 65th refused until one expires")
def _():
    script = Script(pair())
    for peer in range(1, PEERS + 1):
        script.comes_up(peer)
    script.does("report 65 " + reports([report(1, [0])]), "refused 1")
    script.does("end 64", "down 64")
    script.does("report 65 " + reports([report(1, [0])]), "refused 1")
    script.does("expire 64", "done")
    script.does("report 65 " + reports([report(1, [0])]), "booked")
    script.shows({0: 1}, 2)
    return script


@limit("1,024 tickets, and the next refused until one ends")
def _():
    script = Script(pair())
    script.comes_up(1)
    for n in range(1, TICKETS + 1):
        script.does(f"initiate 1 t{n} 10.0.0.0 10.0.0.1 1 7 0", f"asked {n}")
    script.does("initiate 1 t0 10.0.0.0 10.0.0.1 1 7 0", "refused 10")
    script.does(f"msg 1 {message(3, request(7, (0, 1)))}", f"out 1 {too_many(7)}")
    script.does(f"msg 1 {message(3, request(8, (9, 9)))}", f"out 1 {unknown_ends(8)}")  # the ends are looked at first
    script.does("update 1 1", "refused 4")
    for n in range(1, TICKETS + 1):
        script.does("take", f"job {n} 0")
    script.does(f"commit {TICKETS} none", "nopath")
    script.does("initiate 1 t0 10.0.0.0 10.0.0.1 1 7 0", f"asked {TICKETS + 1}")
    script.does("initiate 1 u0 10.0.0.0 10.0.0.1 1 7 0", "refused 10")
    for n in range(1, TICKETS):
        script.does(f"commit {n} 0", f"granted {n}", f"out 1 {initiation(n, f't{n}', (0, 1), [0], 1)}")
    script.shows({0: TICKETS - 1}, 2)
    script.does("initiate 1 t5 10.0.0.0 10.0.0.1 1 7 0", "refused 16")
    return script


@limit("16,384 grants of one peer, and the next given up until one is refused")
def _():
    script = Script(pair())
    script.comes_up(1)
    for n in range(1, PATHS + 3):
        script.does(f"initiate 1 t{n} 10.0.0.0 10.0.0.1 1 7 0", f"asked {n}")
        script.does("take", f"job {n} 0")
        if n == PATHS + 1:
            script.does(f"commit {n} 0", "givenup")
            script.does(f"msg 1 {refusal(100)}")
            script.does("initiate 1 t99 10.0.0.0 10.0.0.1 1 7 0", "refused 16")
        else:
            srp = min(n, PATHS + 1)
            script.does(f"commit {n} 0", f"granted {srp}", f"out 1 {initiation(srp, f't{n}', (0, 1), [0], 1)}")
    script.shows({0: PATHS}, 2)
    script.does("end 1", "down 1")
    script.does("expire 1", "done")
    script.shows({}, 2)
    return script


@limit("2,000 requests in one message: 1,024 are taken")
def _():
    script = Script(pair())
    script.comes_up(1)
    text = message(3, *(request(n, (0, 1)) for n in range(1, 2001)))
    script.does(f"msg 1 {text}", "out 1 " + "".join(too_many(n) for n in range(TICKETS + 1, 2001)))
    for n in range(1, TICKETS + 1):
        script.does("take", f"job {n} 0")
        script.does(f"commit {n} 0", "answered", f"out 1 {found(n, [0], 10)}")
    return script


def taken():
    """Nothing waits, and is taken as often as steps are kept."""
    script = Script("---\n")
    script.lines, script.printed = ["take"] * STEPS, ["idle"] * STEPS
    return script


@limit("1,048,576 kept steps, and one more")
def _():
    script = taken()
    script.does("history", *(f"step {n} take idle" for n in range(STEPS)))
    script.does("take")
    script.fault, script.status = "history full\n", 5
    return script


@limit("1,048,576 kept steps, a roll, as many again, and one more")
def _():
    script = taken()
    script.does("roll", f"rolled {STEPS}")
    script.does("take", "idle")
    script.does("history", f"step {STEPS} take idle")
    script.lines += ["take"] * (STEPS - 1)
    script.printed += ["idle"] * (STEPS - 1)
    script.does("take")
    script.fault, script.status = "history full\n", 5
    return script
