"""A server whose history is full, while no roll finds memory."""
import time

import pcep

from .served import REMOVAL, Gone, Served, wants

LINKS, NODES = 4096, 65
# (of all lists that a full server makes, the values of the links in the base of a roll alone have this number of bytes)
LEAST = 20 * LINKS
EACH, BEFORE, BEHIND = 2000, 480, 60
# in a turn the keeper of time meets three refusals: it rolls a history that is due for it, the step of the Down that it owes rolls
# first, and so does whoever meets a full history. It pauses for ten milliseconds between two turns; a tenth more for the last ones
PERIOD, EACH_TURN, SECONDS, MORE = 0.01, 3, 2, 1.1


def network_text():
    nodes = [f'{{name="N{node}",id="10.0.1.{node}"}}' for node in range(NODES)]
    ends = [(one, other) for one in range(NODES) for other in range(NODES) if one != other][:LINKS]
    links = [
        f'{{from="N{one}",to="N{other}",local="11.0.{n >> 8}.{n & 255}",remote="12.0.{n >> 8}.{n & 255}",'
        "igp=10,te=10,colour=0,reservable=1000000}"
        for n, (one, other) in enumerate(ends)
    ]
    return f"node = [{', '.join(nodes)}]\nlink = [{', '.join(links)}]\n"


def refuse_rolls(program, refusals):
    """The history is full, and no roll finds memory: the keeper of time pauses between two tries, and rolls once it does."""
    network = f"{refusals.room}/wide.toml"
    with open(network, "w") as file:
        file.write(network_text())
    # the history is full by its steps, and not by their bytes
    served = Served(program, network, refusals, words=("--history", "65536"))
    try:
        served.come()
        many = pcep.message(pcep.PCRPT, REMOVAL[4:] * 100) * (EACH // 100)
        for _ in range(BEFORE):
            served.send(many)
        served.is_answered()
        refusals.order(0, True, LEAST)
        try:
            for _ in range(BEHIND):
                served.send(many)
            served.is_answered()
            raise ValueError("the session goes on though the history is full")
        except Gone:
            pass
        begun, before = time.monotonic(), refusals.met()
        time.sleep(SECONDS)
        tried, took = refusals.met() - before, time.monotonic() - begun
        if not 0 < tried <= MORE * EACH_TURN * took / PERIOD:
            raise ValueError(f"{tried} tries in {took:.1f} s")
        refusals.lift()
        served.come()
        wants(served.end(), (0, ""))
        print(f"      {tried} tries in {SECONDS} s", flush=True)
    finally:
        served.process.kill()
        served.process.wait()
