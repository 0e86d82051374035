"""Routers of tempers that are drawn at random, which report, move, lose and remove LSPs while an operator asks for others."""
import random
import time
from dataclasses import replace

import pcep
from harness.clock import comes

from . import account
from .lsp import Temper
from .zoo import ABILENE, WELL, Zoo

# --answer is one of these: within a herd's life grants end by the one, and not by the other
ANSWERS, RETRY, KEEP = (3, 120), 1, 3
ROUTERS = 8
# how long a herd acts, and how long it may take until it is quiet, in seconds
ACTS, QUIET = 5.0, 15
BANDWIDTHS = 50_000_000, 100_000_000, 200_000_000, 400_000_000


def a_temper(draw):
    answers = draw.choices(("first", "every", "never", "error"), (6, 3, 1, 1))[0]
    return Temper(
        answers, draw.choice((pcep.GOING_UP, pcep.GOING_UP, pcep.DOWN, pcep.UP)), draw.choice((0.01, 0.05, 0.3)), draw.choice((0.01, 0.05, 1.0)),
        draw.random() < 0.15, draw.choice((None, "interfaces", "interfaces", "nodes", "labels")), draw.random() < 0.3, draw.choice((0, 0, 0, 1, 2)),
        draw.random() < 0.3)


class Herd:
    """The routers of one server, and what they do, drawn from a seed."""

    def __init__(self, program, seed, **flags):
        self.draw = random.Random(seed)
        self.zoo = Zoo(program, te=ABILENE, answer=self.draw.choice(ANSWERS), retry=RETRY, keep=KEEP, **flags)
        self.nodes = list(self.zoo.network.ids.values())
        self.names = 0

    def ends(self):
        return self.draw.sample(self.nodes, 2)

    def way(self, source, destination):
        return self.draw.choice(self.zoo.network.ways(source, destination, 7)[:4])

    def name(self):
        self.names += 1
        return f"t{self.names}"

    def come(self):
        """Its routers come up."""
        for _ in range(ROUTERS):
            router = self.zoo.router(a_temper(self.draw))
            for _ in range(self.draw.randrange(4)):
                self.begin(router)

    # ---- what a router does

    def begin(self, router):
        source, destination = self.ends()
        way = self.way(source, destination) if self.draw.random() < 0.5 else None
        priorities = self.draw.choice(((7, 7), (7, 0), (4, 3)))
        router.lsp(self.name(), source, destination, self.draw.choice(BANDWIDTHS), way, setup=priorities[0], hold=priorities[1],
                   delegated=self.draw.random() < 0.8)

    def change(self, router):
        with router.lock:
            plsps = [plsp for plsp, lsp in router.lsps.items() if lsp.current and lsp.current.state in (pcep.UP, pcep.DOWN)]
            if plsps:
                plsp = self.draw.choice(plsps)
                lsp = router.lsps[plsp]
                if self.draw.random() < 0.2:
                    router.remove(plsp)
                elif lsp.current.state == pcep.UP and self.draw.random() < 0.3:
                    router.say_state(plsp, pcep.DOWN)
                else:
                    router.move(plsp, self.way(lsp.source, lsp.destination), self.draw.choice(BANDWIDTHS))

    def lose_connection(self, router):
        router.lose_connection(self.draw.choice((0.05, 0.2, 1)))

    def operator(self, router):
        plsp = self.draw.choice([*router.lsps, 1])
        source, destination = self.ends()
        self.zoo.said(self.draw.choice((
            f"update {router.address} {plsp}", f"update {router.address} {plsp}", f"return {router.address} {plsp}", f"delete {router.address} {plsp}",
            f"initiate {router.address} {self.name()} {source} {destination} {self.draw.choice(BANDWIDTHS)} 7 7")))

    def act(self):
        begun = time.monotonic()
        while time.monotonic() < begun + ACTS:
            router = self.draw.choice(self.zoo.routers)
            acts = (self.begin, 4), (self.change, 6), (self.operator, 5), (self.lose_connection, 1)
            doing = self.draw.choices([act for act, _ in acts], [weight for _, weight in acts])[0]
            if router.is_up:
                doing(router)
            time.sleep(self.draw.uniform(0, 0.05))

    # ---- what holds once it is quiet

    def complaints(self, gone):
        """What doesn't hold yet."""
        zoo, now = self.zoo, time.monotonic()
        found = [f"{router.address} isn't up: {router.reasons[-1:]}" for router in zoo.routers if router.address not in gone and not router.is_up]
        if found:
            return found
        found += zoo.overdue()
        found += [f"link {link}: the server has {came}, the routers leave {right}" for link, came, right in zoo.differences()]
        known = zoo.peers()
        found += [f"{address} left {now - since:.1f} s ago and isn't forgotten" for address, since in gone.items() if address in known]
        return found


def a_herd(program, seed):
    """Routers of all tempers, drawn from a seed: once they are quiet, the book is what they hold together, and no grant is too old."""
    herd = Herd(program, seed)
    zoo = herd.zoo
    herd.come()
    herd.act()
    # one of them leaves for good, and no more connections are lost
    for router in zoo.routers:
        router.temper = replace(router.temper, drops=0)
    left = herd.draw.choice(zoo.routers)
    left.leave()
    gone = {left.address: time.monotonic()}
    for _ in range(2):
        # (LSPs that failed are still retried, so it holds again and again, and not at each moment)
        yield comes(lambda: not herd.complaints(gone), QUIET) or herd.complaints(gone), True
        time.sleep(1)
    yield [fault for router in zoo.routers for fault in account.unprotected(router)], []
    # (9: a second session, of a router that is back before its first one has ended)
    yield [(router.address, ask.error) for router in zoo.routers for ask in router.asks(pcep.PCERR) if ask.error[0] != 9], []
    yield zoo.end(), WELL


def herds(program, seconds, seed):
    """Herds of routers whose tempers are drawn from a seed, one after another: each look with its seed."""
    begun, number = time.monotonic(), 0
    while number == 0 or time.monotonic() < begun + seconds:
        drawn = str(seed + number)
        try:
            for came, wanted in a_herd(program, drawn):
                yield (drawn, came), (drawn, wanted)
        except (OSError, ValueError, LookupError) as fault:
            yield f"seed {drawn}: {fault!r}"
        number += 1
