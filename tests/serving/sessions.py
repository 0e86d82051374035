"""Sessions of routers: what they report, ask for and are asked, and how they end."""
import json
import random
import struct
import threading
import time

import pcep
from harness.clock import TIMEOUT_S, Timed, comes, paced
from harness.logs import log_of
from harness.router import Deaf, Router
from harness.server import FREE, Server, book_of
from pcep import diamond


def a_session(program):
    """A router is answered and reports; its LSP stays in the book after it closed, and the audit finds each step."""
    server = Server(program, "--endless")
    router = Router(server, 1)
    greeted = router.come_up()
    router.send(diamond.request(8))
    answer = router.hear()
    router.send(diamond.report(1, 500000.0))
    booked = server.waits_for(book_of(500_000, 500_000, 1_000_000, 1_000_000))
    router.close()
    down = comes(lambda: not server.has_up(router))
    stays = server.book()
    counts = json.loads(server.tell("json status")[0])
    status, said, _ = log_of(server)
    over_b = bytes.fromhex("20040030 0212000c 00000000 00000008 07100014 01080a0100022000 01080a0200022000 0610000c 0000020241a00000")
    yield greeted, True
    yield answer, over_b
    yield (booked, down), (True, True)
    yield stays, book_of(500_000, 500_000, 1_000_000, 1_000_000)
    yield status, 0
    yield said[-1], ("INFO", f"audited steps={counts['steps']} grants={counts['grants']}")


def sixteen_at_once(program):
    """Of sixteen connections some send no PCEP, some go at once, and the others are answered."""
    server = Server(program, "--sessions", "16")
    outcome = [None] * 16

    def come(place):
        router = Router(server, place + 1)
        if place % 4 == 0:
            router.send(b"GET / HTTP/1.1\r\n\r\n")
            outcome[place] = router.hear() == pcep.OPEN and router.hear()[:2] == bytes([0x20, pcep.PCERR])
        elif place % 4 == 1:
            outcome[place] = True
        else:
            greeted = router.come_up()
            router.send(diamond.request(8))
            outcome[place] = greeted and router.hear()[:2] == bytes([0x20, pcep.PCREP])
        router.close()

    threads = [threading.Thread(target=come, args=(place,)) for place in range(16)]
    [thread.start() for thread in threads]
    [thread.join() for thread in threads]
    yield outcome, [True] * 16
    yield server.end(), (0, b"")


def an_initiation(program):
    """An LSP that the operator initiates is booked once, whatever its reports, until it is removed."""
    server = Server(program, "--endless")
    router = Router(server, 1)
    router.come_up()
    router.ask(1)
    yield server.tell(f"initiate {router.address} t1 10.0.0.1 10.0.0.4 500000 7 0"), ["asked 2"]
    initiate = router.hear()
    yield initiate[:16], bytes.fromhex("200c005c 2110000c 00000000 00000001")
    booked = book_of(500_000, 500_000, 1_000_000, 1_000_000)
    yield server.book(), booked
    router.send(diamond.report(5, 500000.0, flags=0x99, request=1))
    router.ask(2)
    yield server.book(), booked
    yield server.tell(f"delete {router.address} 5"), ["removing 2"]
    yield router.hear(), bytes.fromhex("200c0018 2110000c 00000001 00000002 20100008 00005001")
    router.send(pcep.message(pcep.PCRPT, pcep.srp(2), diamond.lsp(5, 0x84, 1, 5), diamond.route()))
    yield server.waits_for(FREE), True
    yield server.end(), (0, b"")


def a_delegated_lsp(program):
    """A delegated LSP without a route is sent one, and given back if the operator says so."""
    server = Server(program, "--endless")
    router = Router(server, 1)
    router.come_up()
    router.send(diamond.report(7, 250000.0, links=(), flags=0x09))
    update = router.hear()
    yield update[:2], bytes([0x20, pcep.PCUPD])
    yield bytes.fromhex("01080a0100022000 01080a0200022000") in update, True
    yield server.book(), book_of(750_000, 750_000, 1_000_000, 1_000_000)
    router.send(diamond.report(7, 250000.0, flags=0x19, request=1))
    router.ask(2)
    yield server.book(), book_of(750_000, 750_000, 1_000_000, 1_000_000)
    yield server.end(), (0, b"")


def sixteen_routers(program):
    """Sixteen routers report, replace and remove LSPs and ask for paths at once, and the book has what they reported last."""
    server = Server(program, "--endless", "--workers", "4")
    held = [{} for _ in range(17)]
    answered = [0] * 17

    def live(number):
        draws = random.Random(number)
        router = Router(server, number)
        router.come_up()
        for turn in range(150):
            plsp, links = draws.randint(1, 6), draws.choice([diamond.OVER_B, diamond.OVER_C])
            if draws.random() < 0.3 and plsp in held[number]:
                del held[number][plsp]
                router.send(diamond.removal(plsp))
            elif draws.random() < 0.3:
                router.send(diamond.request(turn + 1, 1000.0))
                answered[number] += router.hear_of(pcep.PCREP) != b""
            else:
                held[number][plsp] = (links, draws.randint(1, 20) * 1000)
                router.send(diamond.report(plsp, float(held[number][plsp][1]), links))
        router.send(diamond.request(999, 1000.0))
        answered[number] += router.hear_of(pcep.PCREP) != b""
        routers.append(router)

    routers = []
    threads = [threading.Thread(target=live, args=(number,)) for number in range(1, 17)]
    [thread.start() for thread in threads]
    [thread.join() for thread in threads]
    over = [sum(value for lsps in held for links, value in lsps.values() if links == way) for way in (diamond.OVER_B, diamond.OVER_C)]
    yield len(routers), 16
    yield server.book(), book_of(*(1_000_000 - each for each in (over[0], over[0], over[1], over[1])))
    # (the audit compares what each thread was answered with the history)
    yield server.end(), (0, b"")


def half_messages(program):
    """Routers that send the front of a message and fall silent hold nobody up, and nothing of it is booked."""
    server = Server(program, "--endless")
    whole = diamond.report(1, 500000.0)
    silent = [Router(server, number) for number in range(1, 25)]
    for place, router in enumerate(silent):
        router.send((pcep.OPEN[:3], pcep.OPEN, pcep.OPEN[:17])[place % 3] if place % 2 else pcep.OPEN + pcep.KEEPALIVE + pcep.END_OF_SYNC + whole[: 1 + 3 * place])
    router = Router(server, 99)
    yield router.come_up(), True
    began = paced()
    for number in range(20):
        yield diamond.number_of(router.ask(number)), number
    yield paced() - began < TIMEOUT_S, True
    yield server.book(), FREE
    silent[2].send(whole[7:])
    yield server.waits_for(book_of(500_000, 500_000, 1_000_000, 1_000_000)), True
    [each.close() for each in silent]
    yield server.tell("update 127.0.1.99 1"), ["refused 4"]
    yield server.book(), book_of(500_000, 500_000, 1_000_000, 1_000_000)
    yield server.end(), (0, b"")


def resets(program):
    """A connection that is reset at any place ends no other one: what was reported whole stays, and the router may come again."""
    server = Server(program, "--endless")
    other = Router(server, 99)
    other.come_up()
    session = pcep.OPEN + pcep.KEEPALIVE + pcep.END_OF_SYNC + diamond.report(1, 500000.0) + diamond.report(2, 250000.0)
    places = [0, 1, len(pcep.OPEN), len(pcep.OPEN) + 2, len(session) - 100, len(session) - 1]
    for place in places * 4:
        router = Router(server, 1)
        router.send(session[:place])
        router.reset()
    yield diamond.number_of(other.ask(1)), 1
    # (its last session may not have ended yet, which refuses the next one)
    heard, until = b"", time.monotonic() + TIMEOUT_S
    while heard[:2] != bytes([0x20, pcep.PCREP]) and time.monotonic() < until:
        router = Router(server, 1)
        try:
            router.send(session + diamond.request(2))
            heard = [router.hear() for _ in range(3)][2]
        except ConnectionResetError:
            heard = b""
    yield heard[8:16], struct.pack(">II", 0, 2)
    yield server.book(), book_of(250_000, 250_000, 1_000_000, 1_000_000)
    yield server.end(), (0, b"")


def a_deaf_router(program):
    """A router that reads nothing of what it is sent is closed, in some ten seconds, while others are answered."""
    server = Server(program, "--endless")
    deaf, router = Deaf(server, 1), Router(server, 2)
    deaf.come_up()
    router.come_up()
    slowest, number = 0.0, 0
    with Timed() as timed:
        deaf.ask_without_end()
        while deaf.ended is None and deaf.waited() < 5 * TIMEOUT_S:
            number += 1
            asked = paced()
            router.send(diamond.request(number))
            if router.hear_of(pcep.PCREP)[8:16] != struct.pack(">II", 0, number):
                break
            slowest = max(slowest, paced() - asked)
            time.sleep(0.1)
    # (how long it takes until no more goes out is the machine's)
    yield deaf.waited_at_most() > 9 or deaf.waited_at_most(), True
    yield timed.is_within(20, deaf.waited()), True
    yield slowest < 8 or slowest, True
    deaf.close()
    yield comes(lambda: not server.has_up(deaf)), True
    again = Router(server, 1)
    yield again.come_up(), True
    yield diamond.number_of(again.ask(5)), 5
    yield server.end(), (0, b"")


def a_dead_timer(program):
    """A session ends when its peer's DeadTimer is over (RFC 5440 section 7.3)."""
    server = Server(program, "--endless")
    router = Router(server, 1)
    with Timed() as timed:
        router.send(pcep.opening(1, 5) + pcep.KEEPALIVE)
        yield [router.hear(), router.hear()], [pcep.OPEN, pcep.KEEPALIVE]
        yield router.hear(), pcep.close(2)
    yield timed.took > 4.9 or timed.took, True
    yield timed.is_within(8), True
    yield server.end(), (0, b"")


CASES = [a_session, sixteen_at_once, an_initiation, a_delegated_lsp, sixteen_routers, half_messages, resets, a_deaf_router, a_dead_timer]
