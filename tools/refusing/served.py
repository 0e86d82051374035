"""A server whose allocations are refused while it is called: the call that is answered so is made again."""
import shutil
import socket
import subprocess
import time

import pcep
from harness.ports import free_port
from harness.server import FREE, book_of
from pcep import diamond

MOST, SECONDS = 1000, 20
OUT_OF_MEMORY = "out of memory"
OVER_C = diamond.route(*diamond.OVER_C)[4:]
HELD = book_of(500_000, 500_000, 1_000_000, 1_000_000)


def report(flags, lsp_id=1):
    """The LSP 5, over the links 0 and 1 with half of what they bear."""
    lsp = pcep.lsp(5, flags, pcep.identifiers(diamond.A, lsp_id, 1, diamond.D))
    return pcep.message(pcep.PCRPT, lsp, diamond.route(*diamond.OVER_B), diamond.ATTRIBUTES, pcep.bandwidth(500_000))


REMOVAL = pcep.message(pcep.PCRPT, pcep.lsp(5, pcep.REMOVE, pcep.NO_IDENTIFIERS), diamond.route())


def request(number):
    return pcep.message(pcep.PCREQ, pcep.rp(number), pcep.end_points(diamond.A, diamond.D))


def refusal(srp):
    return pcep.error(24, 1, srp)


class Gone(Exception):
    """The server has ended the connection."""


class Served:
    def __init__(self, program, network, refusals, place=-1, words=()):
        self.refusals, self.network, self.router, self.number = refusals, network, None, 0
        refusals.order(place)
        self.port = free_port()
        # (no path is asked for but by the calls that are tried)
        self.process = subprocess.Popen(
            [program, "serve", "--te", network, "--listen", f"127.0.0.1:{self.port}", "--endless", "--workers", "1", "--retry", "0", *words],
            stdin=subprocess.PIPE, stdout=subprocess.PIPE, stderr=subprocess.PIPE, bufsize=0, env=refusals.environment,
        )

    def come(self):
        """The router connects, and is in sync; again, where an earlier session still stands or memory was refused."""
        until = time.monotonic() + SECONDS
        while time.monotonic() < until:
            try:
                self.connect()
                self.send(pcep.OPEN + pcep.KEEPALIVE + pcep.END_OF_SYNC)
                self.is_answered()
                return
            except (OSError, Gone):
                time.sleep(0.02)
        raise ValueError("the router can't come up")

    def connect(self):
        if self.router:
            self.router.close()
        self.router = socket.create_connection(("127.0.0.1", self.port), timeout=SECONDS)
        self.router.setsockopt(socket.IPPROTO_TCP, socket.TCP_NODELAY, 1)

    def send(self, data):
        try:
            self.router.sendall(data)
        except OSError:
            raise Gone from None

    def take(self, count):
        data = b""
        while len(data) < count:
            try:
                more = self.router.recv(count - len(data))
            except ConnectionError:
                more = b""
            if not more:
                raise Gone
            data += more
        return data

    def hear_of(self, kind):
        """The next message of this type."""
        while True:
            head = self.take(4)
            message = head + self.take(int.from_bytes(head[2:], "big") - 4)
            if message[1] == kind:
                return message

    def is_answered(self):
        """Asks for a path, and gives the reply: what the router sent before has been handled."""
        self.number += 1
        self.send(request(self.number))
        while True:
            reply = self.hear_of(pcep.PCREP)
            if diamond.number_of(reply) == self.number:
                return reply

    def tell(self, line, answers=1):
        self.process.stdin.write(line.encode() + b"\n")
        first = self.process.stdout.readline().decode().rstrip("\n")
        more = answers - 1 if first != OUT_OF_MEMORY else 0
        return [first] + [self.process.stdout.readline().decode().rstrip("\n") for _ in range(more)]

    def book(self):
        self.refusals.lift()
        return [[int(word) for word in line.split()[2:]] for line in self.tell("book", 4)]

    def end(self):
        """The status, and the last line on standard error that isn't of the log."""
        self.process.stdin.close()
        said = [line for line in self.process.stderr.read().decode().splitlines() if "pce_server] " not in line]
        return self.process.wait(timeout=SECONDS), said[-1] if said else ""


class Call:
    """A call of the server, and what has to be before it and comes of it."""

    def __init__(self, served):
        self.served, self.address, self.met = served, "127.0.0.1", 0

    def answer_of(self, line, before):
        """The answer to an operator's line, which is sent again where memory was refused: then nothing was done."""
        answer = self.served.tell(line)[0]
        if answer == OUT_OF_MEMORY:
            self.met += 1
            self.served.refusals.lift()
            wants(self.served.book(), before)
            answer = self.served.tell(line)[0]
        return answer

    def hears(self, kind):
        """The number (SRP-ID) of the request that comes."""
        message = self.served.hear_of(kind)
        return int.from_bytes(message[12:16], "big")

    def reset(self):
        """No LSP stands, and the router is up."""
        self.served.refusals.lift()
        try:
            self.served.send(REMOVAL)
            self.served.is_answered()
        except Gone:
            self.served.come()
        wants(self.served.book(), FREE)

    def run_again(self, place):
        """The session has ended."""
        self.served.come()

    def report(self, flags):
        self.served.send(report(flags))
        self.served.is_answered()


def wants(came, wanted):
    if came != wanted:
        raise ValueError(f"wanted {wanted}, came {came}")


class Initiation(Call):
    """An initiation is asked for, searched for, granted and sent; the router refuses it."""

    def run(self, place):
        answer = self.answer_of(f"initiate {self.address} t{place} 10.0.0.1 10.0.0.4 500000 7 0", FREE)
        wants(answer.split()[0], "asked")
        srp = self.hears(pcep.PCINITIATE)
        wants(self.served.book(), HELD)
        self.served.send(refusal(srp))


class Update(Call):
    """An update is asked for, searched for, granted and sent; the router refuses it."""

    def reset(self):
        super().reset()
        self.report(0x09)

    def run(self, place):
        wants(self.answer_of(f"update {self.address} 5", FREE).split()[0], "asked")
        srp = self.hears(pcep.PCUPD)
        wants(self.served.book(), HELD)
        self.served.send(refusal(srp))


class Return(Call):
    """An LSP is given back."""

    def reset(self):
        super().reset()
        self.report(0x19)

    def run(self, place):
        wants(self.answer_of(f"return {self.address} 5", HELD), "done")
        self.hears(pcep.PCUPD)


class Removal(Call):
    """An LSP that was initiated is to be removed."""

    def reset(self):
        super().reset()
        self.report(0x99)

    def run(self, place):
        wants(self.answer_of(f"delete {self.address} 5", HELD).split()[0], "removing")
        self.hears(pcep.PCINITIATE)


class Report(Call):
    """A report is booked, and a request that follows it is answered."""

    def run(self, place):
        self.report(0x18)
        wants(self.served.book(), HELD)

    def run_again(self, place):
        """The report was booked before the session ended, or not at all."""
        book = self.served.book()
        wants(book, FREE if book == FREE else HELD)
        self.served.come()
        self.run(place)


class Coming(Call):
    """A router connects, and comes up."""

    def run(self, place):
        self.served.router.close()
        self.served.connect()
        self.served.send(pcep.OPEN + pcep.KEEPALIVE + pcep.END_OF_SYNC)
        self.served.is_answered()


class Reload(Call):
    """Links get other values by the file, and the next search goes by them."""

    def __init__(self, served):
        super().__init__(served)
        with open(served.network) as file:
            self.first = file.read()
        # (the way over B costs 41 then, that over C 40)
        self.second = self.first.replace("igp=10,te=10,colour=0,reservable=1000000", "igp=31,te=31,colour=0,reservable=400000", 1)

    def write(self, text):
        with open(self.served.network, "w") as file:
            file.write(text)

    def reset(self):
        self.served.refusals.lift()
        self.write(self.first)
        wants(self.served.tell("reload"), ["done"])
        super().reset()
        self.write(self.second)

    def run(self, place):
        wants(self.answer_of("reload", FREE), "done")
        wants(self.served.is_answered().find(OVER_C) > 0, True)
        wants(self.served.book(), [[400_000] * 8] + FREE[1:])

    def run_again(self, place):
        """The session has ended, with the request or as its answer was sent."""
        self.served.come()
        self.run(place)


class Look(Call):
    """The book is looked at."""

    def reset(self):
        super().reset()
        self.report(0x18)

    def run(self, place):
        wanted = [f"link {link} " + " ".join(map(str, left)) for link, left in enumerate(HELD)]
        printed = self.served.tell("book", 4)
        if printed == [OUT_OF_MEMORY]:
            self.met += 1
            printed = self.served.tell("book", 4)
        wants(printed, wanted)


CALLS = (Look, Initiation, Update, Return, Removal, Report, Coming, Reload)


def refuse_each(call):
    """Makes the call with each allocation refused in turn, until it meets none: how many there are, and how many of the
    refusals ended the session."""
    ended = 0
    for place in range(MOST):
        call.reset()
        call.served.refusals.order(place)
        try:
            call.run(place)
        except Gone:
            ended += 1
            call.served.refusals.lift()
            call.run_again(place)
        if call.served.refusals.met() == 0:
            return place, ended
    raise ValueError(f"more than {MOST} allocations")


ENDS = (0, ""), (5, OUT_OF_MEMORY)


def refuse_each_of_a_start(program, network, refusals):
    """The server starts, and ends at once."""
    for place in range(MOST):
        end = Served(program, network, refusals, place).end()
        # (what a thread lacked that can't be started isn't named)
        wants(end, end if end in (*ENDS, (3, "device fault")) else ENDS)
        if refusals.met() == 0:
            print(f"      {place} refusals", flush=True)
            return
    raise ValueError(f"more than {MOST} allocations")


def refuse_each_of_an_end(program, network, refusals):
    """The server ends, after a router has come."""
    for place in range(MOST):
        served = Served(program, network, refusals)
        served.come()
        refusals.order(place)
        end = served.end()
        wants(end, end if end in ENDS else ENDS)
        served.router.close()
        if refusals.met() == 0:
            print(f"      {place} refusals", flush=True)
            return
    raise ValueError(f"more than {MOST} allocations")


def refuse_each_of_the_calls(program, network, refusals):
    """Each call of a server that goes on, whose audit passes in the end."""
    own = f"{refusals.room}/network.toml"
    shutil.copyfile(network, own)
    served = Served(program, own, refusals)
    try:
        served.come()
        for kind in CALLS:
            call = kind(served)
            places, ended = refuse_each(call)
            print(f"      {kind.__doc__} {places} refusals: {call.met} answered to the operator, {ended} ended the session", flush=True)
        refusals.lift()
        wants(served.end(), (0, ""))
    finally:
        served.process.kill()
        served.process.wait()


def grant_that_ends(served, place):
    """LSP 5 is delegated and down, and an update of it is granted that its router doesn't answer: how many refusals there were until the
    grant's time was over, and two turns more. It is gone soon after that."""
    served.send(report(0x09))
    served.is_answered()
    wants(served.tell("update 127.0.0.1 5")[0].split()[0], "asked")
    served.hear_of(pcep.PCUPD)
    wants(served.book(), HELD)
    served.refusals.order(place)
    time.sleep(2.2)
    met = served.refusals.met()
    until = time.monotonic() + SECONDS
    while served.book() != FREE and time.monotonic() < until:
        time.sleep(0.1)
    wants(served.book(), FREE)
    return met


def refuse_each_of_upkeep(program, network, refusals):
    """Grants end that no router answers, though memory is refused to the look, to the table or to the step: each by a later turn."""
    served, ended = Served(program, network, refusals, words=("--answer", "1")), 0
    try:
        served.come()
        for place in range(MOST):
            try:
                met = grant_that_ends(served, place)
            except Gone:
                # (a Keepalive found no memory)
                refusals.lift()
                served.come()
                ended, met = ended + 1, 1
            if met == 0:
                break
        served.process.stdin.close()
        said = served.process.stderr.read().decode().splitlines()
        wants(served.process.wait(timeout=SECONDS), 0)
        told = sum("memory refused" in line for line in said)
        wants(sum("no answer 127.0.0.1" in line for line in said) >= place + 1 - ended, True)
        wants(0 < told <= place or place == 0, True)
        print(f"      {place} refusals, {told} of them logged, {ended} ended the session", flush=True)
    finally:
        served.process.kill()
        served.process.wait()


CASES = refuse_each_of_a_start, refuse_each_of_the_calls, refuse_each_of_upkeep, refuse_each_of_an_end
