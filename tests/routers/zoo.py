"""A server and its routers, and what a case looks at."""
import json
import os
import shutil
import subprocess
import tempfile
import time

import pcep
from harness.cases import ROOT
from harness.clock import comes
from harness.server import ViewedServer, end_with_log

from . import account
from .lsp import Lsp, Path, Temper
from .network import network_of
from .router import Router

DIAMOND, ABILENE = f"{ROOT}/examples/diamond.toml", f"{ROOT}/examples/abilene.toml"
A, B, C, D = (f"10.0.0.{number}" for number in range(1, 5))
# the two ways of the diamond, and what is left of it while nothing is on it
OVER_B, OVER_C = (0, 1), (2, 3)
FREE = [[1_000_000] * 8] * 4
# how long a server may be late with what it does by its clock, in seconds
LATE = 2.5


def pathless(name, bandwidth, **more):
    """An LSP from A to D that is down and has no route."""
    return held(name, bandwidth, (), pcep.DOWN, **more)


def held(name, bandwidth, way, state=pcep.UP, tunnel=None, **more):
    """An LSP from A to D over a way."""
    return Lsp(name, A, D, tunnel or 1000 + sum(name.encode()), bandwidth, paths={1: Path(state, tuple(way), bandwidth)}, **more)


def flags_of(program, **values):
    """The flags of `pced serve` with these values, as far as the program has them."""
    text = subprocess.run([program, "serve", "--help"], capture_output=True).stdout.decode()
    return [word for name, value in values.items() if f"--{name} " in text for word in (f"--{name}", str(value))]


class Zoo:
    """A server with a control socket and viewers, and the routers at it."""

    def __init__(self, program, te=DIAMOND, **flags):
        self.answer = flags.get("answer", 120)
        self.server = ViewedServer(program, "--endless", *flags_of(program, **flags), te=te)
        self.network = network_of(te)
        self.routers = []

    def router(self, temper=Temper(), holds=(), number=None):
        """A router that is up and in sync, under the next address."""
        address = f"127.0.2.{number or len(self.routers) + 1}"
        router = Router(("127.0.0.1", self.server.port), address, self.network, temper, holds)
        self.routers.append(router)
        router.waits_until_up()
        self.waits_for_sync(router)
        return router

    def waits_for_sync(self, router):
        if not comes(lambda: self.peers().get(router.address) == (True, False), 10):
            raise ValueError(f"{router.address} isn't in sync: {self.peers()}")

    # ---- an operator

    def said(self, *lines):
        """The answers to an operator's lines."""
        return self.server.asked(*lines)[0].decode().rstrip("\n")

    def shown(self, *lines):
        """The documents of JSON that the lines are answered by."""
        said, _ = self.server.asked(*lines, words=["--json"])
        return [json.loads(document) for document in said.decode().splitlines()]

    def peers(self):
        """Of each known router whether it is up, and whether it synchronizes."""
        return {peer["peer"]: (peer["is_up"], peer["is_synchronizing"]) for peer in self.shown("peers")[0]["peers"]}

    def book(self):
        return [[int(word) for word in line.split()[2:]] for line in self.said("book").splitlines()]

    def lsps(self):
        """What is shown of each LSP, by router and PLSP-ID."""
        return {(lsp["peer"], lsp["plsp_id"]): lsp for page in self.shown("lsps") for lsp in page["lsps"]}

    def state(self, router, plsp):
        """The state that an LSP is shown in."""
        return str(self.lsps().get((router.address, plsp), {}).get("state")).replace("_", " ")

    def grants(self):
        """The PLSP-ID of each grant that stands and what it is on, by router and SRP-ID; 0 of one that no report has bound."""
        documents = self.shown("lsps", *(f"link {number}" for number in range(len(self.network.links))))
        found = {}
        for lsp in (lsp for page in documents if "lsps" in page for lsp in page["lsps"]):
            found |= {(lsp["peer"], path["srp_id"]): (lsp["plsp_id"], tuple(path["links"])) for path in lsp["paths"] if path["is_granted"]}
        for link in (document for document in documents if "tunnels" in document):
            for tunnel in link["tunnels"]:
                if tunnel["srp_id"] is not None:
                    found.setdefault((tunnel["peer"], tunnel["srp_id"]), (tunnel["plsp_id"], ()))
        return found

    # ---- the account

    def router_of(self, address):
        return next((router for router in self.routers if router.address == address), None)

    def ask_of(self, router, srp):
        """The request of the server's that the router last got under this SRP-ID."""
        return next((ask for ask in reversed(router.heard) if ask.srp == srp and ask.kind != pcep.PCERR), None)

    def accounted(self, grants):
        """What is left of the links, by what the routers hold and these grants."""
        holdings = [holding for router in self.routers for holding in account.holdings_of(router)]
        for (address, srp), (plsp, links) in grants.items():
            router = self.router_of(address)
            holdings.append(account.holding_of_grant(self.network, router, srp, plsp, links, self.ask_of(router, srp)))
        return account.left_of(self.network, holdings)

    def overdue(self):
        """What is wrong with the grants that stand: older than the server's limit, or covered by what their routers reported."""
        now, found = time.monotonic(), []
        for (address, srp), (plsp, _) in self.grants().items():
            router = self.router_of(address)
            ask = self.ask_of(router, srp)
            if ask is not None and account.age_of(router, ask, now) > self.answer + LATE:
                found.append(f"the grant {srp} of {address} has stood for too long")
            if account.is_covered(self.network, router, plsp, ask):
                found.append(f"the grant {srp} of {address} stands, and its LSP {plsp} has all of it")
        return found

    def differences(self):
        """The links of which the server says another number than the account."""
        grants, book = self.grants(), self.book()
        wanted = self.accounted(grants)
        return [(link, came, right) for link, (came, right) in enumerate(zip(book, wanted)) if came != right]

    def is_settled(self, within=LATE):
        """Whether no grant stands, and the book is the account's, within these seconds; else what there is."""
        return comes(lambda: not self.grants() and not self.differences(), within) or (self.grants(), self.differences())

    def fallen(self, router, srps, until):
        """Those of the router's grants that don't stand any more; none if it is later than this once that was looked at."""
        grants = self.grants()
        return [srp for srp in srps if (router.address, srp) not in grants] if time.monotonic() < until else []

    def wire_faults(self):
        return [fault for router in self.routers for fault in account.wire_faults(router)][:9]

    # ---- the end

    def end(self):
        """What is wrong with what routers were sent, the status of the server, and the last line of its log but for its numbers."""
        return self.ended()[:-1]

    def ended(self):
        faults = self.wire_faults()
        for router in self.routers:
            router.end()
        said, status, texts = end_with_log(self.server)
        shutil.rmtree(self.server.folder)
        return faults, said, status, texts[-1].split()[0] if texts else None, texts


WELL = [], (b"", 0), 0, "audited"


def text_file(text):
    """A file with a link text, in a folder of its own."""
    file = tempfile.NamedTemporaryFile("w", suffix=".toml", delete=False)
    with file:
        file.write(text)
    return file.name


def write(file, text):
    with open(file, "w") as out:
        out.write(text)
        out.flush()
        os.fsync(out.fileno())
