"""The networks of the pages, as the test program knows them."""
import struct
import tomllib

import pcep
from harness.cases import ROOT

GIGABIT = 125_000_000
BANDS = (0, 0.5, 0.75, 0.9, 1)


# the networks, as this script knows them

class Network:
    """A link text, with what its routers have reported."""

    def __init__(self, text):
        self.text, self.tree, self.lsps = text, tomllib.loads(text), []
        self.links = self.tree["link"]
        self.ids = {node["name"]: node["id"] for node in self.tree["node"]}

    def over(self, *names):
        """The numbers of the links from each of the nodes to the next; of parallel ones the first."""
        ends = [(link["from"], link["to"]) for link in self.links]
        return [ends.index(pair) for pair in zip(names, names[1:])]

    def reserved(self, link, priority):
        """What is reserved on a link: of each tunnel the greatest bandwidth that is held there at the priority or better."""
        most = {}
        for plsp, links, rate, hold in self.lsps:
            if link in links and hold <= priority:
                most[plsp] = max(most.get(plsp, 0), rate)
        return sum(most.values())

    def share(self, link, priority):
        return self.reserved(link, priority) / self.links[link]["reservable"]

    def report(self, plsp, name, links, rate, setup=7, hold=7, lsp_id=1, flags=0x18):
        """A report of a path over these links, which this account has from then on, with the rate that the message can have."""
        self.lsps.append((plsp, links, struct.unpack(">f", struct.pack(">f", rate))[0], hold))
        start, end = (self.ids[self.links[link][key]] for link, key in ((links[0], "from"), (links[-1], "to")))
        names = pcep.identifiers(start, lsp_id, plsp, end)
        hops = [self.links[link]["remote"] for link in links]
        return pcep.message(pcep.PCRPT, pcep.lsp(plsp, flags, names, pcep.tlv(pcep.NAME, name)), pcep.route(pcep.ERO, hops),
                            pcep.attributes(setup, hold), pcep.bandwidth(rate))


def abilene():
    """The example, with routers on loopback and a second trunk from Chicago to New York."""
    text = open(f"{ROOT}/examples/abilene.toml").read().replace('id="10.0.0.', 'id="127.0.1.').rstrip().removesuffix("]")
    values = "igp=700,te=700,colour=0,reservable=1250000000"
    more = [f'{{from="Chicago",to="NewYork",local="10.1.15.1",remote="10.1.15.2",{values}}}',
            f'{{from="NewYork",to="Chicago",local="10.1.15.2",remote="10.1.15.1",{values}}}']
    return Network(f"{text},\n {', '.join(more)} ]\n")


def percent(share):
    return "< 1 %" if 0 < share < 0.01 else f"{min(99, round(share * 100)) if share < 1 else round(share * 100)} %"


def band(share):
    return sum(share > most for most in BANDS)
