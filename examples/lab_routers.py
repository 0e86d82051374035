"""Five routers for examples/lab: each is an FRR in a network namespace of its own, and all of them speak OSPF-TE or IS-IS.

They live as long as the process that made them: it has namespaces of its own for mounts, networks and processes, so nothing of them is
on the machine's disk, among its interfaces or among its processes after it has ended, however it ends.
"""
import json
import os
import subprocess
import time
from typing import NamedTuple

DAEMONS = "/usr/lib/frr"
RUN = "/run/lab"
SOON = 60  # seconds
SHOW = {"ospf": "show ip ospf mpls-te database json", "isis": "show isis mpls-te database json"}
NAMES = "ABCDE"


class Fault(Exception):
    """Why the lab ends early, in words."""


class Trunk(NamedTuple):
    """Two links, one for each direction, in the subnet 10.NUMBER.0.0/30; rates are in bytes per second."""
    number: int
    ends: str
    igp: int
    te: int
    groups: int
    reservable: int

    def interface(self, end):
        other = self.ends.replace(end, "")
        return f"to-{other.lower()}{self.number}"

    def address(self, end):
        return f"10.{self.number}.0.{1 + self.ends.index(end)}"


TRUNKS = [
    Trunk(1, "AB", 10, 10, 0, 1_000_000), Trunk(2, "BD", 10, 10, 1, 1_000_000), Trunk(3, "AC", 20, 20, 2, 1_000_000),
    Trunk(4, "CD", 20, 20, 0, 1_000_000), Trunk(5, "DE", 5, 7, 0x80000001, 1_250_000_000), Trunk(9, "AB", 10, 11, 0, 500_000),
]


def router_id(name):
    return f"10.0.0.{1 + NAMES.index(name)}"


def trunks_of(name):
    return [trunk for trunk in TRUNKS if name in trunk.ends]


def run(*words):
    done = subprocess.run(words, stdin=subprocess.DEVNULL, capture_output=True, text=True)
    if done.returncode:
        raise Fault(f"`{' '.join(words)}` failed: {(done.stderr or done.stdout).strip()}")
    return done.stdout


def inside(name, *words):
    """The words that run a command beside a router."""
    return ["ip", "netns", "exec", name, *words]


# configurations

def zebra_text(name):
    lines = [f"hostname {name}", "ip forwarding"]
    for trunk in trunks_of(name):
        rates = [f"  max-rsv-bw {trunk.reservable:e}", *(f"  unrsv-bw {priority} {trunk.reservable:e}" for priority in range(8))]
        # no rate may be above the link's at any moment, which is that of the interface at first
        rates.insert(0 if trunk.reservable > 100_000_000 else len(rates), f"  max-bw {1.25 * trunk.reservable:e}")
        lines += [f"interface {trunk.interface(name)}", " link-params", "  enable", f"  metric {trunk.te}", *rates, f"  admin-grp {trunk.groups:#x}",
                  " exit-link-params", "exit"]
    return "\n".join([*lines, ""])


def ospf_text(name):
    lines = [f"hostname {name}"]
    for trunk in trunks_of(name):
        lines += [f"interface {trunk.interface(name)}", " ip ospf network point-to-point", " ip ospf hello-interval 1", " ip ospf dead-interval 4",
                  f" ip ospf cost {trunk.igp}", "exit"]
    return "\n".join([*lines, "router ospf", f" ospf router-id {router_id(name)}", " network 10.0.0.0/8 area 0", " timers throttle spf 0 50 500",
                      " timers throttle lsa all 0", " capability opaque", " mpls-te on", f" mpls-te router-address {router_id(name)}",
                      " mpls-te export", ""])


def isis_text(name):
    # the interval comes before `net`: the first LSP is scheduled by the interval of that moment, which else is 30 seconds
    lines = [f"hostname {name}", "router isis lab", " is-type level-2-only", " lsp-gen-interval 1", " spf-interval 1", " metric-style wide",
             f" net 49.0000.0000.0000.000{1 + NAMES.index(name)}.00", " mpls-te on", f" mpls-te router-address {router_id(name)}",
             " mpls-te export", "exit", "interface lo", " ip router isis lab", " isis passive", "exit"]
    for trunk in trunks_of(name):
        lines += [f"interface {trunk.interface(name)}", " ip router isis lab", " isis network point-to-point", " isis hello-interval 1",
                  " isis csnp-interval 1", " isis psnp-interval 1", " no isis hello padding", f" isis metric {trunk.igp}", "exit"]
    return "\n".join([*lines, ""])


class Routers:
    """The routers, once their daemons run. The process has to be the first of its own namespaces (`unshare`)."""

    def __init__(self, igp):
        self.igp, self.daemons = igp, []
        for folder in ("/run", "/var/tmp"):  # FRR writes to both
            run("mount", "-t", "tmpfs", "lab", folder)
        for folder in ("/run/netns", "/run/frr", RUN):
            os.makedirs(folder)
        run("chown", "frr:frr", "/run/frr")
        for name in NAMES:
            self.add_namespace(name)
        for trunk in TRUNKS:
            self.add_trunk(trunk)
        # FRR's isisd never advertises the link-params of an interface that was still down when isisd heard of it
        wait_until("the interfaces don't come up", lambda: all(self.are_up(name) for name in NAMES))
        for name in NAMES:
            self.add_daemons(name)

    def add_namespace(self, name):
        run("ip", "netns", "add", name)
        run("ip", "-n", name, "link", "set", "lo", "up")
        run("ip", "-n", name, "address", "add", f"{router_id(name)}/32", "dev", "lo")
        run(*inside(name, "sysctl", "-qw", "net.ipv4.ip_forward=1", "net.ipv4.conf.all.rp_filter=0", "net.ipv4.conf.default.rp_filter=0"))

    def add_trunk(self, trunk):
        here, there = trunk.ends
        run("ip", "link", "add", trunk.interface(here), "netns", here, "type", "veth", "peer", "name", trunk.interface(there), "netns", there)
        for end in trunk.ends:
            run("ip", "-n", end, "address", "add", f"{trunk.address(end)}/30", "dev", trunk.interface(end))
            run("ip", "-n", end, "link", "set", trunk.interface(end), "up")

    def are_up(self, name):
        """Whether the kernel has all interfaces of a router up: it notices within a second that the other end is there."""
        states = {link["ifname"]: link["operstate"] for link in json.loads(run("ip", "-n", name, "-json", "link"))}
        return all(states[trunk.interface(name)] == "UP" for trunk in trunks_of(name))

    def add_daemons(self, name):
        folder = f"{RUN}/{name}"
        os.makedirs(folder)
        os.makedirs(f"/run/frr/{name}")
        run("chown", "frr:frr", f"/run/frr/{name}")
        speaker = {"ospf": "ospfd", "isis": "isisd"}[self.igp]
        texts = {"vtysh": "", "zebra": zebra_text(name), speaker: {"ospf": ospf_text, "isis": isis_text}[self.igp](name)}
        for daemon, text in texts.items():
            with open(f"{folder}/{daemon}.conf", "w") as file:
                file.write(text)
        for daemon in ("zebra", speaker):
            words = inside(name, f"{DAEMONS}/{daemon}", "-N", name, "-A", "127.0.0.1", "-f", f"{folder}/{daemon}.conf")
            with open(f"{folder}/{daemon}.log", "w") as log:
                self.daemons.append(subprocess.Popen(words, stdin=subprocess.DEVNULL, stdout=log, stderr=log))
            wait_until(f"{daemon} of {name} doesn't start", lambda: os.path.exists(f"/run/frr/{name}/{daemon}.vty"))

    def show(self, name):
        """The traffic-engineering database of a router, as text."""
        return subprocess.run(self.show_words(name), stdin=subprocess.DEVNULL, capture_output=True, text=True).stdout

    def show_words(self, name):
        """The words that print a router's database: vtysh -N finds its daemons."""
        return inside(name, "vtysh", "-N", name, "--config_dir", RUN, "-c", SHOW[self.igp])

    def refill(self, name):
        """Has an OSPF router make its database again from its LSAs, and gives the lines of vtysh for that."""
        lines = ["configure terminal", "router ospf", "no mpls-te on", "mpls-te on", f"mpls-te router-address {router_id(name)}", "mpls-te export"]
        run(*inside(name, "vtysh", "-N", name, "--config_dir", RUN, *(word for line in lines for word in ("-c", line))))
        return lines

    def set_trunk(self, trunk, state):
        end = trunk.ends[0]
        run("ip", "-n", end, "link", "set", trunk.interface(end), state)

    def end(self):
        for daemon in self.daemons:
            daemon.terminate()
        for daemon in self.daemons:
            daemon.wait()


def wait_until(what, is_so, seconds=SOON, pause=0.1):
    """Waits until this holds, and gives the seconds that it took."""
    begun = time.monotonic()
    while not is_so():
        if time.monotonic() - begun > seconds:
            raise Fault(f"{what}, {seconds} seconds long")
        time.sleep(pause)
    return time.monotonic() - begun
