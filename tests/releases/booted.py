"""The package under systemd, in a root that is booted: what `systemctl` does with the unit."""
import os
import subprocess

import pcep
from harness.cases import NotTried
from harness.ports import free_port
from harness.router import Router

from . import base, roots, running
from .base import comes, ran, text_of

PROCESSES = "/sys/fs/cgroup/systemd"  # where systemd keeps its groups of processes, of which the booted one gets its own


class Booted(roots.Machine):
    """A machine whose systemd runs; its network is that of this machine."""
    running = []

    def __init__(self, *more):
        base.needs("systemd-nspawn", "nsenter", "chroot")
        if not roots.IS_LOADED:
            raise NotTried("systemd is run with --debootstrap")
        super().__init__(*more)
        self.group, words = None, ["systemd-nspawn", "--quiet", "--link-journal=no", "--boot", "--directory", self.root]
        if not os.path.isdir("/run/systemd/system"):
            self.group = self.new_group()
            words += ["--register=no", "--keep-unit"]
        self.process = subprocess.Popen(words, stdin=subprocess.DEVNULL, stdout=subprocess.DEVNULL, stderr=subprocess.DEVNULL,
                                        start_new_session=True, preexec_fn=self.joins)
        Booted.running.append(self)
        if not comes(lambda: self.first() and self.says("systemctl", "is-system-running")[0].strip() in ("running", "degraded"), 180):
            raise NotTried("systemd doesn't come up in a root of its own here")

    @staticmethod
    def new_group():
        if not os.path.isdir(PROCESSES):
            raise NotTried("no systemd runs here, and there is no group of processes for one")
        group = f"{PROCESSES}/pced-release-{os.getpid()}"
        os.makedirs(group, exist_ok=True)
        return group

    def joins(self):
        if self.group:
            with open(f"{self.group}/cgroup.procs", "w") as file:
                file.write("0")

    def first(self):
        """The number of the first process of the root; None if there is none yet."""
        found = ran("pgrep", "--parent", str(self.process.pid))[0].split()
        return found[0] if found else None

    def says(self, *words):
        """A command inside: standard output, standard error and the status."""
        return ran("nsenter", "--target", self.first(), "--mount", "--pid", "--uts", "--ipc", "--cgroup", "--root", "--wd", "--", *words)

    def dpkg(self, *words):
        return self.says("env", "DEBIAN_FRONTEND=noninteractive", "dpkg", *words)

    def systemctl(self, *words):
        return self.says("systemctl", *words, "pced")

    def is_active(self):
        return self.systemctl("is-active")[0].strip()

    def first_process(self):
        """The number of the service's first process; 0 if it has none."""
        return self.says("systemctl", "show", "--value", "--property=MainPID", "pced")[0].strip()

    def journal(self, unit):
        """What the journal has of a unit, without times."""
        return self.says("journalctl", "--no-pager", "--quiet", "--output=cat", f"--unit={unit}")[0]

    def told(self, *lines):
        return self.says("pced", "tell", "/run/pced/control", *lines)[0]

    def end(self):
        if self.first():
            self.says("systemctl", "poweroff")
        try:
            self.process.wait(timeout=60)
        except subprocess.TimeoutExpired:
            self.process.kill()
            self.process.wait()
        for at, _, _ in os.walk(self.group or "/nowhere", topdown=False):
            os.rmdir(at)


def under_systemd(program):
    """Started, reloaded, killed, upgraded, stopped and removed by systemctl and dpkg: routers come up again each time."""
    machine = Booted()
    machine.port = free_port()

    def comes_up():
        return comes(lambda: machine.is_active() == "active" and "steps" in machine.told("status"))

    yield machine.installs(f"{base.made(program)[1]}/{base.MADE[0]}"), (0, [])
    yield machine.is_active(), "inactive"
    network = machine.edit(roots.NETWORK, running.makes_known)
    options = machine.edit(roots.OPTIONS, lambda text: running.options_of(text, machine.port))
    yield machine.systemctl("start")[2], 0
    yield comes_up(), True
    yield from running.serves_a_router(machine)
    base.put(machine.root + roots.NETWORK, network.replace("reservable=1000000", "reservable=2000000"))
    yield machine.systemctl("reload")[1:], ("", 0)
    yield "link 0 1250000 " in machine.told("book"), True
    for text, why in (("[", "te fault 1: "), (network.replace("10.4.0.2", "10.4.0.9"), "te fault 10")):
        base.put(machine.root + roots.NETWORK, text)
        yield machine.systemctl("reload")[2], 1
        yield comes(lambda: why in machine.journal("pced")), True
    yield (machine.is_active(), "link 0 1250000 " in machine.told("book")), ("active", True)
    base.put(machine.root + roots.NETWORK, network)
    yield machine.systemctl("reload")[2], 0
    started = machine.first_process()
    yield machine.systemctl("kill", "--signal=KILL")[2], 0
    yield comes(lambda: machine.first_process() not in (started, "0")), True
    yield comes_up(), True
    router = Router(machine, 1)
    yield router.come_up(), True
    yield machine.installs(roots.package_of(program, "0.1.1")), (0, [])
    yield router.hear_of(7), pcep.CLOSE
    yield comes_up(), True
    yield [machine.text(path) for path in (roots.NETWORK, roots.OPTIONS)], [network, options]
    yield from running.serves_a_router(machine)
    base.put(machine.root + roots.NETWORK, "[")
    yield machine.systemctl("restart")[2] != 0, True
    base.put(machine.root + roots.NETWORK, network)
    yield comes_up(), True
    base.put(machine.root + roots.OPTIONS, options.replace("--keep 600", "--keep 6000000"))
    machine.systemctl("restart")
    yield comes(lambda: machine.is_active() == "failed"), True
    base.put(machine.root + roots.OPTIONS, options)
    yield machine.systemctl("start")[2], 0
    yield comes_up(), True
    router = Router(machine, 1)
    yield router.come_up(), True
    yield machine.dpkg("--remove", "pced")[2], 0
    yield router.hear_of(7), pcep.CLOSE
    yield machine.says("test", "-e", "/run/pced")[2], 1
    # (each server that came up has left a journal: the one that was killed too)
    journals = sorted(os.listdir(f"{machine.root}/var/lib/private/pced"))
    yield len(journals) >= 5, True
    for name in journals:
        out, err, status = ran(program, "replay", f"{machine.root}/var/lib/private/pced/{name}")
        yield (status, "each reply as recorded" in out or "no step" in out), (0, True)
    yield machine.dpkg("--purge", "pced")[2], 0
    yield os.path.exists(machine.root + roots.NETWORK), False
    yield any(os.path.lexists(f"{machine.root}/var/lib/{name}") for name in ("pced", "private/pced")), False


TIMER = "pced-network.timer"
VTYSH = """#!/bin/sh
[ "$#:$1:$2" = "2:-c:show $(cat /root/igp) mpls-te database json" ] && exec cat /root/ted.json
"""


def a_network_that_is_followed(program):
    """pced-network.timer brings a running server the changes of FRR's database, also over an upgrade, and goes with the package."""
    machine = Booted("python3")
    machine.port = free_port()
    frr = f"{base.ROOT}/tests/frr"

    def leads(igp, database):
        base.put(f"{machine.root}/root/igp", igp)
        base.put(f"{machine.root}/root/new.json", text_of(f"{frr}/{database}"))
        os.replace(f"{machine.root}/root/new.json", f"{machine.root}/root/ted.json")

    def has(reservable):
        """Whether the server soon has this reservable bandwidth on link 2."""
        return comes(lambda: f"link 2 {reservable} " in machine.told("book"))

    base.put(f"{machine.root}/usr/bin/vtysh", VTYSH, 0o755)
    leads("ip ospf", "ted-ospf.json")
    yield machine.installs(f"{base.made(program)[1]}/{base.MADE[0]}"), (0, [])
    base.put(machine.root + roots.NETWORK, text_of(f"{frr}/ospf.toml"))
    options = machine.edit(roots.OPTIONS, lambda text: running.options_of(text, machine.port))
    yield machine.systemctl("start")[2], 0
    yield has(1000000), True
    yield machine.says("systemctl", "enable", "--now", TIMER)[2], 0
    leads("ip ospf", "ted-ospf-bd-down.json")
    yield has(0), True
    yield text_of(machine.root + roots.NETWORK), text_of(f"{frr}/ospf-down.toml")
    leads("ip ospf", "ted-ospf-bd-up.json")
    yield has(1000000), True
    # (the journal has what changed, and no line for each look)
    came = machine.journal("pced-network")
    yield [word for word in ("gone: link 2 ", "back: link 2 ", "done") if word not in came], []
    yield [line for line in came.splitlines() if "Start" in line or "Finished" in line], []
    # (another command in the options, whose words stand in quotes)
    base.put(machine.root + roots.OPTIONS, options + "TED_COMMAND=\"vtysh -c 'show isis mpls-te database json'\"\nTE_OPTIONS=\"--most-gone 1\"\n")
    leads("isis", "ted-ospf-bd-down.json")
    yield comes(lambda: "--most-gone allows 1" in machine.journal("pced-network")), True
    yield has(1000000), True
    yield comes(lambda: machine.says("systemctl", "is-failed", "pced-network")[0].strip() == "failed"), True
    yield machine.installs(roots.package_of(program, "0.1.1")), (0, [])
    base.put(machine.root + roots.OPTIONS, options)
    leads("ip ospf", "ted-ospf-bd-down.json")
    yield has(0), True
    yield machine.says("systemctl", "is-active", TIMER)[0].strip(), "active"
    yield machine.dpkg("--purge", "pced")[2], 0
    yield machine.says("systemctl", "is-active", TIMER)[0].strip(), "inactive"
    yield os.path.lexists(f"{machine.root}/etc/systemd/system/timers.target.wants/{TIMER}"), False


CASES = [under_systemd, a_network_that_is_followed]


def end_all():
    while Booted.running:
        Booted.running.pop().end()
