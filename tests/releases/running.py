"""The installed server: started as its unit says, with routers outside of its root."""
import os
import re
import shlex
import subprocess

import pcep
from harness.router import Router
from pcep import diamond

from . import base
from .base import comes, text_of

# a network whose node R is at the address that the first router connects from
KNOWN = ' {name="R",id="127.0.1.1"},\n {name="A",id="10.0.0.1"}'
FREE = "1000000"
STATE = "/var/lib/pced"  # the folder that a service of systemd is given by StateDirectory=pced
RECORDED = ("each reply as recorded\n", 0)


class Unit:
    """What a unit of systemd says that stands below a root."""

    def __init__(self, root, path):
        self.root = root
        self.rows = re.findall(r"^(\w+)=(.*)$", text_of(root + path), re.M)

    def all(self, name):
        return [value for key, value in self.rows if key == name]

    def environment(self):
        """The variables of a service."""
        found = dict(value.split("=", 1) for value in self.all("Environment"))
        for path in self.all("EnvironmentFile"):
            for name, value in re.findall(r"^(\w+)=(.*)$", text_of(self.root + path.removeprefix("-")), re.M):
                found[name] = " ".join(shlex.split(value))
        return found

    def words(self, command):
        """The words of a command: a variable alone is split into words, as systemd does, and $$ is a dollar."""
        found, environment = [], self.environment()
        for word in shlex.split(command):
            found += environment.get(word[1:], "").split() if word.startswith("$") else [word.replace("$$", "$")]
        return found


class Service:
    """A server that runs as its unit says: behind the unit's root if it has one."""
    running = []

    def __init__(self, root, path="/usr/lib/systemd/system/pced.service", enters=True):
        self.unit, self.root, self.enters = Unit(root if enters else "", path), root, enters
        self.environment = {"PATH": "/usr/bin:/bin:/usr/sbin:/sbin"} | self.unit.environment()
        self.check = self.ran("ExecStartPre")
        self.started = self.unit.words(self.unit.all("ExecStart")[0])
        self.control = self.started[self.started.index("--control") + 1]
        self.port = int(self.started[self.started.index("--listen") + 1].split(":")[1])
        self.process = subprocess.Popen(self.inside(self.started), env=self.environment, stdin=subprocess.DEVNULL, stdout=subprocess.DEVNULL,
                                        stderr=subprocess.PIPE, text=True)
        Service.running.append(self)
        listening = [f"{address}:{self.port:04X} 00000000:0000 0A" for address in ("0100007F", "00000000")]
        self.is_up = comes(lambda: any(each in text_of("/proc/net/tcp") for each in listening) or self.process.poll() is not None)

    def inside(self, words):
        return ["chroot", self.root, *words] if self.enters else words

    def ran(self, name):
        """The commands of the unit with this name, up to one that fails: what they print on both, and the last status."""
        said, status = "", 0
        for command in self.unit.all(name):
            done = subprocess.run(self.inside(self.unit.words(command)), env=self.environment, stdin=subprocess.DEVNULL,
                                  stdout=subprocess.PIPE, stderr=subprocess.STDOUT, text=True, timeout=base.TIMEOUT_S)
            said, status = said + done.stdout, done.returncode
            if status != 0:
                break
        return said, status

    def told(self, *lines):
        """What an operator is answered."""
        done = subprocess.run(self.inside([self.started[0], "tell", self.control, *lines]), env=self.environment,
                              stdin=subprocess.DEVNULL, capture_output=True, text=True, timeout=base.TIMEOUT_S)
        return done.stdout

    def replayed(self):
        """What `replay` says last of each journal that it has left, and the status."""
        folder, said = self.started[self.started.index("--journal") + 1], []
        for name in sorted(os.listdir(f"{self.root}{folder}" if self.enters else folder)):
            done = subprocess.run(self.inside([self.started[0], "replay", f"{folder}/{name}"]), env=self.environment, stdin=subprocess.DEVNULL,
                                  stdout=subprocess.PIPE, stderr=subprocess.STDOUT, text=True, timeout=base.TIMEOUT_S)
            said.append((done.stdout.split(": ")[-1], done.returncode))
        return said

    def ended(self):
        """The status after TERM to the first process, as `systemctl stop` sends it, and the last word of the log."""
        self.process.terminate()
        _, log = self.process.communicate(timeout=base.TIMEOUT_S)
        Service.running.remove(self)
        return self.process.returncode, log.splitlines()[-1].split("] ")[-1].split()[0]


def end_all():
    while Service.running:
        process = Service.running.pop().process
        process.kill()
        process.wait()


def makes_known(text):
    """A link text in which the routers of these tests are known."""
    return text.replace(' {name="A",id="10.0.0.1"}', KNOWN, 1)


def options_of(text, port, journals=STATE):
    """The options of a service that listens on loopback only, at a port of its own, and leaves its journals in a folder."""
    return re.sub(r"--listen \S+", f"--listen 127.0.0.1:{port}", text).replace(STATE, journals)


def serves_a_router(service):
    """A router comes up, reports an LSP, and its bandwidth stands in the book."""
    router = Router(service, 1)
    yield router.come_up(), True
    router.send(diamond.report(1, 750000.0))
    yield comes(lambda: "link 0 250000 " in service.told("book")), True
    yield [row.split()[0] for row in service.told("lsps").splitlines()[1:]], [router.address]
    yield service.told("peers").splitlines()[1].split()[:2], ["127.0.1.1", "up"]


def hears_its_close(service):
    """A router that comes up hears a Close as the server ends in order."""
    router = Router(service, 1)
    yield router.come_up(), True
    # (the server may know the address from a session that has ended, and have yet to read what makes this one up)
    yield comes(lambda: [router.address, "up"] in [row.split()[:2] for row in service.told("peers").splitlines()]), True
    yield service.ended(), (0, "audited")
    yield router.hear_of(7), pcep.CLOSE
