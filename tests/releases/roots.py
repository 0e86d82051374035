"""The package in a root of its own, as on a machine that has neither the toolchain nor the repository."""
import functools
import os
import re
import shutil

from harness.cases import NotTried
from harness.ports import free_port

from . import base, running
from .base import MADE, ran, text_of, well

IS_LOADED = False  # whether a root is made by debootstrap
LINKS = ("bin", "sbin", "lib", "lib32", "lib64", "libx32")  # folders that are links into /usr
FOLDERS = ("dev", "proc", "run", "tmp", "etc", "root", "var/lib/dpkg/info", "var/lib/dpkg/updates", "var/lib/dpkg/triggers", "var/log")
BASE = ("dpkg", "init-system-helpers", "libc-bin", "coreutils", "dash", "perl-base", "tar", "sed", "grep", "diffutils", "debconf")
OPTIONS = "/etc/default/pced"
NETWORK = "/etc/pced/network.toml"


def installed_here():
    """The packages of this machine: their entries in dpkg's list, by name."""
    found = {}
    for entry in text_of("/var/lib/dpkg/status").split("\n\n"):
        name = re.search(r"^Package: (\S+)$", entry, re.M)
        if name and "\nStatus: install ok installed\n" in entry:
            found[name[1]] = entry
    return found


def needed(entries):
    """A small system's packages, with all that they depend on."""
    left, wanted = [name for name in BASE if name in entries], set()
    while left:
        name = left.pop()
        if name not in wanted:
            wanted.add(name)
            for field in re.findall(r"^(?:Pre-)?Depends: (.*)$", entries[name], re.M):
                left += [each for each in re.findall(r"([a-z0-9][a-z0-9.+-]+)(?::\w+)?(?: \([^)]*\))?", field) if each in entries]
    return sorted(wanted)


def copied_root(root):
    """A root of packages of this machine, without a network."""
    base.needs("dpkg-query", "dpkg", "chroot", "cp")
    entries = installed_here()
    names = needed(entries)
    for folder in LINKS:
        if os.path.islink(f"/{folder}"):
            os.symlink(os.readlink(f"/{folder}"), f"{root}/{folder}")
    for folder in (*FOLDERS, "usr/bin", "usr/sbin", "usr/lib", "usr/lib64"):
        os.makedirs(f"{root}/{folder}", exist_ok=True)
    paths = [path for path in well("dpkg-query", "-L", *names).splitlines()
             if path.startswith("/") and (os.path.islink(path) or os.path.isfile(path)) and not path.startswith(("/usr/share/doc", "/usr/share/man"))]
    for path in dict.fromkeys(paths):
        os.makedirs(os.path.dirname(root + path), exist_ok=True)
        shutil.copy2(path, root + path, follow_symlinks=False)
    for path in ("/etc/passwd", "/etc/group", "/usr/bin/awk"):
        if os.path.lexists(path) and not os.path.lexists(root + path):
            shutil.copy2(path, root + path)
    base.put(f"{root}/var/lib/dpkg/status", "\n\n".join(entries[name] for name in names) + "\n")
    base.put(f"{root}/var/lib/dpkg/available", "")
    for name in os.listdir("/var/lib/dpkg/info"):
        if re.split(r"[:.](?=[a-z0-9]+$|amd64\.)", name)[0] in names:
            shutil.copy2(f"/var/lib/dpkg/info/{name}", f"{root}/var/lib/dpkg/info/{name}")
    base.tried("mknod", "-m", "666", f"{root}/dev/null", "c", "1", "3")
    base.tried("chroot", root, "/bin/sh", "-c", "echo > /dev/null")


@functools.cache
def base_root(*more):
    """A root made by debootstrap, with systemd and these packages, which each machine has a copy of."""
    base.needs("debootstrap")
    root = f"{base.room()}/root"
    suite = re.search(r"^VERSION_CODENAME=(\w+)$", text_of("/etc/os-release"), re.M)
    ran("debootstrap", "--variant=minbase", f"--include={','.join(('systemd-sysv', 'dbus', *more))}", suite[1] if suite else "stable", root, timeout=1000)
    if not os.path.exists(f"{root}/usr/bin/systemctl"):
        raise NotTried("debootstrap doesn't reach a mirror")
    return root


def loaded_root(root, *more):
    well("cp", "-a", f"{base_root(*more)}/.", root)


def new_root(*more):
    base.needs_root()
    root = f"{base.room()}/root"
    os.makedirs(root)
    if IS_LOADED:
        loaded_root(root, *more)
    else:
        copied_root(root)
    return root


def package_of(program, version, options=None):
    """The package with another version, and other options as they are at first."""
    folder = base.room()
    tree, made = f"{folder}/tree", f"{folder}/pced_{version}_amd64.deb"
    well("dpkg-deb", "-R", f"{base.made(program)[1]}/{MADE[0]}", tree)
    control = text_of(f"{tree}/DEBIAN/control")
    base.put(f"{tree}/DEBIAN/control", re.sub(r"^Version: .*$", f"Version: {version}", control, flags=re.M))
    if options:
        base.put(tree + OPTIONS, options)
    well("dpkg-deb", "--root-owner-group", "-Zgzip", "--build", tree, made)
    return made


class Machine:
    """A root in which packages are installed by its own dpkg. One that debootstrap makes has these packages more."""

    def __init__(self, *more):
        self.root = new_root(*more)

    def dpkg(self, *words):
        environment = {"PATH": "/usr/sbin:/usr/bin:/sbin:/bin", "DEBIAN_FRONTEND": "noninteractive", "LC_ALL": "C.UTF-8"}
        return ran("chroot", self.root, "dpkg", *words, env=environment)

    def installs(self, package, *words):
        """The status of an install, and what it complains about."""
        shutil.copy(package, f"{self.root}/root/pced.deb")
        out, err, status = self.dpkg(*words, "--install", "/root/pced.deb")
        os.remove(f"{self.root}/root/pced.deb")
        return status, [line for line in (out + err).splitlines() if "warning" in line or "error" in line]

    def state(self):
        return self.dpkg("--status", "pced")[0].partition("Status: ")[2].partition("\n")[0]

    def text(self, path):
        return text_of(self.root + path)

    def edit(self, path, change):
        text = change(self.text(path))
        base.put(self.root + path, text)
        return text

    def files(self):
        """What stands in it, but for what dpkg notes of itself."""
        out = well("find", ".", "-xdev", "!", "-path", "./var/lib/dpkg/*", "!", "-path", "./var/log/*", "!", "-path", "./proc/*", cwd=self.root)
        return set(out.splitlines())


def a_life_of_the_package(program):
    """Installed, edited, started, reloaded, upgraded, removed and purged: what the operator wrote, and the journals, stay until the purge."""
    base.needs("dpkg-deb", "chroot", "find")
    machine = Machine()
    before = machine.files()
    yield machine.installs(f"{base.made(program)[1]}/{MADE[0]}"), (0, [])
    yield machine.state(), "install ok installed"
    yield os.path.lexists(f"{machine.root}/etc/systemd/system/multi-user.target.wants/pced.service"), False
    yield [name for name in ("rt", "python3", "git") if os.path.exists(f"{machine.root}/usr/bin/{name}")], []
    network = machine.edit(NETWORK, running.makes_known)
    options = machine.edit(OPTIONS, lambda text: running.options_of(text, free_port()))
    os.makedirs(f"{machine.root}/run/pced", mode=0o700)  # (as RuntimeDirectory=pced has it)
    os.makedirs(f"{machine.root}/var/lib/private/pced", mode=0o700)  # (as StateDirectory=pced and DynamicUser=yes have it)
    os.symlink("private/pced", machine.root + running.STATE)
    service = running.Service(machine.root)
    yield (service.check[1], service.is_up), (0, True)
    yield from running.serves_a_router(service)
    yield from reloads(machine, service, network)
    yield machine.installs(package_of(program, "0.1.1")), (0, [])
    yield [machine.text(path) for path in (NETWORK, OPTIONS)], [network, options]
    yield "0.1.1" in machine.dpkg("--status", "pced")[0], True
    yield from running.hears_its_close(service)
    service = running.Service(machine.root)
    yield from running.serves_a_router(service)
    yield service.ended(), (0, "audited")
    yield service.replayed(), [running.RECORDED] * 2
    shutil.rmtree(f"{machine.root}/run/pced")
    newer = package_of(program, "0.1.2", 'PCED_OPTIONS="--listen 127.0.0.1:4189"\n')
    yield machine.installs(newer, "--force-confold"), (0, [])
    yield [machine.text(path) for path in (NETWORK, OPTIONS, f"{OPTIONS}.dpkg-dist")], [network, options, 'PCED_OPTIONS="--listen 127.0.0.1:4189"\n']
    yield machine.installs(package_of(program, "0.1.0"), "--force-confold")[0], 0
    yield [machine.text(path) for path in (NETWORK, OPTIONS)], [network, options]
    yield machine.dpkg("--remove", "pced")[2], 0
    yield machine.state(), "deinstall ok config-files"
    yield [machine.text(path) for path in (NETWORK, OPTIONS)], [network, options]
    yield os.path.exists(f"{machine.root}/usr/libexec/pced"), False
    yield len(os.listdir(f"{machine.root}/var/lib/private/pced")), 2
    yield machine.dpkg("--purge", "pced")[2], 0
    left = {path for path in machine.files() - before if not path.startswith("./var/lib/systemd")}  # (of deb-systemd-helper)
    yield left, {"./var/lib/private"}


def reloads(machine, service, network):
    """A reload gives links their new values; one of a broken link text, or of another network, fails, says why and changes nothing."""
    def reloaded():
        said, status = service.ran("ExecReload")
        return said.splitlines()[-1:], status

    base.put(machine.root + NETWORK, network.replace("reservable=1000000", "reservable=2000000"))
    yield reloaded(), (["done"], 0)
    yield "link 0 1250000 " in service.told("book"), True
    base.put(machine.root + NETWORK, "[")
    yield service.ran("ExecReload")[0].startswith("te fault 1: "), True
    yield service.ran("ExecReload")[1], 2
    yield service.ran("ExecStartPre")[1], 2
    base.put(machine.root + NETWORK, network.replace("10.4.0.2", "10.4.0.9"))
    yield reloaded(), (["te fault 10"], 1)
    os.remove(machine.root + NETWORK)
    yield reloaded()[1], 3
    yield "link 0 1250000 " in service.told("book"), True
    base.put(machine.root + NETWORK, network)
    yield reloaded(), (["done"], 0)


CASES = [a_life_of_the_package]
