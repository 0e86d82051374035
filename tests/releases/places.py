"""The program where it is put: by tools/install, from the tar file, and where there is nothing but the C library."""
import os
import re
import shutil
import subprocess

from harness.ports import free_port
from harness.router import Router
from pcep import diamond

from . import base, running
from .base import MADE, ran, text_of, well

UNIT = "lib/systemd/system/pced.service"
WRITTEN = ["libexec/pced", "bin/pced", "lib/pced/te_from_frr", "lib/pced/network_from_frr", UNIT, "lib/systemd/system/pced-network.service",
           "lib/systemd/system/pced-network.timer", "share/man/man1/pced.1", "share/bash-completion/completions/pced", "share/pced/BUILD"]
CONFIGURATION = ["etc/pced/network.toml", "etc/default/pced"]


def what_is_installed(program):
    """tools/install writes the package's unit, leaves what an operator wrote, and removes what it wrote."""
    repository = base.Repository(program)
    prefix, install = f"{repository.folder}/prefix", f"{repository.root}/tools/install"

    def installed(*words):
        out, err, status = ran(install, *words, prefix, env=repository.environment)
        return [line.split(maxsplit=1) for line in out.splitlines() if not line.startswith(("next:", "  "))], err, status

    paths = [f"{prefix}/{name}" for name in (*WRITTEN, *CONFIGURATION)]
    yield installed(), ([["same", path] for path in paths], "", 0)
    unit = text_of(f"{prefix}/{UNIT}")
    yield unit.replace(f"{prefix}/etc", "/etc").replace(prefix, "/usr"), text_of(f"{base.unpacked(program)}/usr/{UNIT}")
    yield ran(f"{prefix}/bin/pced", "--version"), (f"pced 0.1.0 logic {repository.logic} commit {repository.git('rev-parse', 'HEAD')}\n", "", 0)
    port = free_port()
    network = running.makes_known(text_of(f"{prefix}/{CONFIGURATION[0]}"))
    options = running.options_of(text_of(f"{prefix}/{CONFIGURATION[1]}"), port, base.room())
    base.put(f"{prefix}/{CONFIGURATION[0]}", network)
    base.put(f"{prefix}/{CONFIGURATION[1]}", options)
    os.remove(f"{prefix}/bin/pced")
    words = ["same", "missing", *["same"] * (len(WRITTEN) - 2), "other", "other"]
    yield installed("--check"), ([list(row) for row in zip(words, paths)], "", 1)
    yield installed(), ([[word.replace("missing", "same"), path] for word, path in zip(words, paths)], "", 0)
    yield [text_of(path) for path in paths[-2:]], [network, options]
    base.put(f"{prefix}/{UNIT}", unit.replace("/run/pced", repository.folder))
    service = running.Service(prefix, f"{prefix}/{UNIT}", enters=False)
    yield (service.check[1], service.is_up), (0, True)
    yield from running.serves_a_router(service)
    yield service.ended(), (0, "audited")
    yield service.replayed(), [running.RECORDED]
    base.put(f"{prefix}/{UNIT}", unit)
    left = [["left", f"{path}: it was changed"] for path in paths[-2:]]
    out, err, status = installed("--uninstall")
    yield (sorted(out), err, status), (sorted([*(["removed", path] for path in paths[:-2]), *left]), "", 0)
    yield sorted(base.sums(prefix)), sorted(CONFIGURATION)
    yield sorted(os.listdir(prefix)), ["etc"]
    yield installed("--uninstall"), ([], f"tools/install: nothing was installed at {prefix}: there is no {prefix}/share/pced/installed\n", 1)


def what_install_refuses(program):
    """A prefix that is none, a program that isn't proved, a folder that can't be written."""
    repository = base.Repository(program)
    install = f"{repository.root}/tools/install"
    yield ran(install, "usr", env=repository.environment)[2], 2
    yield ran(install, "--check", "--uninstall", env=repository.environment)[2], 2
    base.put(f"{repository.folder}/file", "")
    out, err, status = ran(install, f"{repository.folder}/file", env=repository.environment)
    yield (out, re.sub(r" /\S+", " PATH", err), status), ("", "tools/install: cannot write PATH Not a directory\n", 1)
    os.remove(f"{repository.root}/crates/pced/out/proved.sum")
    prefix = f"{repository.folder}/prefix"
    out, err, status = ran(install, prefix, env=repository.environment)
    yield (out, "no proved binary" in err, err.count("\n"), status, os.path.exists(prefix)), ("", True, 1, 1, False)


def the_tar_file_serves(program):
    """The shell program of the tar file runs the program beside it, and ends it in order; so do the examples that it has."""
    _, folder = base.made(program)
    into = base.room()
    base.unpack(f"{folder}/{MADE[1]}", into)
    top = f"{into}/pced-0.1.0-linux-x86_64"
    unit = f"{top}/lib/systemd/system/pced.service"
    port = free_port()
    base.put(unit, text_of(unit).replace("/run/pced", into).replace("/usr/local/bin", f"{top}/bin").replace("/etc/", f"{top}/etc/"))
    base.put(f"{top}/etc/pced/network.toml", running.makes_known(text_of(f"{top}/etc/pced/network.toml")))
    base.put(f"{top}/etc/default/pced", running.options_of(text_of(f"{top}/etc/default/pced"), port, base.room()))
    service = running.Service(top, unit, enters=False)
    yield (service.check[1], service.is_up), (0, True)
    yield from running.serves_a_router(service)
    yield [said.splitlines()[-1:] if status == 0 else said for said, status in [service.ran("ExecReload")]], [["done"]]
    yield from running.hears_its_close(service)
    yield service.replayed(), [running.RECORDED]
    out, err, status = ran(f"{top}/share/doc/pced/examples/demo", "--http", "0")
    yield (out.splitlines()[-1:], err, status), (["The demo has ended."], "", 0)


def the_tar_file_as_a_service(program):
    """The commands of INSTALL put it in place, also over a server that runs and a configuration that was edited; that of OPERATING.md
    removes it."""
    _, folder = base.made(program)
    into, root = base.room(), base.room()
    base.unpack(f"{folder}/{MADE[1]}", into)
    top, local = f"{into}/pced-0.1.0-linux-x86_64", f"{root}/usr/local"
    os.makedirs(local)
    commands = re.findall(r"^    (cp .*?) (/usr/local/|/)(?: +#.*)?$", text_of(f"{top}/INSTALL"), re.M)
    yield [where for _, where in commands], ["/usr/local/", "/"]

    def put():
        return [ran("sh", "-c", f"{command} {root}{where}", cwd=top)[2] for command, where in commands]

    yield put(), [0, 0]
    unit = f"{local}/{UNIT}"
    base.put(unit, text_of(unit).replace("/run/pced", into).replace("/usr/local/bin", f"{local}/bin").replace("/etc/", f"{root}/etc/"))
    network = running.makes_known(text_of(f"{root}/etc/pced/network.toml"))
    options = running.options_of(text_of(f"{root}/etc/default/pced"), free_port(), base.room())
    base.put(f"{root}/etc/pced/network.toml", network)
    base.put(f"{root}/etc/default/pced", options)
    service = running.Service(root, unit, enters=False)
    yield service.is_up, True
    yield put()[0], 0
    yield [text_of(f"{root}/etc/{name}") for name in ("pced/network.toml", "default/pced")], [network, options]
    yield from running.serves_a_router(service)
    yield from running.hears_its_close(service)
    yield service.replayed(), [running.RECORDED]
    remove = re.search(r"^cd /usr/local && (rm .*)$", text_of(f"{base.ROOT}/docs/OPERATING.md"), re.M)[1]
    yield ran("sh", "-c", remove, cwd=local), ("", "", 0)
    yield base.sums(local), {}


def with_the_c_library_alone(program):
    """The program serves a router in a root that holds the C library and nothing else, and ends by `tell`."""
    base.needs("ldd", "chroot")
    base.needs_root()
    root = base.room()
    binary = f"{base.unpacked(program)}/usr/libexec/pced"
    libraries = re.findall(r"(/\S+) \(0x", well("ldd", binary))
    yield [re.sub(r"[-.].*", "", os.path.basename(path)) for path in libraries if "vdso" not in path], ["libc", "ld"]
    for path, to in [(binary, "/pced"), *((path, path) for path in libraries)]:
        os.makedirs(os.path.dirname(root + to), exist_ok=True)
        well("cp", "-L", path, root + to)
    base.put(f"{root}/te", text_of(f"{base.ROOT}/examples/diamond.toml"))
    yield ran("chroot", root, "/pced", "--version")[1:], ("", 0)
    yield ran("chroot", root, "/pced", "check", "/te")[2], 0

    class Server:
        port = free_port()

    server = Server()
    process = subprocess.Popen([shutil.which("chroot"), root, "/pced", "serve", "--te", "/te", "--listen", f"127.0.0.1:{server.port}", "--http",
                                f"127.0.0.1:{free_port()}", "--endless", "--control", "/control"], text=True, stdin=subprocess.DEVNULL,
                               stdout=subprocess.DEVNULL, stderr=subprocess.PIPE, env={})
    try:
        yield base.comes(lambda: os.path.exists(f"{root}/control") or process.poll() is not None), True
        router = Router(server, 1)
        yield router.come_up(), True
        router.send(diamond.report(1, 750000.0))
        yield base.comes(lambda: "link 0 250000 " in ran("chroot", root, "/pced", "tell", "/control", "book")[0]), True
        yield ran("chroot", root, "/pced", "tell", "/control", "reload"), ("done\n", "", 0)
        yield ran("chroot", root, "/pced", "tell", "/control", "end")[2], 0
        _, log = process.communicate(timeout=base.TIMEOUT_S)
        yield (process.returncode, log.splitlines()[-1].split("] ")[-1].split()[0]), (0, "audited")
    finally:
        process.kill()
        process.wait()


CASES = [what_is_installed, what_install_refuses, the_tar_file_serves, the_tar_file_as_a_service, with_the_c_library_alone]
