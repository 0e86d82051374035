"""A copy of the repository in which releases are made, with a stand-in for the toolchain, and what the cases share."""
import functools
import hashlib
import os
import re
import shutil
import subprocess
import tempfile

from harness import clock
from harness.cases import ROOT, NotTried

TIMEOUT_S = 300
AUTHOR = ["-c", "user.name=Maintainers of pced", "-c", "user.email=maintainers@pced.example"]
MADE = ["pced_0.1.0_amd64.deb", "pced-0.1.0-linux-x86_64.tar.gz", "EVIDENCE", "SHA256SUMS"]
GATE = ["rt ci: 900 passed, 0 failed", "tests/run: 300 passed, 0 failed", "clock 7200 s, processors 24000 s", "1200 passed, 0 failed"]
TO_CLEAN = []


def needs(*tools):
    """That these tools are there."""
    lacking = [tool for tool in tools if shutil.which(tool) is None]
    if lacking:
        raise NotTried(f"there is no {' and no '.join(lacking)}")


def needs_root():
    if os.geteuid() != 0:
        raise NotTried("only root may make and enter a root of its own")


def room():
    """A folder that is gone at the end."""
    TO_CLEAN.append(tempfile.mkdtemp(prefix="pced-release-"))
    return TO_CLEAN[-1]


def clean():
    """Removes the folders, once nothing is mounted in them."""
    while TO_CLEAN:
        folder = TO_CLEAN.pop()
        mounted = [line.split()[1] for line in text_of("/proc/mounts").splitlines() if line.split()[1].startswith(f"{folder}/")]
        for path in reversed(mounted):
            ran("umount", "--lazy", path)
        shutil.rmtree(folder, ignore_errors=True)


def ran(*words, **how):
    """Standard output, standard error and the status of a command."""
    done = subprocess.run(words, capture_output=True, text=True, stdin=subprocess.DEVNULL, **{"timeout": TIMEOUT_S} | how)
    return done.stdout, done.stderr, done.returncode


def well(*words, **how):
    """What a command that goes well prints."""
    out, err, status = ran(*words, **how)
    if status != 0:
        raise ValueError(f"{' '.join(words)}: status {status}: {out}{err}")
    return out


def text_of(path):
    with open(path) as file:
        return file.read()


def put(path, text, mode=0o644):
    os.makedirs(os.path.dirname(path), exist_ok=True)
    with open(path, "w") as file:
        file.write(text)
    os.chmod(path, mode)


def sum_of(path):
    with open(path, "rb") as file:
        return hashlib.sha256(file.read()).hexdigest()


def sums(folder):
    """The files below a folder with their checksums."""
    paths = [os.path.join(at, name) for at, _, names in os.walk(folder) for name in names]
    return {os.path.relpath(path, folder): sum_of(path) for path in paths}


def sources_of(root):
    """The files of a repository: those of git, and new ones that it doesn't ignore."""
    out, _, status = ran("git", "-C", root, "ls-files", "-coz", "--exclude-standard")
    if status == 0:
        return [path for path in out.split("\0") if path and os.path.exists(f"{root}/{path}")]
    return [os.path.relpath(os.path.join(at, name), root) for at, folders, names in os.walk(root) for name in names
            if not {"out", "__pycache__", ".git"} & set(os.path.relpath(at, root).split(os.sep))]


class Repository:
    """A copy of the repository with one commit, a program that counts as proved, and what a test command would have left."""

    def __init__(self, program):
        needs("git")
        self.program = os.path.realpath(program)
        self.folder = room()
        self.root = f"{self.folder}/pced"
        for path in sources_of(ROOT):
            os.makedirs(os.path.dirname(f"{self.root}/{path}"), exist_ok=True)
            shutil.copy(f"{ROOT}/{path}", f"{self.root}/{path}", follow_symlinks=False)
        self.logic = re.search(r'LOGIC: &str = "(\w+)"', self.text("crates/pced_build/src/lib.rt"))[1]
        put(f"{self.folder}/bin/rt", f"#!/bin/sh\necho ${{RT_SAYS-rattle-kit-0 logic {self.logic}}}\n", 0o755)
        self.environment = os.environ | {"PATH": f"{self.folder}/bin:{os.environ['PATH']}"}
        well("git", "init", "-q", self.root)
        self.commit()
        self.prove()
        self.gate()

    def text(self, path):
        return text_of(f"{self.root}/{path}")

    def git(self, *words):
        moment = {"GIT_AUTHOR_DATE": "2026-01-02T03:04:05Z", "GIT_COMMITTER_DATE": "2026-01-02T03:04:05Z"}
        return well("git", *AUTHOR, "-C", self.root, *words, env=self.environment | moment).strip()

    def commit(self):
        self.git("add", "-A")
        self.git("commit", "-q", "--allow-empty", "-m", "all")

    def sum(self):
        return well(f"{self.root}/pced", "--sum", env=self.environment).strip()

    def prove(self, program=None):
        """Has the launcher take the program for one that is proved of these sources."""
        binary = f"{self.root}/crates/pced/out/pced"
        os.makedirs(os.path.dirname(binary), exist_ok=True)
        shutil.copy(program or self.program, binary)
        put(f"{self.root}/crates/pced/out/proved.sum", f"{self.sum()}  -\n{sum_of(binary)}  -\n")

    def gate(self, lines=GATE, sources=None, logic=None):
        """Leaves what ./check would have left."""
        head = [f"sources {sources or self.sum()}", f"commit {self.git('rev-parse', 'HEAD')}",
                f"toolchain rattle-kit-0 logic {logic or self.logic}"]
        put(f"{self.root}/.git/pced-check", "\n".join([*head, "", *lines]) + "\n")

    def release(self, *words, **environment):
        return ran(f"{self.root}/tools/release", *words, env=self.environment | environment)

    def edit(self, path, old, new):
        text = self.text(path)
        if old not in text:
            raise ValueError(f"{path} has no {old!r}")
        with open(f"{self.root}/{path}", "w") as file:
            file.write(text.replace(old, new, 1))


@functools.cache
def made(program):
    """A release of the program, its repository and its folder."""
    needs("dpkg-deb", "xz")
    repository = Repository(program)
    folder = f"{repository.folder}/release"
    out, err, status = repository.release(folder)
    if status != 0:
        raise ValueError(f"tools/release: {err}")
    return repository, folder


@functools.cache
def unpacked(program):
    """The files of the package, below a folder."""
    _, folder = made(program)
    tree = f"{room()}/tree"
    well("dpkg-deb", "-x", f"{folder}/{MADE[0]}", tree)
    return tree


def unpack(path, into):
    """Unpacks a tar file below a folder, with all that it says of its files."""
    well("tar", "--extract", "--same-permissions", f"--file={path}", f"--directory={into}")


def tried(*words):
    """Has root do what it may not on each machine."""
    out, err, status = ran(*words)
    if status != 0:
        raise NotTried(f"{words[0]} fails here: {(out + err).strip().partition(chr(10))[0]}")


def comes(is_so, within=60):
    return clock.comes(is_so, within)
