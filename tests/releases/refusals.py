"""What keeps a release from being made: each is one line, and nothing is left behind."""
import os
import resource
import signal
import subprocess
import time

from . import base


def refused(run, folder, *words):
    """Whether a run has failed with one line on standard error that has these words, and made nothing."""
    out, err, status = run
    is_line = err.startswith("tools/release: ") and err.count("\n") == 1 and all(word in err for word in words)
    left = os.listdir(folder) if os.path.isdir(folder) else []
    return (is_line or err, out, status, left)


NOTHING = (True, "", 1, [])


def no_proof(program):
    """Without a program that is proved of these sources, or what a passed ./check left of them, nothing is made."""
    repository = base.Repository(program)
    into = f"{repository.folder}/release"
    os.remove(f"{repository.root}/crates/pced/out/proved.sum")
    yield refused(repository.release(into), into, "no proved binary of these sources"), NOTHING
    repository.prove()
    for how, words in (({"lines": ["1200 passed, 3 failed"]}, "didn't pass: 1200 passed, 3 failed"), ({"lines": []}, "didn't pass"),
                       ({"lines": ["0 passed, 0 failed"]}, "didn't pass"), ({"sources": "0" * 64}, "other sources"),
                       ({"logic": "0123456789abcdef"}, "another logic")):
        repository.gate(**how)
        yield refused(repository.release(into), into, words), NOTHING
    base.put(f"{repository.root}/.git/pced-check", "")
    yield refused(repository.release(into), into, "other sources"), NOTHING
    os.remove(f"{repository.root}/.git/pced-check")
    yield refused(repository.release(into), into, "./check has left nothing"), NOTHING
    repository.edit("crates/sequence/src/lib.rt", "\n", "\n// more\n")
    repository.commit()
    repository.gate()
    yield refused(repository.release(into), into, "no proved binary of these sources"), NOTHING
    repository.prove()
    yield repository.release(into)[1:], ("", 0)


def a_tree_with_changes(program):
    """A changed file, a new one, one that is gone, or no commit at all: nothing is made, of a proved program or another."""
    repository = base.Repository(program)
    into, words = f"{repository.folder}/release", "changes that are in no commit"
    for change in (lambda: repository.edit("README.md", "\n", "\n\n"), lambda: base.put(f"{repository.root}/examples/more.txt", ""),
                   lambda: os.remove(f"{repository.root}/examples/diamond.txt")):
        change()
        yield refused(repository.release(into), into, words), NOTHING
        yield refused(repository.release("--unproved-for-tests", program, into), into, words), NOTHING
        repository.git("reset", "-q", "--hard")
        repository.git("clean", "-qfd")
    os.rename(f"{repository.root}/.git", f"{repository.folder}/git")
    yield refused(repository.release("--unproved-for-tests", program, into), into, "no repository"), NOTHING


def another_toolchain(program):
    """A toolchain with another logic, and none at all."""
    repository = base.Repository(program)
    into = f"{repository.folder}/release"
    yield refused(repository.release(into, RT_SAYS="rattle-kit-1 logic 0123456789abcdef"), into, "logic is 0123456789abcdef"), NOTHING
    yield refused(repository.release(into, RT_SAYS="rattle-kit-1"), into, "names no logic"), NOTHING
    path = without(repository, "rt")
    yield refused(repository.release(into, PATH=path), into, "no rt in PATH"), NOTHING


def without(repository, *names):
    """A PATH with all tools but these."""
    folder = base.room()
    for place in reversed(repository.environment["PATH"].split(":")):
        for name in os.listdir(place) if os.path.isdir(place) else []:
            if name not in names:
                if os.path.lexists(f"{folder}/{name}"):
                    os.remove(f"{folder}/{name}")
                os.symlink(f"{place}/{name}", f"{folder}/{name}")
    return folder


def missing_tools(program):
    """dpkg-deb that is missing, or fails."""
    repository = base.Repository(program)
    into = f"{repository.folder}/release"
    for name in ("dpkg-deb", "xz"):
        yield refused(repository.release(into, PATH=without(repository, name)), into, f"no {name} in PATH"), NOTHING
    base.put(f"{repository.folder}/bin/dpkg-deb", "#!/bin/sh\necho 'dpkg-deb: error: no space' >&2\nexit 2\n", 0o755)
    yield refused(repository.release(into), into, "dpkg-deb failed: dpkg-deb: error: no space"), NOTHING


def versions_that_differ(program):
    """A version that the changelog lacks, and a program of another version."""
    repository = base.Repository(program)
    into = f"{repository.folder}/release"
    repository.edit("CHANGELOG.md", "## 0.1.0", "## 0.0.9")
    repository.commit()
    repository.gate()
    yield refused(repository.release(into), into, "CHANGELOG.md has no version 0.1.0"), NOTHING
    repository.git("reset", "-q", "--hard", "HEAD~1")
    repository.edit("crates/pced_build/src/lib.rt", 'VERSION: &str = "0.1.0"', 'VERSION: &str = "0.1.1"')
    repository.edit("CHANGELOG.md", "## 0.1.0", "## 0.1.1\n\n- more\n\n## 0.1.0")
    repository.commit()
    repository.prove()
    repository.gate()
    yield refused(repository.release(into), into, "another version than 0.1.1"), NOTHING


def a_full_disk(program):
    """A disk that is full, or a folder that can't be written: what stood there stays as it is."""
    repository = base.Repository(program)
    into = f"{repository.folder}/release"

    def short():
        signal.signal(signal.SIGXFSZ, signal.SIG_IGN)
        resource.setrlimit(resource.RLIMIT_FSIZE, (100_000, 100_000))

    ran = subprocess.run([f"{repository.root}/tools/release", into], env=repository.environment, capture_output=True, text=True, preexec_fn=short)
    yield refused((ran.stdout, ran.stderr, ran.returncode), into, "File too large"), NOTHING
    base.put(f"{repository.folder}/file", "")
    yield refused(repository.release(f"{repository.folder}/file/release"), into, "Not a directory"), NOTHING
    yield repository.release(into)[2], 0
    before = base.sums(into)
    ran = subprocess.run([f"{repository.root}/tools/release", into], env=repository.environment, capture_output=True, text=True, preexec_fn=short)
    yield (ran.returncode, base.sums(into)), (1, before)
    base.needs_root()
    disk = base.room()
    base.tried("mount", "-t", "tmpfs", "-o", "size=1m", "none", disk)
    try:
        yield refused(repository.release(f"{disk}/release"), disk, "No space left on device"), NOTHING
    finally:
        base.well("umount", disk)


def an_interrupt(program):
    """TERM and INT while it is made: one line, and nothing is left."""
    repository = base.Repository(program)
    into = f"{repository.folder}/release"
    base.put(f"{repository.folder}/bin/dpkg-deb", "#!/bin/sh\nexec sleep 30\n", 0o755)
    for number in (signal.SIGTERM, signal.SIGINT):
        run = subprocess.Popen([f"{repository.root}/tools/release", into], env=repository.environment, text=True, stdout=subprocess.PIPE,
                               stderr=subprocess.PIPE, start_new_session=True)
        yield base.comes(lambda: os.path.isdir(into) and os.listdir(into)), True
        time.sleep(0.2)
        os.killpg(run.pid, number)
        out, err = run.communicate(timeout=base.TIMEOUT_S)
        yield refused((out, err, run.returncode), into, "interrupted"), NOTHING


def bad_words(program):
    """Words that it doesn't take."""
    repository, _ = base.made(program)
    yield repository.release("--proved")[2], 2
    yield repository.release("a", "b")[2], 2
    into = f"{repository.folder}/none"
    yield refused(repository.release("--unproved-for-tests", "/nowhere", into), into, "/nowhere: No such file"), NOTHING
    yield refused(repository.release("--unproved-for-tests", "/bin/sh", into), into, "version"), NOTHING


CASES = [no_proof, a_tree_with_changes, another_toolchain, missing_tools, versions_that_differ, a_full_disk, an_interrupt, bad_words]
