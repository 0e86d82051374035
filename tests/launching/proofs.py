"""./pced --prove, and the program that it leaves."""
import glob
import os
import re
import signal

from .copies import comes, ended, equal, one_line


def a_proved_program_comes_first(copy):
    copy.run("serve", "0")
    os.makedirs(f"{copy.root}/crates/pced/out", exist_ok=True)
    with open(f"{copy.root}/crates/pced/out/pced", "w") as file:
        file.write("#!/bin/sh\necho proved $*\n")
    os.chmod(file.name, 0o755)
    one_line(copy.run("--where"), "no proved binary")
    before = copy.run("--sum")
    equal(copy.run("--prove", RT_PROVES="1")[2], 0)
    equal(copy.run("--where"), (f"{file.name}\n", "", 0))
    equal(copy.run("serve", "0"), ("proved serve 0\n", "", 0))
    equal((copy.run("--sum"), re.fullmatch("[0-9a-f]{64}\n", before[0]) is not None), (before, True))
    copy.edit("crates/sequence/src/lib.rt", "\n", "\n// more\n")
    equal(copy.run("serve", "0", PCED_QUIET="1")[::2], ("pced serve 0\n", 0))
    equal(copy.run("--sum") != before, True)


def a_proof_says_how_far_it_is(copy):
    out, err, status = copy.run("--prove", RT_PROVES="1")
    proving = "pced: proving 2 crates on up to \\d+ processors; .*\n"
    rows = "".join(f"pced: {crate} proved \\({place} of 2, {2 - place} left, \\d+:\\d\\d so far\\)\n" for place, crate in ((1, "sequence"), (2, "pced")))
    if out or status or not re.fullmatch(f"{proving}{rows}pced: proved and built; ./pced runs it from now on\n", err):
        raise ValueError((out, err, status))
    equal([line.split()[:2] for line in copy.calls()], [["sequence", "lib"], ["pced", "run"]])
    equal(copy.run("serve", "0"), ("proved serve 0\n", "", 0))


def a_proof_that_fails(copy):
    out, err, status = copy.run("--prove", RT_PROVES="1", RT_DOES="fail")
    equal((out, status, err.splitlines()[1:]), ("", 1, [
        "pced: not proved; the end of what the prover said (all of it is in crates/pced/out/prove.log):", "== sequence",
        "error: src/lib.rt:1: it isn't so"]))
    with open(f"{copy.root}/crates/sequence/out", "w"):
        out, err, status = copy.run("--prove", RT_PROVES="1")
    equal((out, status, err.count("\n")), ("", 1, 2))
    if not re.search(r"\npced: cannot prove sequence in .*; what was proved stays\n$", err):
        raise ValueError(err)
    one_line(copy.run("--where"), "no proved binary")


def a_proof_that_is_stopped(copy):
    for number in (signal.SIGINT, signal.SIGTERM, signal.SIGHUP):
        run = copy.begin("--prove", RT_PROVES="1", RT_DOES="hang", MARK=copy.root)
        comes(lambda: copy.calls())
        run.send_signal(number)
        out, err, status = ended(run)
        equal((out, status, err.splitlines()[1:]), ("", 1, ["pced: stopped; what was proved stays"]))
        comes(lambda: not runs_with(f"MARK={copy.root}"))
        os.remove(copy.log)
    one_line(copy.run("--where"), "no proved binary")


def runs_with(variable):
    """Whether a process has this in its environment."""
    for path in glob.glob("/proc/[0-9]*/environ"):
        try:
            with open(path, "rb") as file:
                if variable.encode() in file.read().split(b"\0"):
                    return True
        except OSError:
            pass
    return False


CASES = [a_proved_program_comes_first, a_proof_says_how_far_it_is, a_proof_that_fails, a_proof_that_is_stopped]
