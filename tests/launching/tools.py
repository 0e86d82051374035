"""./check, and the tools without a toolchain, Python or a compiler of C."""
import os
import re
import subprocess

from .copies import WHOLE_BUILD, commit_all, equal, one_line, without


def a_quick_check_takes_what_changed(copy):
    commit_all(copy)
    copy.edit("crates/sequence/src/lib.rt", "\n", "\n// more\n")
    for test in ("launcher", "documents", "scripts", "run", "serve", "tell", "metrics", "te_from_frr", "demo"):
        os.makedirs(f"{copy.root}/tests", exist_ok=True)
        with open(f"{copy.root}/tests/{test}", "w") as file:
            file.write("#!/bin/sh\n\"$PCED\" check x\necho '2 passed, 0 failed'\n".replace("$PCED", "${2:-$1}"))
        os.chmod(file.name, 0o755)
    out, _, status = copy.run("--quick", name="check")
    equal(copy.calls(), ["crate fmt", "sequence check", WHOLE_BUILD])
    equal((status, out.splitlines()[-1], out.count("pced check x")), (1, "18 passed, 1 failed", 8))


def a_whole_check_leaves_what_it_saw(copy):
    """The sources, the commit, the toolchain, how each command ended, and the sum; nothing if the sources changed meanwhile."""
    commit_all(copy)
    names = re.findall(r"^    step (?:rt|(\S+))(.*)$", copy.text("check").partition("whole() {")[2].partition("}")[0], re.M)
    for name, _ in names:
        path = f"{copy.root}/{name}"
        os.makedirs(os.path.dirname(path), exist_ok=True)
        if name:
            with open(path, "w") as file:
                file.write("#!/bin/sh\n[ ! -e \"$SPOILS\" ] || echo // more >> $SPOILS\necho '2 passed, 0 failed'\n")
            os.chmod(path, 0o755)
    left = f"{copy.root}/.git/pced-check"
    copy.run(name="check")
    with open(left) as file:
        head, _, lines = file.read().partition("\n\n")
    sum_of_sources = copy.run("--sum")[0].strip()
    commit = subprocess.run(["git", "-C", copy.root, "rev-parse", "HEAD"], capture_output=True, text=True).stdout.strip()
    toolchain = f"rattle-kit-0 logic {copy.environment['NAMED_LOGIC']}"
    equal(head.splitlines(), [f"sources {sum_of_sources}", f"commit {commit}", f"toolchain {toolchain}"])
    wanted = ["rt ci: 7 passed, 0 failed", *(f"{name}{words}: 2 passed, 0 failed" for name, words in names if name)]
    equal((lines.splitlines()[:-2], lines.splitlines()[-1]), (wanted, f"{5 + 2 * len(names)} passed, 0 failed"))
    equal(copy.run(name="check", SPOILS=f"{copy.root}/crates/sequence/src/lib.rt")[2], 0)
    equal(os.path.exists(left), False)


def sums_by_itself(copy):
    """rt_once over an rt that isn't the one it knows."""
    equal(copy.run("try", "--", "x", name="tools/rt_once", TMPDIR=copy.bin)[2], 0)
    with open(f"{copy.bin}/rt", "w") as file:
        file.write("#!/usr/bin/env python3\nimport sys\nprint(sys.argv[1:])\n")
    equal(copy.run("lib", "--jobs", "1", name="tools/rt_once"), ("['lib', '--jobs', '1']\n", "", 0))
    os.remove(f"{copy.bin}/rt")
    one_line(copy.run("lib", name="tools/rt_once", PATH=without(copy, "rt")), "no rt")


def no_toolchain(copy):
    path = without(copy, "rt")
    one_line(copy.run("script", PATH=path), "no rt in PATH")
    one_line(copy.run("--prove", PATH=path), "no rt in PATH")
    one_line(copy.run(name="check", PATH=path), "no rt in PATH")
    copy.run("script")
    equal(copy.run("script", PATH=path, PCED_QUIET="1")[::2], (copy.text("crates/pced/stdout"), 0))


def no_python(copy):
    path = without(copy, "python3")
    for word in ("script", "--prove"):
        one_line(copy.run(word, PATH=f"{path}:{copy.bin}"), "no python3 in PATH")
    one_line(copy.run(name="check", PATH=f"{path}:{copy.bin}"), "no python3 in PATH")


def no_compiler_of_c(copy):
    one_line(copy.run(name="check", PATH=f"{without(copy, 'gcc')}:{copy.bin}"), "no gcc in PATH")
    equal(copy.calls(), [])


def another_logic(copy):
    equal(re.findall(r"logic ([0-9a-f]{8,})", copy.text("README.md")), [copy.environment["NAMED_LOGIC"]])
    one_line(copy.run(name="check", RT_LOGIC="0123456789abcdef"), "logic is 0123456789abcdef")
    out, err, status = copy.run("script", RT_LOGIC="0123456789abcdef", PCED_QUIET="1")
    equal((out, status, err.count("0123456789abcdef")), (copy.text("crates/pced/stdout"), 0, 1))


CASES = [
    a_quick_check_takes_what_changed, a_whole_check_leaves_what_it_saw, sums_by_itself, no_toolchain, no_python, no_compiler_of_c,
    another_logic,
]
