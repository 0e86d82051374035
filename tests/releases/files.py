"""What a release is made of: the same bytes each time, the documents, the unit, the manual page, the completion."""
import os
import re
import tarfile

from . import base
from .base import MADE, ROOT, needs, ran, text_of, well


def two_runs_make_the_same(program):
    """Two runs over one commit make the same bytes, whatever time, place, rights and language they have."""
    repository, folder = base.made(program)
    second = base.room()
    well("sh", "-c", f"umask 077; {repository.root}/tools/release {second}/release", cwd="/",
         env=repository.environment | {"TZ": "Asia/Tokyo", "LC_ALL": "C", "HOME": second, "SOURCE_DATE_EPOCH": "1"})
    yield sorted(os.listdir(folder)), sorted(MADE)
    yield base.sums(f"{second}/release"), base.sums(folder)
    yield ran("sha256sum", "--check", "--quiet", "SHA256SUMS", cwd=folder), ("", "", 0)
    yield sorted(line.split("  ")[1] for line in text_of(f"{folder}/SHA256SUMS").splitlines()), sorted(MADE[:3])
    yield repository.release(folder)[2], 0
    yield base.sums(f"{second}/release"), base.sums(folder)


def the_evidence(program):
    """EVIDENCE names the commit, the sources, the logic, the program and the last lines of the test command."""
    repository, folder = base.made(program)
    text = text_of(f"{folder}/EVIDENCE")
    rows = dict(re.findall(r"^    ([a-zA-Z][a-zA-Z ]*?)  +(\S.*)$", text, re.M))
    commit = repository.git("rev-parse", "HEAD")
    yield [rows[name] for name in ("version", "commit", "sources", "logic", "checked at")], [
        "0.1.0", commit, repository.sum(), repository.logic, commit]
    yield rows["program"], base.sum_of(repository.program)
    yield [line for line in base.GATE if f"    {line}\n" not in text], []
    yield "UNPROVED" in text, False
    yield "The operating system: threads, sockets, clocks." in text, True
    yield text_of(f"{base.unpacked(program)}/usr/share/doc/pced/EVIDENCE"), text


def an_unproved_release(program):
    """A release of an unproved program says so in its names and in EVIDENCE."""
    repository, _ = base.made(program)
    folder = base.room()
    out, err, status = repository.release("--unproved-for-tests", repository.program, folder)
    names = [name.replace("0.1.0", "0.1.0~unproved") for name in MADE]
    yield (out.splitlines(), err, status), ([f"{folder}/{name}" for name in names], "", 0)
    yield "\nUNPROVED." in text_of(f"{folder}/EVIDENCE"), True
    yield well("dpkg-deb", "-f", f"{folder}/{names[0]}", "Version").strip(), "0.1.0~unproved"


def what_is_in_the_package(program):
    """The package has the program, byte for byte, the configuration, the documents, and whatever examples there are."""
    repository = base.Repository(program)
    base.put(f"{repository.root}/examples/monitoring/dashboard.json", "{}\n")
    base.put(f"{repository.root}/examples/monitoring/alerts.yml", "groups: []\n")
    repository.commit()
    folder = f"{repository.folder}/release"
    yield repository.release(folder)[1:], ("", 0)
    tree = f"{repository.folder}/tree"
    well("dpkg-deb", "-x", f"{folder}/{MADE[0]}", tree)
    found = base.sums(tree)
    yield found["usr/libexec/pced"], base.sum_of(repository.program)
    documents = "usr/share/doc/pced"
    wanted = {f"{documents}/{name}" for name in (
        "README.md", "SECURITY.md", "CHANGELOG.md", "EVIDENCE", "copyright", "changelog.gz", "docs/OPERATING.md", "docs/FORMAT.md",
        "examples/router.py", "examples/monitoring/dashboard.json", "examples/monitoring/alerts.yml")}
    wanted |= {"usr/bin/pced", "usr/lib/systemd/system/pced.service", "usr/share/man/man1/pced.1.gz", "usr/share/pced/BUILD",
               "usr/share/bash-completion/completions/pced", "etc/pced/network.toml", "etc/default/pced"}
    wanted |= {f"usr/lib/{name}" for name in ("pced/te_from_frr", "pced/network_from_frr", "systemd/system/pced-network.service", "systemd/system/pced-network.timer")}
    yield wanted - set(found), set()
    yield [oct(os.stat(f"{tree}/usr/lib/pced/{name}").st_mode & 0o777) for name in ("te_from_frr", "network_from_frr")], ["0o755"] * 2
    yield ran(f"{tree}/usr/lib/pced/te_from_frr", "--help")[1:], ("", 0)
    yield text_of(f"{tree}/usr/share/pced/BUILD"), repository.git("rev-parse", "HEAD") + "\n"
    control = f"{repository.folder}/control"
    well("dpkg-deb", "-e", f"{folder}/{MADE[0]}", control)
    yield text_of(f"{control}/conffiles").split(), ["/etc/pced/network.toml", "/etc/default/pced"]
    yield re.findall(r"^Depends: (.*)$", text_of(f"{control}/control"), re.M), [f"libc6 (>= {glibc_of(repository.program)})"]
    yield re.match(r" *Apache License\n *Version 2\.0", text_of(f"{ROOT}/LICENSE").lstrip("\n")) is not None, True
    yield "License: Apache-2.0\n" in text_of(f"{tree}/{documents}/copyright"), True
    yield "SPDX-License-Identifier: Apache-2.0" in text_of(f"{tree}/{documents}/README.md"), True


def glibc_of(program):
    """The newest version of the C library that the program names."""
    with open(program, "rb") as file:
        found = re.findall(rb"\0GLIBC_([0-9.]+)(?=\0)", file.read())
    return max((version.decode() for version in found), key=lambda version: [int(part) for part in version.split(".")])


def what_lintian_says(program):
    """lintian finds no error in the package."""
    needs("lintian")
    out, _, status = ran("lintian", "--fail-on", "error", f"{base.made(program)[1]}/{MADE[0]}")
    yield ([line for line in out.splitlines() if line.startswith("E:")], status), ([], 0)


def the_tar_file(program):
    """The tar file runs where it is unpacked, says what it needs, and has the licence."""
    _, folder = base.made(program)
    into = base.room()
    with tarfile.open(f"{folder}/{MADE[1]}") as archive:
        names = archive.getnames()
        yield len(names), len(set(names))
        yield {(row.uid, row.gid, row.uname, row.gname) for row in archive}, {(0, 0, "root", "root")}
    base.unpack(f"{folder}/{MADE[1]}", into)
    top = f"{into}/pced-0.1.0-linux-x86_64"
    yield os.listdir(into), ["pced-0.1.0-linux-x86_64"]
    os.symlink(f"{top}/bin/pced", f"{into}/pced")
    for command in (f"{top}/bin/pced", f"{into}/pced"):
        yield well(command, "check", f"{top}/etc/pced/network.toml", cwd="/").startswith("te fault"), False
    yield f"glibc {glibc_of(program)} or newer" in text_of(f"{top}/INSTALL"), True
    yield text_of(f"{top}/share/doc/pced/LICENSE"), text_of(f"{ROOT}/LICENSE")
    for name in ("pced.service", "pced-network.service", "pced-network.timer"):
        unit = text_of(f"{top}/lib/systemd/system/{name}")
        yield unit.replace("/usr/local/", "/usr/"), text_of(f"{base.unpacked(program)}/usr/lib/systemd/system/{name}")
    yield os.access(f"{top}/lib/pced/network_from_frr", os.X_OK), True


def which_program_it_is(program):
    """`--version` says the version, the logic and, beside BUILD, the commit; what is no commit is left out."""
    repository, _ = base.made(program)
    folder = base.room()
    os.mkdir(f"{folder}/bin")
    os.symlink("/dev/null", f"{folder}/bin/link")
    well("cp", repository.program, f"{folder}/bin/pced")
    said = f"pced 0.1.0 logic {repository.logic}"
    yield ran(f"{folder}/bin/pced", "--version"), (f"{said}\n", "", 0)
    for content, more in (("0123456789abcdef\n", " commit 0123456789abcdef"), ("abc", " commit abc"), ("", ""), ("no hash\n", ""),
                          ("a" * 65, ""), ("\x1b[31m\n", "")):
        base.put(f"{folder}/share/pced/BUILD", content)
        yield ran(f"{folder}/bin/pced", "-V"), (f"{said}{more}\n", "", 0)
    os.remove(f"{folder}/share/pced/BUILD")
    os.mkdir(f"{folder}/share/pced/BUILD")
    yield ran(f"{folder}/bin/pced", "--version"), (f"{said}\n", "", 0)
    commit = repository.git("rev-parse", "HEAD")
    yield well(f"{base.unpacked(program)}/usr/libexec/pced", "--version"), f"{said} commit {commit}\n"


def the_units(program):
    """systemd finds no fault in the units, and little that an intruder could do in the server's."""
    needs("systemd-analyze")
    tree, folder = base.unpacked(program), base.room()
    unit = text_of(f"{tree}/usr/lib/systemd/system/pced.service")
    for line in ("EnvironmentFile=-/etc/default/pced", "ExecStartPre=/usr/bin/pced check /etc/pced/network.toml",
                 "ExecReload=/usr/bin/pced check /etc/pced/network.toml", "RestartPreventExitStatus=2 4", "UMask=0077"):
        yield line, line in unit.splitlines(), line, True
    yield "--settle 120 --keep 600" in text_of(f"{tree}/etc/default/pced"), True
    for name in ("pced.service", "pced-network.service", "pced-network.timer"):
        text = text_of(f"{tree}/usr/lib/systemd/system/{name}")
        base.put(f"{folder}/{name}", re.sub(r"(?<=[=(])/usr/(bin|lib)/pced", rf"{tree}/usr/\1/pced", text))
    for name in ("pced.service", "pced-network.timer"):
        yield ran("systemd-analyze", "verify", "--man=no", f"{folder}/{name}"), ("", "", 0)
    out, _, status = ran("systemd-analyze", "security", "--offline=true", "--no-pager", "--threshold=19", f"{folder}/pced.service")
    yield status, 0
    yield float(re.search(r"Overall exposure level for pced.service: ([0-9.]+)", out)[1]) < 2, True


def the_manual_page(program):
    """The manual page is clean, and has each command and each flag of the help, in its words."""
    tree = base.unpacked(program)
    page = well("gzip", "-dc", f"{tree}/usr/share/man/man1/pced.1.gz")
    words = set(re.findall(r"[\w'`]+", re.sub(r"\\[&e-]", "", page)))
    for command in ("script", "decode", "check", "serve", "tell"):
        said = well(program, "help", command).splitlines()
        flags = [flag for line in said for flag in re.findall(r"^ +(?:-., )?--([a-z-]+)", line)]
        yield [flag for flag in flags if flag != "help" and f"Fl \\-{flag}" not in page], []
        front = said[0]
        yield set(re.findall(r"[\w'`]+", front)) <= words, True
    yield f"Nd {text_of(f'{ROOT}/docs/HELP.txt').splitlines()[0][1:]}" in page.replace("Nd a", "Nd "), True
    needs("mandoc")
    base.put(f"{base.room()}/pced.1", page)
    yield ran("mandoc", "-T", "lint", f"{base.TO_CLEAN[-1]}/pced.1"), ("", "", 0)


def the_completion(program):
    """bash completes commands, flags, levels of the log, files and an operator's lines."""
    needs("bash")
    script = f"{base.unpacked(program)}/usr/share/bash-completion/completions/pced"
    folder = base.room()
    base.put(f"{folder}/network.toml", "")

    def completed(*words):
        quoted = " ".join(f"'{word}'" for word in ("pced", *words))
        return well("bash", "-euc", f". {script}; COMP_WORDS=({quoted}); COMP_CWORD={len(words)}; _pced; printf '%s\\n' \"${{COMPREPLY[@]}}\"",
                    cwd=folder).split()

    yield completed("s"), ["script", "serve"]
    yield set(completed("")) >= {"script", "decode", "check", "serve", "tell", "help"}, True
    yield completed("serve", "--se"), ["--sessions", "--settle", "--settle-for"]
    yield completed("serve", "--te", "net"), ["network.toml"]
    yield completed("serve", "--log", ""), ["off", "error", "warn", "info", "debug", "trace"]
    yield completed("serve", "--listen", ""), []
    yield completed("check", "n"), ["network.toml"]
    yield completed("tell", "--j"), ["--json"]
    yield completed("tell", "n"), ["network.toml"]
    yield completed("tell", "control", "li"), ["links", "link"]
    yield completed("tell", "--json", "control", "wi"), ["without"]
    yield completed("tell", "control", "wa"), ["watch"]
    yield completed("help", "de"), ["decode"]


CASES = [two_runs_make_the_same, the_evidence, an_unproved_release, what_is_in_the_package, what_lintian_says, the_tar_file,
         which_program_it_is, the_units, the_manual_page, the_completion]
