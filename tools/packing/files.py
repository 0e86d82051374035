"""The files of an installation: what stands below a prefix, and the configuration, which is the operator's."""
import os
import re
import subprocess
from typing import NamedTuple

from . import completion, manual, words

ROOT = os.path.dirname(os.path.dirname(os.path.dirname(os.path.realpath(__file__))))


UNITS = ("pced.service", "pced-network.service", "pced-network.timer")
SCRIPTS = ("te_from_frr", "network_from_frr")  # by which the link text follows a network


class File(NamedTuple):
    content: bytes
    mode: int = 0o644


class Place(NamedTuple):
    """Where an installation stands."""
    prefix: str
    etc: str
    documents: str


def read(path):
    with open(os.path.join(ROOT, path), "rb") as file:
        return file.read()


def git(*arguments):
    """What git says of the repository; None if there is no git, or it fails."""
    try:
        ran = subprocess.run(["git", "-C", ROOT, *arguments], capture_output=True, text=True)
    except FileNotFoundError:
        return None
    return ran.stdout.strip() if ran.returncode == 0 else None


def constant(name):
    """The version or the logic, which one file of the program names."""
    found = re.search(rf'^pub const {name}: &str = "(.*)";$', read("crates/pced_build/src/lib.rt").decode(), re.M)
    return found[1]


def filled(path, **values):
    """A template with its values in."""
    text = read(path).decode()
    for name, value in values.items():
        text = text.replace(f"@{name}@", value)
    return text.encode()


def installed(program, place, commit, seconds, command=None):
    """The files below the prefix, by path. The commit may be empty; COMMAND is how the shell program names the program."""
    binary = f"{place.prefix}/libexec/pced"
    said = words.read(program)
    with open(program, "rb") as file:
        files = {binary: File(file.read(), 0o755)}
    files[f"{place.prefix}/bin/pced"] = File(filled("tools/pced.sh", PROGRAM=command or binary), 0o755)
    files |= {f"{place.prefix}/lib/pced/{name}": File(read(f"tools/{name}"), 0o755) for name in SCRIPTS}
    values = {"PREFIX": place.prefix, "ETC": place.etc, "DOCUMENTS": place.documents}
    files |= {f"{place.prefix}/lib/systemd/system/{name}": File(filled(f"tools/{name}", **values)) for name in UNITS}
    files[f"{place.prefix}/share/man/man1/pced.1"] = File(manual.text(said, seconds, place).encode())
    files[f"{place.prefix}/share/bash-completion/completions/pced"] = File(completion.text(said).encode())
    if commit:
        files[f"{place.prefix}/share/pced/BUILD"] = File(f"{commit}\n".encode())
    return files


def configuration(place):
    """The files that the operator edits, as they are at first."""
    return {f"{place.etc}/pced/network.toml": File(read("examples/diamond.toml")),
            f"{place.etc}/default/pced": File(filled("tools/pced.default", ETC=place.etc))}
