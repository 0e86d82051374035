"""The Python and shell files of the repository."""
import os
import re
import subprocess

from harness.cases import ROOT

SHELLS = re.compile(rb"#!\s*/\S*(?:\s+-S)?(?:\s+|/)(?:ba|da)?sh\b")
PYTHON = re.compile(rb"#!.*\bpython3?\b")
INNER = re.compile(r"python3? [^\n]*<<'(\w+)'[^\n]*\n(.*?)\n\1\n", re.S)
LEFT_OUT = {"out", "__pycache__", ".git", "failed", "screenshots"}


def all_files():
    """The files of git with those that it doesn't ignore; in a copy that is no repository, what stands there."""
    listed = subprocess.run(["git", "-C", ROOT, "ls-files", "-coz", "--exclude-standard"], capture_output=True, text=True)
    if listed.returncode == 0:
        return sorted({path for path in listed.stdout.split("\0") if path and os.path.isfile(f"{ROOT}/{path}")})
    return sorted(os.path.relpath(os.path.join(at, name), ROOT) for at, _, names in os.walk(ROOT) for name in names
                  if not LEFT_OUT & set(os.path.relpath(at, ROOT).split(os.sep)))


def first_line(path):
    with open(f"{ROOT}/{path}", "rb") as file:
        return file.readline(200)


def text_of(path):
    with open(f"{ROOT}/{path}", encoding="utf-8") as file:
        return file.read()


def shell_files():
    return [path for path in all_files() if path.endswith(".sh") or SHELLS.match(first_line(path))]


def python_files():
    return [path for path in all_files() if path.endswith(".py") or PYTHON.match(first_line(path))]


def python_texts():
    """Each Python text with its path and the number of its first line: files, and those that stand in shell files."""
    for path in python_files():
        yield path, 1, text_of(path)
    for path in shell_files():
        text = text_of(path)
        for match in INNER.finditer(text):
            yield path, text.count("\n", 0, match.start(2)) + 1, match[2] + "\n"
