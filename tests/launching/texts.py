"""What stands in documents and has to be what the programs say."""
import os
import re
import socket
import subprocess
import tempfile

from harness.cases import ROOT

from .copies import TIMEOUT_S, constant, equal, helps, one_line


def help_is_the_program_s(program):
    with tempfile.TemporaryDirectory() as folder:
        whole, commands = helps(ROOT)
        os.symlink(os.path.realpath(program), f"{folder}/pced")
        for words in ([], *([command] for command in commands)):
            said = subprocess.run([f"{folder}/pced", *words, "--help"], capture_output=True, text=True, timeout=TIMEOUT_S).stdout
            equal(commands[words[0]] if words else whole[:len(said)], said)
        for program in (f"{folder}/pced", f"{ROOT}/pced"):
            said = subprocess.run([program, "--version"], capture_output=True, text=True, timeout=TIMEOUT_S).stdout
            equal(said, f"pced {constant('VERSION')} logic {constant('LOGIC')}\n")
        equal([*commands], re.findall(r"^  (\w+)  ", whole.partition("Commands:\n")[2], re.M)[:-1])


def the_documents_say_what_a_quick_check_leaves_out():
    with open(f"{ROOT}/check") as check, open(f"{ROOT}/docs/TESTING.md") as testing:
        whole, quick = (set(re.findall(r"^    step ((?:tests|tools)/\w+|rt ci)", part, re.M)) for part in check.read().split("\nquick() {"))
        left_out = testing.read().partition("It leaves out:\n")[2].partition("\n- ")[2].partition("\n\n")[0]
    equal(set(re.findall(r"`((?:tests|tools)/\w+|rt ci)`", left_out)), whole - quick)


def examples_without_a_server_say_so():
    with socket.socket() as free:
        free.bind(("127.0.0.1", 0))
        server = "%s:%d" % free.getsockname()
    for words in (["router.py", "--to", server], ["two_routers.py", server]):
        run = subprocess.run([f"{ROOT}/examples/{words[0]}", *words[1:]], capture_output=True, text=True, timeout=TIMEOUT_S)
        one_line((run.stdout, run.stderr, run.returncode), f"no server listens at {server}")


ONCE = [the_documents_say_what_a_quick_check_leaves_out, examples_without_a_server_say_so]
CASES = [help_is_the_program_s]
