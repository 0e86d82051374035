"""What the answers to lines are read by: members of documents, cells of tables, steps."""
import re
import subprocess
import sys
import time

import pcep
from harness.clock import TIMEOUT_S
from pcep import diamond


def chosen(document, *names):
    return [document[name] for name in names]


def status_at_rest(server):
    """What `status` says once no more steps are taken: twice the same, half a second apart."""
    before = None
    for _ in range(2 * TIMEOUT_S):
        (now,) = server.shown("status")
        if before and now["steps"] == before["steps"]:
            return now
        before = now
        time.sleep(0.5)
    raise ValueError("steps are taken without end")


def is_read_by_python(server, line):
    """Whether `python3 -m json.tool` reads each document that a line is answered by."""
    text, _ = server.asked(line, words=["--json"])
    return all(subprocess.run([sys.executable, "-m", "json.tool"], input=document, capture_output=True).returncode == 0 for document in text.splitlines())


def steps_of(server):
    (steps,) = server.shown("history 1000")
    return {step["step"]: step for step in steps["steps"]}


def report_at(setup, hold, plsp, value, **words):
    """A report whose LSPA has these priorities."""
    attributes = pcep.attributes(setup, hold)
    return diamond.report(plsp, value, **words).replace(diamond.ATTRIBUTES, attributes)


def cells(server, line):
    """The cells of a table that aren't empty, in their lines."""
    return [re.split(" {2,}", row.strip()) for row in server.asked(line)[0].decode().splitlines()]


def is_tight(server, line):
    """Whether no cell of a table ends in a blank: no line does, and each column ends two blanks before the next one begins."""
    rows = server.asked(line)[0].decode().splitlines()
    columns = [found.end() for found in re.finditer(" {2,}", rows[0])]
    return all(row == row.rstrip() for row in rows) and all(any(row[column - 3:column - 2].strip() for row in rows) for column in columns)


def seen_of(server, *addresses):
    """What `peers` says of each of these."""
    (document,) = server.shown("peers")
    return [next(peer for peer in document["peers"] if peer["peer"] == address) for address in addresses]
