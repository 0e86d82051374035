"""The lines that a server writes to its log."""
import re

from .clock import TIMEOUT_S

LINE = re.compile(r"(?:\d{4}-\d\d-\d\dT\d\d:\d\d:\d\dZ )?\[(\w+) +pce_server\] (.*)")
STAMPED = re.compile(r"\d{4}-\d\d-\d\dT\d\d:\d\d:\d\dZ \[")


def log_of(server) -> tuple[int, list[tuple], list[str]]:
    """The status of a server that ends as its standard input does; the lines of its log, each as (level, text); and the lines as they stand."""
    server.process.stdin.close()
    lines = server.rest_of_log()
    server.process.stdout.read()
    return server.process.wait(timeout=TIMEOUT_S), [LINE.fullmatch(line).groups() for line in lines], lines


def texts_of(server) -> tuple[int, list[str]]:
    """The status of such a server, and the texts of its log."""
    status, said, _ = log_of(server)
    return status, [text for _, text in said]


def texts_in(lines: list[str]) -> list[str]:
    """The texts of those lines that are of the log."""
    return [match.group(2) for match in map(LINE.fullmatch, lines) if match]


def counted(texts, *kinds):
    """How many lines of these kinds were written or withheld, and how many lines were lost."""
    withheld = [re.fullmatch(r"withheld (\d+) lines: (.*)", text) for text in texts]
    return (sum(text.startswith(kind) for text in texts for kind in kinds) + sum(int(match[1]) for match in withheld if match and match[2] in kinds),
            sum(int(match[1]) for match in (re.fullmatch(r"lost (\d+) lines", text) for text in texts) if match))
