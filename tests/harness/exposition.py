"""The text of /metrics, read."""
import re

SERIES = re.compile(r'([a-z_]+)(?:\{((?:[a-z]+="(?:[^"\\\n]|\\["\\n])*",?)+)\})? (\+?[0-9.-]+)')
KINDS = ("counter", "gauge", "histogram")


def text_of(server) -> str:
    """The text of a server's metrics."""
    status, fields, body = server.view().get("/metrics")
    if status != 200 or not fields["content-type"].startswith("text/plain; version=0.0.4"):
        raise ValueError(f"/metrics: {status} {fields}")
    return body.decode()


def metrics_of(text: str) -> dict:
    """The numbers by metric and labels; each metric's lines have to stand together, behind its help and its type."""
    numbers, kinds, name = {}, {}, None
    for line in text.splitlines():
        if line.startswith("# HELP "):
            name = line.split()[2]
            if name in kinds:
                raise ValueError(f"{name} comes twice")
        elif line.startswith("# TYPE "):
            _, _, named, kinds[name] = line.split()
            if named != name or kinds[name] not in KINDS:
                raise ValueError(line)
        else:
            series, labels, number = SERIES.fullmatch(line).groups()
            family = re.sub("_(bucket|sum|count)$", "", series) if kinds[name] == "histogram" else series
            if family != name or (series, labels) in numbers:
                raise ValueError(line)
            numbers[series, labels] = float(number)
    return numbers


def family(numbers: dict, name: str) -> dict:
    """The numbers of a metric by its labels' values that aren't zero."""
    return {" ".join(re.findall('"([^"]*)"', labels or "")): number for (series, labels), number in numbers.items()
            if series == name and number != 0}


def ends_of(server) -> int:
    """How many connections of routers a server has accepted and seen end."""
    return int(sum(family(metrics_of(text_of(server)), "pced_connection_ends_total").values()))
