"""Runs of drawn scripts: the program's output is compared with what may be printed for each line."""

import subprocess

from harness import cases

from .laws import Broken

SECONDS = 600


def play(scenario):
    """The text of a drawn script, and for each line of output the line of the script and the texts that may stand there."""
    lines = [*scenario.script.network.text(), "---"]
    expected = []
    number = sum(line.count("\n") + 1 for line in lines)
    try:
        for line in scenario.lines():
            number += 1
            lines.append(line)
            expected += [(number, line, allowed) for allowed in scenario.script.line(line)]
    except Broken as law:
        expected.append((number, lines[-1], {f"(no state in which {law})"}))
    return "\n".join(lines) + "\n", expected


def first_difference(expected, output):
    """Where the output differs from what may be printed, in three lines, or None."""
    for (number, line, allowed), got in zip(expected, output):
        if got not in allowed:
            return difference_in_lines(number, line, " or ".join(sorted(allowed)), got)
    if len(output) < len(expected):
        number, line, allowed = expected[len(output)]
        return difference_in_lines(number, line, " or ".join(sorted(allowed)), "(nothing)")
    if len(output) > len(expected):
        return difference_in_lines(expected[-1][0] if expected else 0, "(the end)", "(nothing)", output[len(expected)])
    return None


def difference_in_lines(number, line, wanted, got):
    return f"line {number}: {line[:200]}\nwanted {wanted[:400]}\ncame   {got[:400]}"


def fault_of(program, text, expected):
    """What is wrong with the program's run of a script, or None."""
    try:
        run = subprocess.run([program, "script"], input=text, capture_output=True, text=True, timeout=SECONDS)
    except subprocess.TimeoutExpired:
        return f"no end within {SECONDS} s"
    except OSError as fault:
        return str(fault)
    fault = first_difference(expected, run.stdout.splitlines())
    if fault is None and run.returncode:
        fault = f"status {run.returncode}: {run.stderr[:400]}"
    return fault


class Tally:
    """Runs scenarios, counts how they went, and leaves the scripts of those that fail."""

    def __init__(self, programs, folder, chosen=()):
        self.programs, self.folder, self.chosen = programs, folder, chosen
        self.count = cases.Count(is_silent=True)

    def run(self, kind, seed, amount, scenario):
        """Runs a scenario of this kind and seed through each program, unless others are chosen. Whether it did."""
        name = f"{kind}_{seed}"
        if self.chosen and name not in self.chosen:
            return False
        text, expected = play(scenario)
        left = self.folder / f"{kind}-{seed}.txt"

        def compare(program):
            fault = fault_of(program, text, expected)
            if fault is not None:
                self.folder.mkdir(parents=True, exist_ok=True)
                left.write_text(text)
                yield f"{program}\n{fault}"

        case = cases.Case(name, f"{amount} {kind} of seed {seed}, script in {left} if it fails.", compare)
        for program in self.programs:
            self.count.take(cases.run_case(case, (program,), None))
        return True
