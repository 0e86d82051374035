"""Scripts of `pced script`, and the register of limits."""
import subprocess

import pcep

from .network import GREETING, MARKER, MOST, network, report, reports

SECONDS = 600

PATHS, PEERS, TICKETS, NODES, LINKS, HOPS, STEPS = 16_384, 64, 1_024, 1_024, 4_096, 64, 1_048_576
LONGEST = 65_532  # the longest message: its length is a multiple of four that 16 bits can say


def book(held, links):
    """What is left of each link, where so much is held on it at all priorities."""
    return [f"link {link}" + f" {MOST - held.get(link, 0)}" * 8 for link in range(links)]


class Script:
    """The lines of a run, and what they are to print."""

    def __init__(self, head):
        self.head, self.lines, self.printed, self.fault, self.status = head, [], [], "", 0
        self.judge = self.judged_by_line

    def does(self, line, *printed):
        self.lines.append(line)
        self.printed.extend(printed)

    def comes_up(self, peer, synchronized=True):
        """A session begins, and with it the synchronization, which ends at once."""
        self.does(f"up {peer}", f"out {peer} {GREETING}", f"up {peer}")
        if synchronized:
            self.does(f"msg {peer} {MARKER}")

    def shows(self, held, links):
        """The book, where so much is held on some links at all priorities."""
        self.does("book", *book(held, links))

    def judged_by_line(self, lines):
        for number, (want, got) in enumerate(zip(self.printed, lines), 1):
            if want != got:
                return f"line {number}: wanted {want[:80]}, got {got[:80]}"
        return "" if len(lines) == len(self.printed) else f"{len(lines)} lines for {len(self.printed)}"

    def tried(self, program):
        """The first difference, or nothing."""
        text = (self.head + "".join(line + "\n" for line in self.lines)).encode()
        try:
            ran = subprocess.run([program, "script"], input=text, capture_output=True, timeout=SECONDS)
        except subprocess.TimeoutExpired:
            return f"no answer in {SECONDS} s"
        difference, fault = self.judge(ran.stdout.decode().splitlines()), ran.stderr.decode()
        if (fault, ran.returncode) != (self.fault, self.status):
            ended = f"wanted status {self.status} {self.fault.strip()!r}, got {ran.returncode} {fault.strip()!r}"
            return f"{difference}; {ended}" if difference else ended
        return difference


TRIED = []


def limit(what):
    """Registers a function that makes a script."""
    def register(made):
        TRIED.append((what, made))
        return made
    return register


def pair():
    """Two nodes with a link there and a link back."""
    return network(2, [(0, 1, 10), (1, 0, 10)])


def chain(length):
    """`length` links, one behind the other."""
    return network(length + 1, [(n, n + 1, 10) for n in range(length)])


def down(lsp):
    """The report of an LSP that is down, and holds nothing."""
    return report(lsp, [0], tunnel=7, flags=0x08)


def longest_report():
    """A message of 65,532 bytes, and how many LSPs it reports. The last fills it up, by an SRP and by hops that are said
    again.
    """
    size = len(down(1))
    count, rest = divmod(LONGEST - 4, size)
    last = pcep.srp(0) + report(count, [0] * (1 + (rest - 12) // 8), tunnel=7, flags=0x08)
    text = reports([down(n) for n in range(1, count)] + [last])
    assert len(text) == 2 * LONGEST
    return text, count


def knows(script, peer, count):
    """The peer has reported `count` LSPs, and no more."""
    if count:
        script.does(f"update {peer} {count}", "refused 5")
    script.does(f"update {peer} {count + 1}", "refused 4")


def batches(count, of):
    """Reports of the LSPs 1, 2 .. of a peer in messages of at most 40."""
    for first in range(1, count + 1, 40):
        yield reports(of(n) for n in range(first, min(first + 40, count + 1)))


def filled(script, peer=1, count=PATHS, flags=0x18):
    """The peer reports `count` LSPs over the two links of a chain, in 50 tunnels. Gives what is held."""
    for text in batches(count, lambda n: report(n, [0, 1], (0, 2), tunnel=n % 50, flags=flags)):
        script.does(f"msg {peer} {text}")
    return {0: 50, 1: 50}
