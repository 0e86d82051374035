"""How runs with a control socket end."""
import subprocess
import time

import pcep
from harness.process import break_listener
from harness.router import Router
from harness.server import BOOK, ENDED, ControlledServer, all_of, line_of


def the_end_of_a_run(program):
    """With a control socket an endless run ends by a line only; each session is closed, also if several ask for it."""
    server = ControlledServer(program)
    router = Router(server, 1)
    router.come_up()
    time.sleep(0.5)
    yield server.asked("book"), (BOOK, 0)
    one, two = server.connect(), server.connect()
    two.sendall(b"book\nend\n")
    one.sendall(b"end\n")
    yield router.hear(), pcep.CLOSE
    yield router.take(1), b""
    yield all_of(one), b""
    yield all_of(two) in (b"", BOOK), True
    yield server.ended(), (0, [])


def a_run_of_one_session(program):
    """A run of a number of connections ends once they have come and gone and standard input has ended."""
    server = ControlledServer(program, "--sessions", "1")
    operator = server.connect()
    operator.sendall(b"update 10.0.0.9 1\n")
    yield line_of(operator), b"refused 1\n"
    router = Router(server, 1)
    yield router.come_up(), True
    router.close()
    yield all_of(operator), b""
    yield server.ended(), (0, [])


def both_ways(program):
    """Lines on standard input are answered too, and either may end the run."""
    for way in range(2):
        server = ControlledServer(program, stdin=subprocess.PIPE)
        server.process.stdin.write(b"update 10.0.0.9 1\n")
        yield server.asked("book"), (BOOK, 0)
        if way:
            server.process.stdin.write(b"end\n")
            yield server.ended(), (0, [])
        else:
            server.process.stdin.close()
            time.sleep(0.3)
            yield server.end(), ENDED


def a_server_that_is_cut(program):
    """If the listener breaks, the run is cut, and the control socket is gone."""
    server = ControlledServer(program)
    break_listener(server)
    yield server.ended(), (3, [])


CASES = [the_end_of_a_run, a_run_of_one_session, both_ways, a_server_that_is_cut]
