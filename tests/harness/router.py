"""Routers on loopback, as simple as can be: what they send and hear is the case's."""
import socket
import struct
import threading
import time

import pcep
from pcep import diamond

from .clock import TIMEOUT_S, paced
from .process import connections, name_of_end


class Router:
    """A router that connects from 127.0.1.NUMBER to the port of a server."""
    NETWORK = "127.0.1"

    def __init__(self, server, number: int, timeout: float | None = TIMEOUT_S):
        self.socket = socket.socket()
        self.socket.setsockopt(socket.IPPROTO_TCP, socket.TCP_NODELAY, 1)
        self.address = f"{self.NETWORK}.{number}"
        self.socket.bind((self.address, 0))
        self.socket.settimeout(timeout)
        self.limit_room()
        self.socket.connect(("127.0.0.1", server.port))

    def limit_room(self):
        """Leaves the room for what comes as the system has it."""

    def send(self, data: bytes):
        self.socket.sendall(data)

    def take(self, count: int) -> bytes:
        """`count` bytes, or fewer if the server has closed."""
        data = b""
        while len(data) < count:
            more = self.socket.recv(count - len(data))
            if not more:
                break
            data += more
        return data

    def hear(self) -> bytes:
        """The next message, or nothing if the server has closed."""
        head = self.take(4)
        return head + self.take(struct.unpack(">H", head[2:])[0] - 4) if len(head) == 4 else b""

    def hear_of(self, kind: int) -> bytes:
        """The next message of this type, or nothing if the server has closed."""
        heard = self.hear()
        while heard and heard[1] != kind:
            heard = self.hear()
        return heard

    def hear_all(self):
        """Hears messages until the server has closed."""
        while self.hear():
            pass

    def come_up(self, sync: bool = True) -> bool:
        """Whether the server greets it."""
        self.send(pcep.OPEN + pcep.KEEPALIVE)
        greeted = self.hear() == pcep.OPEN and self.hear() == pcep.KEEPALIVE
        if sync:
            self.send(pcep.END_OF_SYNC)
        return greeted

    def ask(self, number: int = 1, value: float = 600000.0) -> bytes:
        """Asks for a path, and gives the reply: what it sent before has been handled then."""
        self.send(diamond.request(number, value))
        return self.hear_of(pcep.PCREP)

    def close(self):
        self.socket.close()

    def reset(self):
        """Closes the connection by a reset."""
        self.socket.setsockopt(socket.SOL_SOCKET, socket.SO_LINGER, struct.pack("ii", 1, 0))
        self.close()


def up(server, number: int, opening: bytes = pcep.OPEN, sync: bool = True, kind=Router) -> Router:
    """A router whose session is up."""
    router = kind(server, number)
    router.send(opening + pcep.KEEPALIVE)
    if router.hear() != pcep.OPEN or router.hear() != pcep.KEEPALIVE:
        raise ValueError(f"{router.address} doesn't come up")
    if sync:
        router.send(pcep.END_OF_SYNC)
    return router


def time_of_request(router: Router, number: int) -> float:
    """The seconds of `paced` until a request is answered."""
    begun = paced()
    heard = router.ask(number)
    if diamond.number_of(heard) != number:
        raise ValueError(f"{router.address}: {heard!r}")
    return paced() - begun


def come_and_go(server, number: int, is_over: threading.Event):
    """Opens and drops connections from one address until it is over."""
    while not is_over.is_set():
        try:
            router = Router(server, number)
            router.send(bytes(4))
            router.close()
        except OSError:
            pass


NOWHERE = pcep.end_points(diamond.A, bytes([10, 9, 9, 9]))
ASKS = b"".join(pcep.message(pcep.PCREQ, pcep.rp(number), NOWHERE) for number in range(10_000))


class Deaf(Router):
    """A router that asks and asks, and reads nothing of what it is answered, until its connection has ended."""

    def __init__(self, server, number: int):
        super().__init__(server, number)
        self.socket.setsockopt(socket.SOL_SOCKET, socket.SO_RCVBUF, 4096)
        self.ended = self.last_moved = self.seen_before = None
        self.names = [name_of_end(*end) for end in (self.socket.getpeername(), self.socket.getsockname())]

    def waiting(self) -> int | None:
        """How many bytes wait at the server's end of the connection to be sent; None once it is gone."""
        return next((int(row[4].split(":")[0], 16) for row in connections() if row[1:3] == self.names), None)

    def ask_without_end(self):
        """Asks in a thread, and another one notes when the server wrote last, and when the connection ended."""
        self.socket.settimeout(None)
        self.last_moved = self.seen_before = time.monotonic()
        threading.Thread(target=self.ask_on, daemon=True).start()
        threading.Thread(target=self.watch, daemon=True).start()

    def ask_on(self):
        try:
            while True:
                self.socket.sendall(ASKS)
        except OSError:
            self.ended = time.monotonic()

    def watch(self):
        last, looked = None, self.last_moved
        while self.ended is None:
            before, looked = looked, time.monotonic()
            now = self.waiting()
            if now not in (last, None):
                last, self.seen_before, self.last_moved = now, before, time.monotonic()
            time.sleep(0.05)

    def waited(self) -> float:
        """For how many seconds nothing more went out to it, up to its end or now."""
        return (self.ended or time.monotonic()) - self.last_moved

    def waited_at_most(self) -> float:
        """The same from the look before the server was seen to have written last: no less than it was, also if looks come late."""
        return (self.ended or time.monotonic()) - self.seen_before
