"""Viewers: connections of HTTP/1.1."""
import json
import socket

from .clock import TIMEOUT_S

# after how many seconds a connection ends for want of requests, and less than that
IDLE = 10
SOONER = 0.8 * IDLE
KEPT = {"cache-control": "no-store", "x-content-type-options": "nosniff"}


class Viewer:
    """A connection of HTTP/1.1 that is kept."""

    def __init__(self, port: int, timeout: float = TIMEOUT_S):
        self.port = port
        self.socket = socket.create_connection(("127.0.0.1", port), timeout=timeout)
        self.socket.setsockopt(socket.IPPROTO_TCP, socket.TCP_NODELAY, 1)
        self.unread = b""

    def send(self, text: bytes):
        self.socket.sendall(text)

    def ask(self, target: str, method: str = "GET", host: str | None = None, more: str = ""):
        self.send(f"{method} {target} HTTP/1.1\r\nHost: {host or f'127.0.0.1:{self.port}'}\r\n{more}\r\n".encode())

    def more(self) -> bytes | None:
        """More bytes, or None at the end."""
        try:
            came = self.socket.recv(1 << 16)
        except ConnectionResetError:
            return None
        self.unread += came
        return came or None

    def answer(self, has_body: bool = True) -> tuple | None:
        """The next answer: its status, its fields and its body. None if the connection has ended."""
        while b"\r\n\r\n" not in self.unread:
            if self.more() is None:
                return None
        head, self.unread = self.unread.split(b"\r\n\r\n", 1)
        first, *lines = head.decode().split("\r\n")
        fields = dict(line.split(": ", 1) for line in lines)
        length = int(fields.get("content-length", 0)) if has_body else 0
        while len(self.unread) < length:
            if self.more() is None:
                return None
        body, self.unread = self.unread[:length], self.unread[length:]
        return int(first.split()[1]), fields, body

    def get(self, target: str, **how):
        self.ask(target, **how)
        return self.answer(how.get("method") != "HEAD")

    def document(self, target: str):
        """The document of JSON at a path."""
        status, fields, body = self.get(target)
        if (status, fields) != (200, {"content-type": "application/json", **KEPT, "content-length": str(len(body))}):
            raise ValueError(f"{target}: {status} {fields}")
        return json.loads(body)

    def has_ended(self, within: float = SOONER) -> bool:
        """Whether the server closes within this number of seconds, and sends nothing before."""
        self.socket.settimeout(within)
        try:
            return self.more() is None
        except TimeoutError:
            return False

    def close(self):
        self.socket.close()


def text_fields(kind: str, body: bytes, **others: str) -> dict:
    """The fields of an answer with this body."""
    return {"content-type": kind, **KEPT, **others, "content-length": str(len(body))}
