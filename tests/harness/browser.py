"""A headless Chromium (Debian: apt-get install chromium), driven by its DevTools protocol over a WebSocket (RFC 6455)."""
import atexit
import base64
import json
import os
import shutil
import socket
import struct
import subprocess
import tempfile
import time
import urllib.request

FLAGS = [
    "--headless=new", "--no-sandbox", "--disable-gpu", "--no-first-run", "--disable-extensions", "--disable-sync",
    "--disable-background-networking", "--disable-component-update", "--disable-default-apps", "--hide-scrollbars",
    "--host-resolver-rules=MAP * ~NOTFOUND, EXCLUDE 127.0.0.1", "--remote-debugging-port=0",
]
# how many seconds Chromium may take to start, and a page for what it is asked
TIMEOUT_S = 60


class Browser:
    """One page in a browser of its own. `events` has what the browser said without being asked."""

    def __init__(self, width=1400, height=1000):
        self.folder = tempfile.mkdtemp()
        self.process = subprocess.Popen(
            ["chromium", *FLAGS, f"--user-data-dir={self.folder}", f"--window-size={width},{height}", "about:blank"],
            stdin=subprocess.DEVNULL, stdout=subprocess.DEVNULL, stderr=subprocess.DEVNULL,
        )
        atexit.register(self.process.kill)
        self.events, self.number, self.bytes = [], 0, b""
        self.socket = self.opened(self.where())
        for domain in "Page", "Runtime", "Network", "Log":
            self.ask(f"{domain}.enable")
        self.size(width, height)

    def where(self):
        """The address of the page's socket."""
        until = time.monotonic() + TIMEOUT_S
        while time.monotonic() < until:
            try:
                port = open(f"{self.folder}/DevToolsActivePort").read().split()[0]
                with urllib.request.urlopen(f"http://127.0.0.1:{port}/json/list", timeout=TIMEOUT_S) as answer:
                    pages = [page for page in json.load(answer) if page["type"] == "page"]
                if pages:
                    return pages[0]["webSocketDebuggerUrl"].removeprefix("ws://")
            except (OSError, IndexError):
                pass
            time.sleep(0.1)
        raise SystemExit("Chromium doesn't start")

    def opened(self, place):
        host, path = place.split("/", 1)
        stream = socket.create_connection(host.split(":"), timeout=TIMEOUT_S)
        key = base64.b64encode(os.urandom(16)).decode()
        stream.sendall((
            f"GET /{path} HTTP/1.1\r\nHost: {host}\r\nUpgrade: websocket\r\nConnection: Upgrade\r\n"
            f"Sec-WebSocket-Key: {key}\r\nSec-WebSocket-Version: 13\r\n\r\n").encode())
        head = b""
        while not head.endswith(b"\r\n\r\n"):
            head += stream.recv(1)
        return stream

    def send(self, text):
        data, mask = text.encode(), os.urandom(4)
        size = struct.pack(">B", 0x80 | len(data)) if len(data) < 126 else struct.pack(">BQ", 0xFF, len(data))
        masked = bytes(byte ^ mask[place % 4] for place, byte in enumerate(data))
        self.socket.sendall(b"\x81" + size + mask + masked)

    def take(self, count):
        while len(self.bytes) < count:
            more = self.socket.recv(1 << 20)
            if not more:
                raise OSError("Chromium has closed")
            self.bytes += more
        taken, self.bytes = self.bytes[:count], self.bytes[count:]
        return taken

    def hear(self):
        """The next message, put together from its frames."""
        text, is_last = b"", False
        while not is_last:
            first, size = self.take(2)
            size &= 0x7F
            if size >= 126:
                size = int.from_bytes(self.take(2 if size == 126 else 8), "big")
            text, is_last = text + self.take(size), bool(first & 0x80)
        return json.loads(text)

    def ask(self, method, **words):
        self.number += 1
        self.send(json.dumps({"id": self.number, "method": method, "params": words}))
        while True:
            heard = self.hear()
            if heard.get("id") == self.number:
                if "error" in heard:
                    raise ValueError(f"{method}: {heard['error']}")
                return heard["result"]
            self.events.append(heard)

    def run(self, script):
        """The value of an expression in the page."""
        reply = self.ask("Runtime.evaluate", expression=script, returnByValue=True, awaitPromise=True)
        if "exceptionDetails" in reply:
            raise ValueError(f"{script}: {reply['exceptionDetails']['exception'].get('description')}")
        return reply["result"].get("value")

    def waits_for(self, script, seconds=TIMEOUT_S):
        """Whether an expression becomes true soon."""
        until = time.monotonic() + seconds
        while time.monotonic() < until:
            if self.run(script):
                return True
            time.sleep(0.05)
        return False

    def open(self, address):
        self.ask("Page.navigate", url=address)
        return self.waits_for("document.readyState === 'complete'")

    def size(self, width, height):
        self.ask("Emulation.setDeviceMetricsOverride", width=width, height=height, deviceScaleFactor=1, mobile=False)

    def prefers(self, scheme):
        self.ask("Emulation.setEmulatedMedia", features=[{"name": "prefers-color-scheme", "value": scheme}])

    def click(self, x, y):
        for kind in "mousePressed", "mouseReleased":
            self.ask("Input.dispatchMouseEvent", type=kind, x=x, y=y, button="left", buttons=1, clickCount=1)

    def point(self, x, y):
        self.ask("Input.dispatchMouseEvent", type="mouseMoved", x=x, y=y)

    def press(self, key, text=""):
        code = {"Enter": 13, "Tab": 9, "ArrowLeft": 37, "ArrowUp": 38, "ArrowRight": 39, "ArrowDown": 40}.get(key, ord(key[0]))
        text = {"Enter": "\r"}.get(key, text)
        self.ask("Input.dispatchKeyEvent", type="keyDown", key=key, text=text, windowsVirtualKeyCode=code)
        self.ask("Input.dispatchKeyEvent", type="keyUp", key=key, windowsVirtualKeyCode=code)

    def picture(self, path):
        with open(path, "wb") as file:
            file.write(base64.b64decode(self.ask("Page.captureScreenshot", format="png")["data"]))

    def end(self):
        try:
            self.ask("Browser.close")
        except (OSError, ValueError):
            pass
        self.process.wait(timeout=TIMEOUT_S)
        self.socket.close()
        shutil.rmtree(self.folder, ignore_errors=True)
