#!/usr/bin/env python3
# Two routers of `pced serve --te examples/diamond.toml`: 127.0.1.1 reports an LSP by B and delegates another that has no
# route yet, 127.0.1.2 has none. They stay up and do nothing that they are asked. Look at what `pced tell` shows (docs/OPERATOR.md,
# "Lines that show"); at Enter a third LSP is delegated, by C. `pced decode` says the messages in words.
#
#   two_routers.py [ADDR:PORT [SECONDS]]     (127.0.0.1:4189; SECONDS between two messages, 0.2; `enter`: Enter after each)
import socket
import sys
import time

SERVER = sys.argv[1] if len(sys.argv) > 1 else "127.0.0.1:4189"
SECONDS = sys.argv[2] if len(sys.argv) > 2 else "0.2"
HOST, _, PORT = SERVER.rpartition(":")
if not PORT.isdecimal():
    sys.exit(f"the server is an ADDR:PORT, and not {SERVER}")
if SECONDS != "enter" and not SECONDS.replace(".", "", 1).isdecimal():
    sys.exit(f"SECONDS is a number or `enter`, and not {SECONDS}")
# (Keepalive and DeadTimer 0: the routers may be silent)
OPEN, KEEPALIVE = "20010014 01100010 20000000 00100004 00000005", "20020004"
SYNCHRONIZED = "200a0024 2010001c 00000000 00120010 00000000 00000000 00000000 00000000 07100004"
LSP_1 = """200a0050 2010001c 00001018 00120010 0a000001 00010001 0a000001 0a000004
    07100014 01080a01 00022000 01080a02 00022000 09100014 00000000 00000000 00000000 07000000 05100008 48f42400"""
LSP_7 = """200a0040 2010001c 00007009 00120010 0a000001 00010007 0a000001 0a000004
    07100004 09100014 00000000 00000000 00000000 07000000 05100008 48742400"""
LSP_8 = """200a0050 2010001c 00008019 00120010 0a000001 00010008 0a000001 0a000004
    07100014 01080a03 00022000 01080a04 00022000 09100014 00000000 00000000 00000000 07000000 05100008 48435000"""


def pause():
    """Waits between two messages."""
    if SECONDS == "enter":
        input("Enter: the next message ")
    else:
        time.sleep(float(SECONDS))


def connected(address, *pieces):
    """A router that sends these pieces, one after the other."""
    router = socket.create_connection((HOST, int(PORT)), source_address=(address, 0))
    for piece in pieces:
        router.sendall(bytes.fromhex(piece))
        pause()
    return router


def main():
    first = connected("127.0.1.1", OPEN, KEEPALIVE + SYNCHRONIZED, LSP_1 + LSP_7)
    second = connected("127.0.1.2", OPEN, KEEPALIVE, SYNCHRONIZED)
    input("Enter: 127.0.1.1 delegates a third LSP ")
    first.sendall(bytes.fromhex(LSP_8))
    input("Enter: both go ")
    second.close()


try:
    main()
except ConnectionRefusedError:
    sys.exit(f"no server listens at {SERVER}: start `pced serve --listen {SERVER} ..` first")
except OSError as fault:
    sys.exit(f"cannot speak with a server at {SERVER}: {fault.strerror}")
except (EOFError, KeyboardInterrupt):
    sys.exit("interrupted")
