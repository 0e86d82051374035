"""Ports of 127.0.0.1 for the servers of tests, which may run beside others on the machine."""
import random
import socket

GIVEN = set()


def free_port() -> int:
    """A port that nobody has, another each time, and none that the system may give to somebody else meanwhile."""
    with open("/proc/sys/net/ipv4/ip_local_port_range") as file:
        above = int(file.read().split()[0])
    ports = range(16384, above if above > 20_000 else 65536)
    while True:
        port = random.SystemRandom().choice(ports)
        if port not in GIVEN and is_free(port):
            GIVEN.add(port)
            return port


def is_free(port: int) -> bool:
    try:
        socket.create_server(("127.0.0.1", port)).close()
        return True
    except OSError:
        return False


def listens_at(port: int, addresses=("0100007F",)) -> bool:
    """Whether somebody listens at this port, of 127.0.0.1 or of another of these addresses as the system writes them."""
    with open("/proc/net/tcp") as file:
        text = file.read()
    return any(f"{address}:{port:04X} 00000000:0000 0A" in text for address in addresses)
