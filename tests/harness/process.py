"""What a process holds, by /proc."""
import ctypes
import os
import socket


def resident(process) -> int:
    """The memory that a process holds, in bytes."""
    with open(f"/proc/{process.pid}/statm") as file:
        return int(file.read().split()[1]) * os.sysconf("SC_PAGE_SIZE")


def descriptors(process) -> int:
    return len(os.listdir(f"/proc/{process.pid}/fd"))


def threads(process) -> int:
    return len(os.listdir(f"/proc/{process.pid}/task"))


def ticks(process) -> int:
    """The processor time that a process has taken, in ticks of the system."""
    with open(f"/proc/{process.pid}/stat") as file:
        return sum(int(word) for word in file.read().rsplit(")", 1)[1].split()[11:13])


def connections() -> list[list[str]]:
    """The system's connections of IPv4, as words of /proc/net/tcp."""
    with open("/proc/net/tcp") as file:
        return [line.split() for line in file][1:]


def name_of_end(host: str, port: int) -> str:
    """How the system names an end of a connection."""
    return f"{int.from_bytes(socket.inet_aton(host), 'little'):08X}:{port:04X}"


def break_listener(server):
    """Shuts a server's listening socket down, through a descriptor of its own (pidfd_getfd)."""
    folder = f"/proc/{server.process.pid}/fd"
    inode = next(row[9] for row in connections() if row[1].endswith(f":{server.port:04X}") and row[3] == "0A")
    number = next(int(name) for name in os.listdir(folder) if os.readlink(f"{folder}/{name}") == f"socket:[{inode}]")
    process = os.pidfd_open(server.process.pid)
    listener = socket.socket(fileno=ctypes.CDLL(None, use_errno=True).syscall(438, process, number, 0))
    listener.shutdown(socket.SHUT_RDWR)
    listener.close()
    os.close(process)
