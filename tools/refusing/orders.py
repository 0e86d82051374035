"""The orders to refused.c, which is loaded into a program."""
import mmap
import os
import struct
import subprocess

HERE = os.path.dirname(os.path.realpath(__file__))


class Refusals:
    def __init__(self, room):
        self.room = room
        library, path = f"{room}/refused.so", f"{room}/orders"
        subprocess.run(["gcc", "-O1", "-shared", "-fPIC", "-o", library, f"{HERE}/refused.c"], check=True)
        with open(path, "wb") as file:
            file.write(bytes(32))
        with open(path, "r+b") as file:
            self.orders = mmap.mmap(file.fileno(), 32)
        self.environment = {"LD_PRELOAD": library, "REFUSED_BY": path}

    def order(self, left, all_of_them=False, least=0):
        """`left` allocations pass, and then one is refused, or all are; a negative number: all pass. One of fewer bytes
        than `least` always passes."""
        self.lift()
        struct.pack_into("=qqq", self.orders, 8, all_of_them, 0, least)
        struct.pack_into("=q", self.orders, 0, left)

    def lift(self):
        """No more are refused."""
        struct.pack_into("=q", self.orders, 0, -1)

    def met(self):
        """How many were refused since the last order."""
        return struct.unpack_from("=q", self.orders, 16)[0]
