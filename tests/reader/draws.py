"""Messages drawn at random: right ones of each kind, and what an enemy makes of them."""
import struct

from . import messages as m
from . import objects as o
from .numbers import word_of

WORDS = (
    0, 0x80000000, 1, 0x3F000000, 0x3F800000, 0x41A00000, 0x48742400, 0x48F42400, 0x49127C00, 0x49742400, 0x49F42400,
    0x577FFFFF, 0x57800000, 0x7F7FFFFF, 0x7F800000, 0x7FC00000, 0xBF800000, 0x80000001, 0x007FFFFF,
)
NAMES = (b"", b"t", b"t1", b"t2", b"red", b"blue", b"\xff\x00", b"x" * 64, b"y" * 65)


class Draws:
    """Draws from one source of random numbers, over one network."""

    def __init__(self, random, network, malice=1.0):
        """Of all messages, `malice` times 46 of 100 aren't as they should be."""
        self.random, self.network, self.malice = random, network, malice
        self.addresses = sorted(network.owner)
        self.srps = []

    def chance(self, of_one):
        return self.random.random() < of_one

    def pick(self, *options):
        return self.random.choice(options)

    def word(self):
        if self.chance(0.06 * self.malice):
            return self.random.choice(WORDS)
        if self.chance(0.02 * self.malice):
            return self.random.getrandbits(32)
        return word_of(self.random.choice((100_000, 250_000, 300_000, 500_000, 500_001, 600_000, 1_000_000, 33_554_433)))

    def address(self):
        return self.random.getrandbits(32) if self.chance(0.06) else self.random.choice(self.addresses)

    def plsp(self):
        return self.pick(0, 0xFFFFF, 0xFFFFE) if self.chance(0.04) else self.random.randint(1, 5)

    def srp(self):
        if self.srps and self.chance(0.8):
            return self.random.choice(self.srps)
        return self.pick(0, 1, 2, 3, 4, 5, 6, 7, 8, 0xFFFFFFFE, 0xFFFFFFFF)

    # parts of objects

    def tlv(self, number=None, value=None):
        if number is None:
            number = self.pick(0, 1, 5, 16, 17, 18, 19, 31, 65535)
        if value is None:
            value = self.random.randbytes(self.random.choice((0, 1, 3, 4, 7, 8, 16)))
        fill = self.random.randbytes if self.chance(0.1) else bytes
        return struct.pack(">HH", number, len(value)) + value + fill(-len(value) % 4)

    def tlvs(self, *first):
        """These TLVs, seldom with others before, between or behind them."""
        data = b"".join(first)
        while self.chance(0.05):
            data = data + self.tlv() if self.chance(0.5) else self.tlv(self.pick(2, 20, 99)) + data
        return data

    def hop(self, in_ero):
        if self.chance(0.06):
            kind, length = self.pick(2, 3, 4, 32, 64, 0x81, 0x83), self.pick(4, 8, 12, 20)
            return bytes([kind, length]) + self.random.randbytes(length - 2)
        kind = 0x81 if in_ero and self.chance(0.1) else 1
        return struct.pack(">BBIBB", kind, 8, self.address(), 32 if self.chance(0.96) else self.pick(0, 24, 31, 33), self.pick(0, 0, 0, 7))

    def route(self, kind):
        """A route along links, or of hops drawn one by one."""
        if self.chance(0.7):
            at, data = self.random.randrange(len(self.network.links)), b""
            for _ in range(self.random.randint(1, 3)):
                link = self.network.links[at]
                address = link.remote if self.chance(0.8) else link.local
                data += struct.pack(">BBIBB", 1, 8, address, 32, 0)
                onward = [place for place, other in enumerate(self.network.links) if other.start == link.end]
                at = self.random.choice(onward) if onward else at
        else:
            data = b"".join(self.hop(kind == o.ERO) for _ in range(self.pick(0, 0, 1, 2, 3)))
        return m.pcep_object(kind, data)

    def lspa(self):
        colours = [self.random.getrandbits(2) if self.chance(0.25) else 0 for _ in range(3)]
        setup, hold = self.random.randint(0, 7), self.random.randint(0, 7)
        if self.chance(0.05):
            setup = self.pick(8, 255)
        if self.chance(0.05):
            hold = self.pick(8, 200)
        return m.pcep_object(o.LSPA, struct.pack(">III4B", *colours, setup, hold, self.pick(0, 1, 0xFF), 0) + self.tlvs())

    def bandwidth(self, sort=1):
        return m.pcep_object(o.BANDWIDTH, struct.pack(">I", self.word()), sort)

    def metric(self):
        word = self.word() if self.chance(0.3) else word_of(self.random.choice((1, 2, 3, 10, 20, 30, 40, 45, 60, 100)))
        return m.pcep_object(o.METRIC, struct.pack(">HBBI", 0, self.pick(0, 1, 1, 2, 3, 0xFE), self.pick(0, 1, 2, 3, 3, 4), word))

    def lsp(self, plsp, flags):
        lsp_id, tunnel = self.pick(0, 1, 1, 2, 3), self.random.randint(0, 3)
        ends = struct.pack(">IHHII", self.address(), lsp_id, tunnel, self.pick(0, 1), self.address())
        if self.chance(0.15):
            ends = bytes(16)
        tlvs = [] if self.chance(0.04 * self.malice) else [self.tlv(o.LSP_IDENTIFIERS, ends)]
        if self.chance(0.3):
            tlvs.append(self.tlv(o.SYMBOLIC_NAME, self.random.choice(NAMES)))
        self.random.shuffle(tlvs)
        return m.pcep_object(o.LSP, struct.pack(">I", plsp << 12 | flags) + self.tlvs(*tlvs))

    def must(self):
        """P, which a request's RP and END-POINTS have to have."""
        return 0 if self.chance(0.05 * self.malice) else 2

    def rp(self, number):
        return m.pcep_object(o.RP, struct.pack(">II", self.pick(0, 0, 0, 8, 0x3F), number) + self.tlvs(), flags=self.must())

    def other(self):
        """An object that the message has no place for, of a known class or not."""
        kind = self.pick(*range(1, 16), o.LSP, o.SRP, 0, 16, 34, 200)
        sort = 1 if self.chance(0.8) else self.pick(0, 2, 3, 15)
        size = {o.END_POINTS: 8, o.BANDWIDTH: 4, o.METRIC: 8, o.LSPA: 16}.get(kind, self.pick(0, 4, 8, 8, 12))
        return m.pcep_object(kind, self.random.randbytes(size) if self.chance(0.5) else bytes(size), sort, self.random.getrandbits(2))

    # messages, as lists of objects

    def opening(self):
        capability = [self.tlv(o.STATEFUL_CAPABILITY, bytes([0, 0, 0, self.pick(5, 5, 5, 1, 4, 0)]))] if self.chance(0.9) else []
        dead = self.pick(120, 120, 0, 1, 10, 40, 255)
        return [m.pcep_object(o.OPEN, bytes([0x20, self.pick(0, 30, 255), dead, self.random.getrandbits(8)]) + self.tlvs(*capability))]

    def item(self):
        flags = self.pick(0x18, 0x19, 0x09, 0x09, 0x28, 0x4, 0x4, 0x1A, 0x99, 0xC9, 0x89, 0x38, 0x48, 0x79)
        if self.chance(0.05):
            flags = self.random.getrandbits(12)
        objects = [m.pcep_object(o.SRP, struct.pack(">II", self.pick(0, 0, 1), self.srp()) + self.tlvs())] if self.chance(0.35) else []
        objects += [self.lsp(self.plsp(), flags), self.route(o.ERO) if self.chance(0.75) else m.pcep_object(o.ERO, b"")]
        rest = [self.bandwidth(self.pick(1, 1, 2)) for _ in range(self.pick(0, 1, 1, 2))]
        rest += [self.lspa()] if self.chance(0.6) else []
        rest += [self.route(o.RRO)] if self.chance(0.2) else []
        self.random.shuffle(rest)
        return objects + rest

    def report(self):
        if self.chance(0.15):
            return [m.pcep_object(o.LSP, bytes(4) + self.tlv(o.LSP_IDENTIFIERS, bytes(16))), m.pcep_object(o.ERO, b"")]
        return [pcep_object for _ in range(self.pick(1, 1, 1, 2, 3)) for pcep_object in self.item()]

    def request(self):
        objects = [m.pcep_object(o.SVEC, self.random.randbytes(8)) for _ in range(self.pick(0, 0, 0, 1))]
        for _ in range(self.pick(1, 1, 1, 2, 3)):
            objects.append(self.rp(self.pick(0, 1, 7, 0xFFFFFFFF)))
            ends = m.pcep_object(o.END_POINTS, struct.pack(">II", self.address(), self.address()), flags=self.must())
            rest = [self.bandwidth(self.pick(1, 1, 1, 2)) for _ in range(self.pick(0, 1, 1, 2))]
            rest += [self.metric() for _ in range(self.pick(0, 0, 1, 1, 2, 3))]
            rest += [self.lspa()] if self.chance(0.4) else []
            rest += [m.pcep_object(o.LSP, struct.pack(">I", self.plsp() << 12) + self.tlvs())] if self.chance(0.3) else []
            rest += [self.route(o.RRO)] if self.chance(0.2) else []
            self.random.shuffle(rest)
            objects += [ends, *rest]
        return objects

    def errors(self):
        objects = [m.pcep_object(o.SRP, struct.pack(">II", 0, self.srp())) for _ in range(self.pick(0, 1, 1, 1, 2))]
        return objects + [m.pcep_object(o.PCEP_ERROR, bytes([0, 0, self.pick(1, 24), 1]) + self.tlvs())]

    def of_kind(self, kind):
        if kind == m.M_OPEN:
            return self.opening()
        if kind == m.M_PCREQ:
            return self.request()
        if kind == m.M_PCRPT:
            return self.report()
        if kind == m.M_PCERR:
            return self.errors()
        if kind == m.M_CLOSE:
            return [m.pcep_object(o.CLOSE, bytes([0, 0, 0, self.random.getrandbits(3)]) + self.tlvs())]
        if kind == m.M_PCNTF:
            return [m.pcep_object(o.NOTIFICATION, bytes([0, 0, 1, 1]) + self.tlvs())]
        return [] if kind == m.M_KEEPALIVE else [self.other() for _ in range(self.pick(0, 1, 2))]

    # what an enemy does to a message

    def disordered(self, objects):
        """Objects dropped, doubled, in another order, or strange ones put in."""
        objects = list(objects)
        for _ in range(self.pick(1, 1, 2)):
            way, place = self.pick("drop", "double", "swap", "put", "put"), self.random.randrange(len(objects) + 1)
            if way == "put" or not objects:
                objects.insert(place, self.other())
            elif way == "drop":
                objects.pop(place % len(objects))
            elif way == "double":
                objects.insert(place, self.random.choice(objects))
            else:
                self.random.shuffle(objects)
        return objects

    def with_other_header(self, objects):
        """One object with another length, type, class or flags."""
        place = self.random.randrange(len(objects))
        data = bytearray(objects[place])
        way = self.pick("flags", "flags", "flags", "type", "class", "length", "length")
        if way == "flags":
            data[1] ^= self.pick(1, 2, 2, 2, 3, 4, 12)
        elif way == "type":
            data[1] = data[1] & 0xF | self.pick(0, 2, 3) << 4
        elif way == "class":
            data[0] = self.pick(0, 16, 34, 255, data[0] ^ 1)
        else:
            length = len(data) + self.pick(-8, -4, -1, 1, 4, 8, 64, -len(data), 4 - len(data), 3 - len(data))
            data[2:4] = struct.pack(">H", length & 0xFFFF)
        return [*objects[:place], bytes(data), *objects[place + 1 :]]

    def resized(self, objects):
        """One object with a longer or shorter body, and its length as it then is."""
        place = self.random.randrange(len(objects))
        data = objects[place]
        body = data[4:] + self.random.randbytes(4) if self.chance(0.5) else data[4 : max(4, len(data) - self.pick(4, 8, 12))]
        return [*objects[:place], m.pcep_object(data[0], body, data[1] >> 4, data[1] & 0xF), *objects[place + 1 :]]

    def with_other_bytes(self, data, first):
        """One to three bytes from `first` on drawn anew."""
        data = bytearray(data)
        for _ in range(self.pick(1, 1, 1, 2, 3)):
            if len(data) > first:
                place = self.random.randrange(first, len(data))
                data[place] = data[place] ^ 1 << self.random.randrange(8) if self.chance(0.6) else self.random.getrandbits(8)
        return bytes(data)

    def message(self, kind):
        """A message of this type: as it should be, or not."""
        objects, way = self.of_kind(kind), 0.5
        if self.chance(self.malice):
            way = self.random.random()
        if way < 0.16:
            objects = self.disordered(objects)
        elif way < 0.26 and objects:
            objects = self.with_other_header(objects)
        elif way < 0.30 and objects:
            objects = self.resized(objects)
        data = m.message(kind, *objects)
        if way >= 0.97:
            return self.with_other_bytes(data, 0)
        if way >= 0.90:
            return self.with_other_bytes(data, 4)
        if way >= 0.88:
            return self.cut(data)
        if way >= 0.87:
            return data[:1] + bytes([self.random.getrandbits(8)]) + data[2:]
        return data

    def cut(self, data):
        """The front of a message: with the length that it had, or with its own."""
        front = data[: self.random.randrange(4, len(data) + 1)]
        if self.chance(0.5):
            front = front[: len(front) // 4 * 4]
            return front[:2] + struct.pack(">H", len(front)) + front[4:]
        return front
