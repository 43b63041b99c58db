# Buses of the reference model: meaning and makes, written from the rules.
M32 = 0xFFFFFFFF
NONE, ROMK, MEMORY, DEVICE = "none", "rom", "memory", "device"


class Fault(Exception):
    """A bus fault: cause 5, 6 or 7 and the home (address, layer) of the address asked."""

    def __init__(self, cause, home):
        super().__init__((cause, home))
        self.cause, self.home = cause, home


class Bus:
    # a make gives: kind(a), home(a), byte(a), put(a, v), lines(), sent(), tick()
    def check(self, size, a, writing):
        assert size in (1, 2, 4) and 0 <= a <= M32
        if a % size != 0:
            raise Fault(5, self.home(a))
        if self.kind(a) == NONE:
            raise Fault(6, self.home(a))
        if writing and self.kind(a) == ROMK:
            raise Fault(7, self.home(a))

    def read(self, size, a):
        self.check(size, a, False)
        v = 0
        for i in range(size):
            v = (v << 8) | self.byte(a + i)
        return v

    def write(self, size, a, v):
        self.check(size, a, True)
        for i in range(size):
            self.put(a + i, (v >> (8 * (size - 1 - i))) & 0xFF)

    def lines(self):
        return 0

    def sent(self):
        return []

    def tick(self):
        pass


class Bytes(Bus):
    """A bottom make: some bytes from 0 on, of one kind, with a layer."""

    def __init__(self, data, kind, layer):
        self.data = bytearray(data)
        self.size = len(data) // 4 * 4
        self.k, self.layer = kind, layer

    def kind(self, a):
        return self.k if a < self.size else NONE

    def home(self, a):
        return (a, self.layer)

    def byte(self, a):
        return self.data[a]

    def put(self, a, v):
        self.data[a] = v

    def word(self, i):
        return int.from_bytes(self.data[4 * i:4 * i + 4], "big")

    def set_word(self, i, v):
        self.data[4 * i:4 * i + 4] = v.to_bytes(4, "big")


def Ram(data):
    return Bytes(data, MEMORY, 1)


def Rom(data):
    return Bytes(data, ROMK, 2)


class Timer(Bytes):
    def __init__(self, line):
        super().__init__(bytes(16), DEVICE, 3)
        self.line, self.high = line & 31, False

    def lines(self):
        return (1 << self.line) if self.high else 0

    def tick(self):
        period, count, control = self.word(0), self.word(1), self.word(2)
        if control & 1:
            if count == 0:
                self.set_word(1, period)
                self.set_word(3, 1)
            else:
                self.set_word(1, count - 1)
        self.high = bool(self.word(3) & 1) and bool(control & 2)


class Port(Bytes):
    def __init__(self, room):
        super().__init__(bytes(8), DEVICE, 4)
        self.room, self.out = room, []

    def sent(self):
        return self.out

    def tick(self):
        if self.word(1) != 0 and len(self.out) < self.room:
            self.out.append(self.word(0) & 0xFF)
            self.set_word(1, 0)


class Fork(Bus):
    def __init__(self, low, high, split):
        self.low, self.high, self.split = low, high, split & ~3 & M32

    def side(self, a):
        return (self.low, a) if a < self.split else (self.high, a - self.split)

    def kind(self, a):
        b, x = self.side(a)
        return b.kind(x)

    def home(self, a):
        b, x = self.side(a)
        return b.home(x)

    def byte(self, a):
        b, x = self.side(a)
        return b.byte(x)

    def put(self, a, v):
        b, x = self.side(a)
        b.put(x, v)

    def read(self, size, a):
        b, x = self.side(a)
        return b.read(size, x)

    def write(self, size, a, v):
        b, x = self.side(a)
        b.write(size, x, v)

    def lines(self):
        return self.low.lines() | self.high.lines()

    def sent(self):
        return self.low.sent() + self.high.sent()

    def tick(self):
        self.low.tick()
        self.high.tick()


class Cache(Bus):
    def __init__(self, below):
        self.below = below
        self.sets = [None] * 256  # (word address, word)

    def kind(self, a):
        return self.below.kind(a)

    def home(self, a):
        return self.below.home(a)

    def byte(self, a):
        return self.below.byte(a)

    def held(self, a):
        e = self.sets[(a >> 2) & 255]
        return e is not None and e[0] == a & ~3

    def read(self, size, a):
        v = self.below.read(size, a)
        if self.kind(a) in (ROMK, MEMORY):
            w = a & ~3
            s = (a >> 2) & 255
            if self.held(a):
                word = self.sets[s][1]
                mine = (word >> (8 * (4 - size - (a & 3)))) & ((1 << (8 * size)) - 1)
                assert mine == v, "the cache would have lied"
            self.sets[s] = (w, self.below.read(4, w))
        return v

    def write(self, size, a, v):
        self.below.write(size, a, v)
        if self.held(a):
            self.sets[(a >> 2) & 255] = (a & ~3, self.below.read(4, a & ~3))

    def lines(self):
        return self.below.lines()

    def sent(self):
        return self.below.sent()

    def tick(self):
        self.below.tick()
