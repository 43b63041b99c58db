# The processor of the reference model: vet, power, one step.
from bus import M32, Fault
from isa import (decode, sext, LOADS, STORES, BRANCHES, ZERO_EXT, HIGH, NEEDS, form)


def vet(cfg, eba, deba):
    """0 when the configuration is good, else the refusal's number."""
    g, bp, n = cfg >> 8 & 1, cfg >> 18 & 15, cfg >> 12 & 63
    if cfg & (1 << 3 | 1 << 6 | 1 << 9 | 1 << 10 | 1 << 11 | 15 << 22):
        return 1
    if n > 32 or bp > 4:
        return 2
    if bp > 0 and not g:
        return 3
    if eba & 255 or deba & 255:
        return 4
    return 0


def signed(v):
    return sext(v, 32)


def compute(m, x, y):
    """What a computing instruction makes of its two operands (each 0..2^32-1)."""
    if m.startswith("cmp"):
        return int(test(m[3:], x, y))
    if m == "add": return (x + y) & M32
    if m == "sub": return (x - y) & M32
    if m == "mul": return (x * y) & M32
    if m == "divu": return x // y
    if m == "modu": return x % y
    if m == "and": return x & y
    if m == "or": return x | y
    if m == "xor": return x ^ y
    if m == "nor": return ~(x | y) & M32
    if m == "xnor": return ~(x ^ y) & M32
    if m == "sl": return x << (y & 31) & M32
    if m == "sru": return x >> (y & 31)
    if m == "sr": return signed(x) >> (y & 31) & M32
    raise AssertionError(m)


def test(t, x, y):
    if t == "e": return x == y
    if t == "ne": return x != y
    if t.endswith("u"):
        t = t[:-1]
    else:
        x, y = signed(x), signed(y)
    return {"g": x > y, "ge": x >= y}[t]


# an immediate mnemonic and the operation it makes
BASE = {"srui": "sru", "sri": "sr", "sli": "sl", "nori": "nor", "muli": "mul", "xori": "xor",
        "andi": "and", "xnori": "xnor", "addi": "add", "ori": "or", "andhi": "and", "orhi": "or",
        "cmpei": "cmpe", "cmpgi": "cmpg", "cmpgei": "cmpge", "cmpgeui": "cmpgeu",
        "cmpgui": "cmpgu", "cmpnei": "cmpne"}


class Stop(Exception):
    pass


class Raise(Exception):
    def __init__(self, number, carries=None):
        self.number, self.carries = number, carries


class Cpu:
    def __init__(self, cfg, eba, deba, regs, bus):
        assert vet(cfg, eba, deba) == 0
        self.cfg, self.bus = cfg, bus
        self.r = list(regs)
        self.pc = self.eba = eba
        self.deba = deba
        self.ie = self.im = self.ip = self.dc = self.cc = self.outside = 0
        self.bp = [0, 0, 0, 0]

    def has(self, bit):
        return bool(self.cfg >> bit & 1)

    @property
    def int_mask(self):
        return (1 << (self.cfg >> 12 & 63)) - 1

    @property
    def nbp(self):
        return self.cfg >> 18 & 15

    def rcsr(self, n, pend):
        if n == 0x00: return self.ie
        if n == 0x01: return self.im
        if n == 0x02: return pend
        if n == 0x05 and self.has(5): return self.cc
        if n == 0x06: return self.cfg
        if n == 0x07: return self.eba
        if n == 0x09 and self.has(8): return self.deba
        return 0

    def wcsr(self, n, v):
        """Answers the ones that are cleared in pend."""
        if n == 0x00: self.ie = v & 7
        elif n == 0x01: self.im = v & self.int_mask
        elif n == 0x02: return v
        elif n == 0x07: self.eba = v & ~255 & M32
        elif self.has(8):
            if n == 0x08: self.dc = v & 2
            elif n == 0x09: self.deba = v & ~255 & M32
            elif 0x10 <= n <= 0x13 and n - 0x10 < self.nbp:
                self.bp[n - 0x10] = v & ~2 & M32
        return 0

    def enter(self, number):
        if number == 1:
            self.r[31] = self.pc
            self.ie = (self.ie & 2) | (self.ie & 1) << 2
        else:
            self.r[30] = self.pc
            self.ie = (self.ie & 4) | (self.ie & 1) << 1
        deba = self.has(8) and (number == 1 or self.dc & 2)
        self.pc = ((self.deba if deba else self.eba) + 32 * number) & M32

    def execute(self, word, pend):
        """Does the fetched word or raises Stop or Raise before changing anything; answers pend's cleared ones."""
        d = decode(word)
        if d is None:
            raise Stop(8)
        m, a, b, c, low = d
        if m in NEEDS and not self.has(NEEDS[m]):
            raise Stop(9)
        r = self.r
        nxt, cleared = (self.pc + 4) & M32, 0
        if m in LOADS or m in STORES:
            size = LOADS.get(m) or STORES[m]
            addr = (r[a] + sext(low, 16)) & M32
            if addr % size:
                raise Stop(10)
            try:
                if m in STORES:
                    self.bus.write(size, addr, r[b])
                else:
                    v = self.bus.read(size, addr)
                    if m in ("lb", "lh"):
                        v = sext(v, 8 * size) & M32
                    r[b] = v
            except Fault as f:
                raise Raise(4, f)
        elif m in BRANCHES:
            if test(m[1:], r[a], r[b]):
                nxt = (self.pc + 4 * sext(low, 16)) & M32
        elif m in BASE:
            if m in HIGH:
                imm = low << 16
            elif m in ZERO_EXT or form(m) == "shift":
                imm = low
            else:
                imm = sext(low, 16) & M32
            r[b] = compute(BASE[m], r[a], imm)
        elif m in ("divu", "modu"):
            if r[b] == 0:
                raise Raise(5)
            r[c] = compute(m, r[a], r[b])
        elif m == "sextb":
            r[c] = sext(r[a] & 0xFF, 8) & M32
        elif m == "sexth":
            r[c] = sext(r[a] & 0xFFFF, 16) & M32
        elif m == "scall":
            raise Raise(7)
        elif m == "break":
            raise Raise(1)
        elif m == "b":
            nxt = r[a] & ~3 & M32
            if a == 30:
                self.ie = (self.ie & 6) | (self.ie >> 1 & 1)
            elif a == 31:
                self.ie = (self.ie & 6) | (self.ie >> 2 & 1)
        elif m == "call":
            nxt = r[a] & ~3 & M32
            r[29] = (self.pc + 4) & M32
        elif m == "bi":
            nxt = (self.pc + 4 * sext(low, 26)) & M32
        elif m == "calli":
            nxt = (self.pc + 4 * sext(low, 26)) & M32
            r[29] = (self.pc + 4) & M32
        elif m == "rcsr":
            r[c] = self.rcsr(a, pend)
        elif m == "wcsr":
            cleared = self.wcsr(a, r[b])
        else:
            r[c] = compute(m, r[a], r[b])
        self.pc = nxt
        return cleared

    def step(self):
        """('D', word, None), ('X', number, what it carries) or ('S', number, pc)."""
        pend = self.ip | (self.bus.lines() | self.outside) & self.int_mask
        cleared = 0
        try:
            for i, bp in enumerate(self.bp):
                if bp & 1 and bp >> 2 == self.pc >> 2:
                    raise Raise(1, i)
            ready = pend & self.im
            if self.ie & 1 and ready:
                raise Raise(6, (ready & -ready).bit_length() - 1)
            try:
                word = self.bus.read(4, self.pc)
            except Fault as f:
                raise Raise(2, f)
            cleared = self.execute(word, pend)
            answer = ("D", word, None)
        except Stop as s:
            return ("S", s.args[0], self.pc)
        except Raise as x:
            self.enter(x.number)
            answer = ("X", x.number, x.carries)
        self.ip = pend & ~cleared
        self.cc = (self.cc + 1) & M32
        self.bus.tick()
        return answer
