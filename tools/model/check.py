# Own tests of the reference model: the eight worked rows and corner cases.
from bus import *
from cpu import *
from isa import *
from image import load
import itertools


def cpu(words, cfg=0x00101137, eba=0, deba=0x800, at=0, regs=None, bus=None):
    ram = Ram(bytes(4096))
    for i, w in enumerate(words):
        ram.write(4, at + 4 * i, w)
    c = Cpu(cfg, eba, deba, regs or [0] * 32, bus or ram)
    c.pc = at
    return c


assert decode(0x98000000)[:4] == ("xor", 0, 0, 0)
assert decode(0x3444FFE0) == ("addi", 2, 4, 31, 0xFFE0)
c = cpu([0x3444FFE0], regs=[0, 0, 16] + [0] * 29); assert c.step()[0] == "D" and c.r[4] == 0xFFFFFFF0
assert decode(0xB5F17000)[:4] == ("add", 15, 17, 14)
assert decode(0xC3C00000)[:2] == ("b", 30) and decode(0xC3E00000)[:2] == ("b", 31)
assert decode(0xAC000002)[0] == "break" and decode(0xAC000003) is None
c = cpu([0xE3FFFFFF]); c.step(); assert c.pc == 0xFFFFFFFC
c = cpu([0xAC000007], at=0x100, eba=0x400); c.ie = 1
c.bus.write(4, 0x4E0, 0xC3C00000)
assert c.step() == ("X", 7, None) and c.r[30] == 0x100 and c.ie == 2 and c.pc == 0x4E0
c.step(); assert c.ie == 3 and c.pc == 0x100
assert compute("sr", 0x80000000, 31) == M32 and compute("sru", 0x80000000, 31) == 1
# how many words are valid: forms counted by their used bits
valid = sum(1 << bin(USED[form(m)] & 0x3FFFFFF).count("1") for m in TABLE if m not in "-" and m != "raise") + 2
print("valid words", valid)
# vet
assert vet(0x00101137, 0, 0x800) == 0
for b in (3, 6, 9, 10, 11, 22, 23, 24, 25): assert vet(0x00101137 | 1 << b, 0, 0) == 1
assert vet(0x137 | 33 << 12, 0, 0) == 2 and vet(0x137 | 32 << 12, 0, 0) == 0
assert vet(0x137 | 5 << 18, 0, 0) == 2 and vet(0x37 | 4 << 18, 0, 0) == 3 and vet(0x37 | 5 << 18, 0, 0) == 2
assert vet(0x37, 1, 0) == 4 and vet(0x37, 0, 0x80) == 4
# signed ends
assert test("g", 0, M32) and not test("gu", 0, M32) and test("ge", 0x7FFFFFFF, 0x80000000)
# timer: count 0 with control set gives period at once
t = Timer(33); assert t.line == 1
t.write(4, 0, 2); t.write(4, 8, 3); assert t.lines() == 0
t.tick(); assert t.word(1) == 2 and t.word(3) == 1 and t.lines() == 2
t.write(4, 12, 0); assert t.lines() == 2
t.tick(); assert t.lines() == 0 and t.word(1) == 1
t.tick(); assert t.word(1) == 0 and t.word(3) == 0
t.tick(); assert t.word(1) == 2 and t.word(3) == 1 and t.lines() == 2
# port
p = Port(1); p.write(4, 0, 0x141); p.write(4, 4, 9); p.tick(); assert p.sent() == [0x41] and p.word(1) == 0
p.write(4, 4, 9); p.tick(); assert p.sent() == [0x41] and p.word(1) == 9
# fork homes
b = Fork(Cache(Ram(bytes(4096))), Fork(Timer(0), Port(64), 16), 4096)
try: b.read(4, 0x2000); assert 0
except Fault as f: assert (f.cause, f.home) == (6, (0xFF0, 4))
try: b.read(4, 0x2001); assert 0
except Fault as f: assert (f.cause, f.home) == (5, (0xFF1, 4))
assert b.kind(0x1017) == DEVICE and b.kind(0x1018) == NONE and b.kind(0xFFF) == MEMORY
# fork over split of an odd number
f = Fork(Ram(bytes(8)), Rom(b"abcdefgh"), 7); assert f.split == 4 and f.kind(4) == ROMK and f.read(1, 4) == 97
try: f.write(1, 4, 0); assert 0
except Fault as x: assert (x.cause, x.home) == (7, (0, 2))
# without G break goes to EBA
c = cpu([0xAC000002], cfg=0, eba=0x100, at=0); assert c.step() == ("X", 1, None) and c.pc == 0x120 and c.r[31] == 0
# unconfigured
for m, bit in NEEDS.items():
    c = cpu([OPCODE[m] << 26], cfg=0x00101137 & ~(1 << bit)); assert c.step() == ("S", 9, 0), m
    c = cpu([OPCODE[m] << 26]); assert c.step()[0] in "DX"
print("ok")
