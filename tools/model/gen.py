# Random but interesting images for differential runs.
#   python3 gen.py SEED > image            one image
#   python3 gen.py SEED program|value|text force the sort: a running program, one that shows its
#                                          registers by writing them into words it then executes, or a damaged text
#   python3 gen.py pairs DIR FROM TO       DIR/SEED.image and DIR/SEED.trace for FROM <= SEED < TO
#   python3 gen.py stats FROM TO           what the traces of these seeds met
import os
import random
import sys
from isa import (OPCODE, TABLE, LOADS, STORES, BRANCHES, SHIFTI, THREE, SEXT, form, USED)

INTERESTING = [0, 1, 2, 3, 4, 7, 31, 32, 33, 0x7F, 0x80, 0xFF, 0x7FFF, 0x8000, 0xFFFF, 0x10000,
               0x7FFFFFFF, 0x80000000, 0x80000001, 0xFFFFFFFF, 0xFFFFFFFE, 0xFFFF8000, 0xA5A5A5A5,
               0x1000, 0x1008, 0x1010, 0x1018, 0x200, 0xFFC, 0xFFFFFFFC, 0x12345678]
IMM = [0, 1, 2, 3, 4, 8, 31, 0x7FFF, 0x8000, 0x8001, 0xFFFF, 0xFFFE, 0x5555, 0xFF, 0x80]
CSRS = [0, 0, 0, 1, 1, 2, 2, 2, 5, 6, 7, 8, 9, 0x10, 0x11, 0x12, 0x13]
IMM_OPS = [m for m in TABLE[:32] if form(m) == "imm" and m not in LOADS and m not in STORES and m not in BRANCHES]
R_TIMER, R_TABLE, R_PORT, R_BAD = 20, 21, 22, 23


class Gen:
    def __init__(self, seed):
        self.r = random.Random(seed)
        self.mem = {}
        self.deba = 0x800
        self.eba = 0

    def word(self, op, a=0, b=0, low=0):
        return OPCODE[op] << 26 | a << 21 | b << 16 | low

    def reg(self):
        r = self.r
        return r.choice(range(1, 11)) if r.random() < 0.9 else r.randrange(32)

    def dest(self):
        r = self.r
        x = r.random()
        if x < 0.9: return r.choice(range(1, 11))
        if x < 0.95: return r.choice([0, 29, 30, 31])
        return r.randrange(32)

    def imm(self):
        return self.r.choice(IMM) if self.r.random() < 0.6 else self.r.randrange(65536)

    def mvi(self, reg, v):
        return self.word("addi", 0, reg, v & 0xFFFF)

    def alu(self):
        r = self.r
        x = r.random()
        if x < 0.45:
            return self.word(r.choice(THREE), self.reg(), self.reg(), self.dest() << 11)
        if x < 0.85:
            return self.word(r.choice(IMM_OPS), self.reg(), self.dest(), self.imm())
        if x < 0.95:
            return self.word(r.choice(SHIFTI), self.reg(), self.dest(), r.randrange(32))
        return self.word(r.choice(SEXT), self.reg(), 0, self.dest() << 11)

    def access(self, here):
        r = self.r
        op = r.choice(list(LOADS) + list(STORES))
        size = LOADS.get(op) or STORES[op]
        x = r.random()
        if x < 0.5: base, span = R_TABLE, 64
        elif x < 0.7: base, span = R_TIMER, 16
        elif x < 0.82: base, span = R_PORT, 8
        elif x < 0.9: base, span = R_BAD, 8
        else:  # code ahead, read or overwritten
            off = here + 4 * r.randrange(1, 8)
            return self.word(op, 0, self.dest() if op in LOADS else self.reg(), off // size * size & 0xFFFF)
        off = r.randrange(span) // size * size
        if r.random() < 0.03:
            off += 1
        return self.word(op, base, self.dest() if op in LOADS else self.reg(), off)

    def csr(self):
        r = self.r
        n = r.choice(CSRS) if r.random() < 0.85 else r.randrange(32)
        if r.random() < 0.5:
            return self.word("rcsr", n, 0, self.dest() << 11)
        return self.word("wcsr", n, self.reg())

    def flow(self, here):
        r = self.r
        x = r.random()
        if x < 0.6:
            off = r.randrange(1, 5) if r.random() < 0.9 else -r.randrange(0, 4)
            a, b = self.reg(), self.reg()
            if r.random() < 0.2: b = a
            return self.word(r.choice(BRANCHES), a, b, off & 0xFFFF)
        if x < 0.75:
            off = r.randrange(1, 5) if r.random() < 0.9 else r.randrange(-4, 1)
            return OPCODE[r.choice(["bi", "calli"])] << 26 | off & 0x3FFFFFF
        if x < 0.8:
            return OPCODE[r.choice(["bi", "calli"])] << 26 | r.randrange(1 << 26)
        if x < 0.88:
            return self.word(r.choice(["b", "call"]), r.choice([29, 29, R_TIMER, R_BAD, self.reg()]))
        return self.word("b", r.choice([29, 30, 31]))

    def random_valid(self):
        r = self.r
        m = r.choice([t for t in TABLE if t not in ("-", "raise")])
        return OPCODE[m] << 26 | r.getrandbits(26) & USED[form(m)]

    def any(self, here):
        r = self.r
        x = r.random()
        if x < 0.40: return self.alu()
        if x < 0.62: return self.access(here)
        if x < 0.75: return self.csr()
        if x < 0.88: return self.flow(here)
        if x < 0.92: return r.choice([0xAC000002, 0xAC000007, 0xAC000007])
        if x < 0.95: return self.word(r.choice(["divu", "modu"]), self.reg(), r.choice([0, self.reg()]), self.dest() << 11)
        if x < 0.985: return self.random_valid()
        if x < 0.99: return r.getrandbits(32)
        return self.word(r.choice(["srui", "sli"]), self.reg(), self.dest(), r.getrandbits(16))

    def put(self, at, words):
        for i, w in enumerate(words):
            self.mem[(at + 4 * i) & 0xFFFFFFFC] = w & 0xFFFFFFFF

    def handler(self, number, base):
        r = self.r
        if r.random() < 0.08:
            return
        at = base + 32 * number
        words = [self.any(at) for _ in range(r.choice([0, 0, 1, 2]))]
        if number == 6:
            tidy = [self.word("sw", R_TIMER, 0, 12), self.mvi(19, 1), self.word("wcsr", 2, 19)]
            words += tidy if r.random() < 0.6 else tidy[r.randrange(3):]
            words.append(self.word("b", 30))
        elif number == 1:
            x = r.random()
            if x < 0.6: words += [self.word("wcsr", 0x10 + n, 0) for n in range(r.choice([1, 2, 4]))]
            if x > 0.4: words.append(self.word("addi", 31, 31, 4))
            words.append(self.word("b", 31))
        elif number == 2:
            words += [self.mvi(30, 0x100 + 4 * r.randrange(8, 48)), self.word("b", 30)]
        else:
            if r.random() < 0.85: words.append(self.word("addi", 30, 30, 4))
            words.append(self.word("b", 30))
        self.put(at, words[:8])

    def program(self):
        r = self.r
        if r.random() < 0.95:
            self.put(0, [self.word("xor")])
        self.put(4, [OPCODE["bi"] << 26 | (0x100 - 4) // 4])
        main = []
        main.append(self.word("addi", 0, R_TABLE, 0x200) if r.random() < 0.95 else self.mvi(R_TABLE, 0x1FE))
        main.append(self.mvi(R_TIMER, 0x1000))
        main.append(self.mvi(R_PORT, 0x1010))
        main.append(self.mvi(R_BAD, r.choice([0x1018, 0xFF8, 0x1014, 0x7FFC, -4])))
        for _ in range(r.randrange(5)):
            main.append(self.word("lw", R_TABLE, r.randrange(1, 11), 4 * r.randrange(32)))
        timer = r.random() < 0.8
        if timer:
            for i, v in ((0, r.randrange(9)), (4, r.randrange(9))):
                if r.random() < 0.8:
                    main += [self.mvi(18, v), self.word("sw", R_TIMER, 18, i)]
            main += [self.mvi(18, r.choice([1, 3, 3, 3, 3, 2])), self.word("sw", R_TIMER, 18, 8)]
        breaks = [b for b in range(4) if r.random() < 0.3]
        length = r.randrange(20, 50)
        for b in breaks:
            x = r.random()
            if x < 0.7: at = 0x100 + 4 * r.randrange(len(main), len(main) + 24)
            elif x < 0.9: at = r.choice([0xC0, 0xE0, 0x80, 0xA0, 0x40, 0x820]) + 4 * r.randrange(3)
            else: at = r.randrange(4096)
            v = at & ~3 | r.choice([1, 1, 1, 3, 0, 2])
            main += [self.mvi(17, v), self.word("wcsr", 0x10 + b, 17)]
        if r.random() < 0.85:
            main += [self.mvi(16, r.choice([1, 1, 1, 0xFFFF])), self.word("wcsr", 1, 16)]
        if r.random() < 0.85:
            main += [self.mvi(16, r.choice([1, 1, 1, 3, 5, 7, 0, 0xFF])), self.word("wcsr", 0, 16)]
        if r.random() < 0.15:
            main += [self.mvi(16, 2), self.word("wcsr", 8, 16)]
        bases = [0, 0x800]
        if r.random() < 0.15:
            v = r.choice([0x300, 0x3FF, 0x400])
            main += [self.mvi(16, v), self.word("wcsr", r.choice([7, 9]), 16)]
            bases.append(v & ~255)
        for _ in range(length):
            main.append(self.any(0x100 + 4 * len(main)))
        if r.random() < 0.3:
            main.append(0x9C000000)
        main = main[:64]
        for base in bases:
            for n in range(1, 8):
                self.handler(n, base)
        self.put(0x100, main)
        self.put(0x200, [r.choice(INTERESTING) if r.random() < 0.8 else r.getrandbits(32) for _ in range(32)])
        return self.text()

    def value(self):
        """Straight code over a few operands; then registers are shown, 16 bits at a time, as addi r11,r11,bits."""
        r = self.r
        main = [self.word("xor"), self.mvi(R_TABLE, 0x200), self.mvi(R_TIMER, 0x1000), self.word("orhi", 0, 13, 0x356B)]
        jump = OPCODE["bi"] << 26
        for n in range(1, 5):
            main.append(self.word("lw", R_TABLE, n, 4 * r.randrange(32)))
        if r.random() < 0.4:
            main += [self.word("sw", R_TIMER, r.randrange(1, 5), 4 * r.randrange(3)), self.word("sw", R_TIMER, r.choice([1, 13, R_TABLE]), 8)]
        touched = []
        for _ in range(r.randrange(4, 14)):
            x = r.random()
            d = r.randrange(1, 7)
            a, b = r.randrange(0, 7), r.randrange(0, 7)
            if x < 0.3: w = self.word(r.choice([m for m in THREE]), a, b, d << 11)
            elif x < 0.5: w = self.word(r.choice(IMM_OPS), a, d, self.imm())
            elif x < 0.6: w = self.word(r.choice(SHIFTI), a, d, r.randrange(32))
            elif x < 0.65: w = self.word(r.choice(SEXT), a, 0, d << 11)
            elif x < 0.8:
                op = r.choice(list(LOADS))
                base, span = r.choice([(R_TABLE, 128), (R_TABLE, 128), (R_TIMER, 24), (0, 64)])
                w = self.word(op, base, d, r.randrange(span) // LOADS[op] * LOADS[op])
            elif x < 0.88:
                op = r.choice(list(STORES))
                base, span = r.choice([(R_TABLE, 32), (R_TABLE, 32), (R_TIMER, 24)])
                w = self.word(op, base, d, r.randrange(span) // STORES[op] * STORES[op])
                d = None
            elif x < 0.95: w = self.word("rcsr", r.choice(CSRS + list(range(32))), 0, d << 11)
            else:
                w = self.word("wcsr", r.choice([0, 1, 2, 7, 8, 9]), a)
                d = None
            main.append(w)
            if d: touched.append(d)
        shown = list(dict.fromkeys(reversed(touched)))[:r.choice([2, 2, 3])] or [1]
        if r.random() < 0.1: shown[-1] = r.choice([29, 30, 31])
        at = lambda: 0x100 + 4 * len(main)
        for n in shown:
            for half in (0, 1):
                main.append(self.word("srui", n, 12, 16) if half else self.word("andi", n, 12, 0xFFFF))
                main += [self.word("or", 12, 13, 12 << 11), self.word("sw", 0, 12, at() + 8), 0]
        main.append(0x9C000000)
        self.put(0, [jump | 0x40])
        for base in (0, 0x800):
            for n in (2, 4, 5, 7):
                self.put(base + 32 * n, [self.word("addi", 30, 30, 4), self.word("b", 30)])
            self.put(base + 0xC0, [self.word("sw", R_TIMER, 0, 12), self.word("addi", 0, 14, 1), self.word("wcsr", 2, 14), self.word("b", 30)])
        self.put(0x100, main)
        self.put(0x200, [r.choice(INTERESTING) if r.random() < 0.6 else r.getrandbits(32) for _ in range(32)])
        return self.text()

    def text(self):
        """The memory as image lines of random lengths, some in disorder."""
        r = self.r
        data = {}
        for at, w in self.mem.items():
            for i, b in enumerate(w.to_bytes(4, "big")):
                data[at + i] = b
        lines, at = [], None
        for a in sorted(data):
            if at is not None and a == at + len(run) and len(run) < want:
                run.append(data[a])
            else:
                if at is not None: lines.append((at, run))
                at, run, want = a, [data[a]], r.choice([32, 32, 32, 16, 4, 1, r.randrange(1, 33)])
        lines.append((at, run))
        if r.random() < 0.3: r.shuffle(lines)
        if r.random() < 0.2:  # a first line that later ones cover
            a, b = r.choice(lines)
            lines.insert(0, (a, [r.randrange(256) for _ in b]))
        out = ["M,%08X,%s\n" % (a, bytes(b).hex().upper()) for a, b in lines]
        return "".join(out) + "E,%08X\n" % len(lines)


def damaged(seed):
    g = Gen(seed)
    r = g.r
    g.put(0, [0x98000000, 0x9C000000])
    for _ in range(r.randrange(4)):
        g.put(r.choice([0x10, 0x20, 0xFFC, 0x1000, 0x1018, 0xFFFFFFFC, 0x100]), [r.getrandbits(32)])
    t = bytearray(g.text().encode())
    for _ in range(r.randrange(3)):
        x = r.random()
        p = r.randrange(len(t)) if t else 0
        if not t or x < 0.2: t[p:p] = bytes([r.choice(b"\r\n,ME09AFaf \x00\xff")])
        elif x < 0.5: t[p] = r.choice(b"\r\n,MEme0123456789ABCDEFabcdefGg/:@ \x00\xff")
        elif x < 0.7: del t[p:p + r.choice([1, 1, 2, 20])]
        elif x < 0.8: t = t[:p]
        elif x < 0.9: t += r.choice([b"\n", b"x", b"E,00000000\n", b"M,00000000,00\n"])
        else:
            lines = bytes(t).splitlines(True)
            q = r.randrange(len(lines))
            lines[q:q + 1] = r.choice([[], [lines[q], lines[q]], [b"\n", lines[q]],
                                       [b"M,00000000," + b"00" * r.choice([0, 1, 32, 33]) + b"\n", lines[q]],
                                       [b"M,%08X,0000\n" % r.choice([0xFFE, 0xFFF, 0x1016, 0x1017, 0xFFFFFFFF]), lines[q]]])
            t = bytearray(b"".join(lines))
    return bytes(t)


def image(seed, sort=None):
    if sort is None:
        x = random.Random("sort%d" % seed).random()
        sort = "text" if x < 0.15 else "value" if x < 0.5 else "program"
    if sort == "text":
        return damaged(seed)
    return (Gen(seed).value() if sort == "value" else Gen(seed).program()).encode()


def main(argv):
    if argv[0] == "pairs":
        from trace import trace
        os.makedirs(argv[1], exist_ok=True)
        for s in range(int(argv[2]), int(argv[3])):
            i = image(s)
            open("%s/%d.image" % (argv[1], s), "wb").write(i)
            open("%s/%d.trace" % (argv[1], s), "w").write(trace(i))
    elif argv[0] == "stats":
        from collections import Counter
        from trace import trace
        from isa import decode
        c, ops, taken_br = Counter(), Counter(), Counter()
        for s in range(int(argv[1]), int(argv[2])):
            i = image(s)
            notes = set()

            def watch(n, pc, kind, value, more, before, cpu):
                c["%s %d" % (kind, value) if kind != "D" else "D"] += 1
                if kind == "D":
                    m = decode(value)
                    ops[m[0]] += 1
                    if m[0] == "b" and m[1] == 30: notes.add("eret")
                    if m[0] == "b" and m[1] == 31: notes.add("bret")
                    if cpu.pc != (pc + 4) & 0xFFFFFFFF: taken_br[m[0]] += 1
                if n == 64: notes.add("64 steps")
                if kind == "X" and value == 1: notes.add("breakpoint %s" % more)
            t = trace(i, watch)
            if t.startswith("refused"): c[t.split(",")[0] + " " + t.split(",")[1]] += 1
            c.update(notes)
        print(sorted(c.items()))
        print(sorted(ops.items()))
        print(sorted(taken_br.items()))
    else:
        sys.stdout.buffer.write(image(int(argv[0]), argv[1] if len(argv) > 1 else None))


if __name__ == "__main__":
    main(sys.argv[1:])
