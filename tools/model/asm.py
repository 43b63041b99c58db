# An ad-hoc assembler for the examples: text in, annotated listing and image out.
import re
from isa import OPCODE, LOADS, STORES, BRANCHES, SHIFTI, THREE, SEXT, JUMPR, JUMPI, form, decode

CSR = {"IE": 0, "IM": 1, "IP": 2, "CC": 5, "CFG": 6, "EBA": 7, "DC": 8, "DEBA": 9,
       "BP0": 16, "BP1": 17, "BP2": 18, "BP3": 19}


def reg(t):
    assert re.fullmatch(r"r([0-9]|[12][0-9]|3[01])", t), t
    return int(t[1:])


def word(op, a=0, b=0, low=0):
    return OPCODE[op] << 26 | a << 21 | b << 16 | low


def encode(pc, text, labels):
    """One instruction; branch targets are labels or absolute addresses."""
    op, _, rest = text.strip().partition(" ")
    ops = [o.strip() for o in rest.split(",")] if rest.strip() else []

    def num(t):
        t = t.strip()
        if "|" in t:
            x, y = t.split("|")
            return num(x) | num(y)
        return labels[t] if t in labels else int(t, 0)

    def imm(t, bits=16):
        v = num(t)
        assert -(1 << bits - 1) <= v < 1 << bits, (text, v)
        return v & ((1 << bits) - 1)

    def off(t, bits):
        v = num(t) - pc
        assert v % 4 == 0 and -(1 << bits - 1) <= v // 4 < 1 << bits - 1, (text, v)
        return v // 4 & ((1 << bits) - 1)

    def mem(t):
        r, o = re.fullmatch(r"\((r\d+)([+-]\w+)\)", t).groups()
        return reg(r), imm(o[1:] if o[0] == "+" else o)

    def csr(t):
        return CSR[t] if t in CSR else int(t, 0)

    if op == ".word": return num(ops[0]) & 0xFFFFFFFF
    if op == "break": return 0xAC000002
    if op == "scall": return 0xAC000007
    if op in ("ret", "eret", "bret"): return word("b", {"ret": 29, "eret": 30, "bret": 31}[op])
    if op == "nop": return word("addi")
    if op == "mvi": return word("addi", 0, reg(ops[0]), imm(ops[1]))
    if op == "mv": return word("or", reg(ops[1]), 0, reg(ops[0]) << 11)
    if op in LOADS:
        a, o = mem(ops[1])
        return word(op, a, reg(ops[0]), o)
    if op in STORES:
        a, o = mem(ops[0])
        return word(op, a, reg(ops[1]), o)
    if op in BRANCHES: return word(op, reg(ops[0]), reg(ops[1]), off(ops[2], 16))
    if op in SHIFTI: return word(op, reg(ops[1]), reg(ops[0]), imm(ops[2], 5))
    if op in THREE: return word(op, reg(ops[1]), reg(ops[2]), reg(ops[0]) << 11)
    if op in SEXT: return word(op, reg(ops[1]), 0, reg(ops[0]) << 11)
    if op in JUMPR: return word(op, reg(ops[0]))
    if op in JUMPI: return OPCODE[op] << 26 | off(ops[0], 26)
    if op == "rcsr": return word(op, csr(ops[1]), 0, reg(ops[0]) << 11)
    if op == "wcsr": return word(op, csr(ops[0]), reg(ops[1]))
    assert form(op) == "imm", op
    return word(op, reg(ops[1]), reg(ops[0]), imm(ops[2]))


def assemble(source):
    """(listing, image text). Lines: 'name:', '.org ADDR', 'instruction ; comment', '; comment', blank."""
    labels, pc, items = {}, 0, []
    for raw in source.splitlines():
        code, _, comment = raw.partition(";")
        code, comment = code.strip(), comment.strip()
        if code.endswith(":"):
            labels[code[:-1]] = pc
            items.append(("label", pc, code[:-1], comment))
        elif code.startswith(".org"):
            pc = int(code.split()[1], 0)
            items.append(("org", pc, "", comment))
        elif code:
            items.append(("code", pc, code, comment))
            pc += 4
        else:
            items.append(("text", pc, "", comment if ";" in raw else None))
    listing, chunks = [], []
    for sort, at, code, comment in items:
        tail = "; " + comment if comment else ""
        if sort == "code":
            w = encode(at, code, labels)
            if not chunks or chunks[-1][0] + len(chunks[-1][1]) != at or len(chunks[-1][1]) == 32 or chunks[-1][2]:
                chunks.append([at, b"", False])
            chunks[-1][1] += w.to_bytes(4, "big")
            listing.append(("%08X  %08X    %-22s %s" % (at, w, code, tail)).rstrip())
        elif sort == "org" and chunks:
            chunks[-1][2] = True
        elif sort == "label":
            listing.append(("%08X  %s: %s" % (at, code, tail)).rstrip())
        elif sort == "text" and comment is None:
            listing.append("")
        elif sort == "text":
            listing.append("; " + comment if comment else ";")
    image = "".join("M,%08X,%s\n" % (at, data.hex().upper()) for at, data, _ in chunks)
    image += "E,%08X\n" % len(chunks)
    return "\n".join(listing).strip("\n") + "\n", image
