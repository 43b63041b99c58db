# Words and instructions of the reference model.
TABLE = ("srui nori muli sh lb sri xori lh andi xnori lw lhu sb addi ori sli "
         "lbu be bg bge bgeu bgu sw bne andhi cmpei cmpgi cmpgei cmpgeui cmpgui orhi cmpnei "
         "sru nor mul divu rcsr sr xor - and xnor - raise sextb add or sl "
         "b modu sub - wcsr - call sexth bi cmpe cmpg cmpge cmpgeu cmpgu calli cmpne").split()
assert len(TABLE) == 64
OPCODE = {m: i for i, m in enumerate(TABLE) if m != "-"}
LOADS = {"lb": 1, "lbu": 1, "lh": 2, "lhu": 2, "lw": 4}
STORES = {"sb": 1, "sh": 2, "sw": 4}
BRANCHES = ("be", "bg", "bge", "bgeu", "bgu", "bne")
SHIFTI = ("srui", "sri", "sli")
ZERO_EXT = ("andi", "ori", "nori", "xori", "xnori", "cmpgui", "cmpgeui")
HIGH = ("andhi", "orhi")
THREE = ("sru nor mul divu sr xor and xnor add or sl modu sub cmpe cmpg cmpge cmpgeu cmpgu cmpne").split()
SEXT = ("sextb", "sexth")
JUMPR = ("b", "call")
JUMPI = ("bi", "calli")
NEEDS = {"mul": 0, "muli": 0, "divu": 1, "modu": 1, "sextb": 4, "sexth": 4,
         "sru": 2, "sr": 2, "sl": 2, "srui": 2, "sri": 2, "sli": 2}  # the CFG bit asked


def sext(v, bits):
    return v - (1 << bits) if v >> (bits - 1) & 1 else v


def form(m):
    if m in SHIFTI: return "shift"
    if m in THREE: return "three"
    if m in SEXT: return "two"
    if m in JUMPR: return "jump"
    if m in JUMPI: return "far"
    if m in ("rcsr", "wcsr", "raise"): return m
    return "imm"


# bits of the form that carry something; the opcode's six bits included
USED = {"imm": 0xFFFFFFFF, "shift": 0xFFFF001F, "three": 0xFFFFF800, "two": 0xFFE0F800,
        "jump": 0xFFE00000, "far": 0xFFFFFFFF, "rcsr": 0xFFE0F800, "wcsr": 0xFFFF0000,
        "raise": 0xFC00001F}


def decode(word):
    """(mnemonic, A, B, C, low) or None for a reserved word; raise is told as break or scall."""
    m = TABLE[word >> 26]
    if m == "-":
        return None
    f = form(m)
    if word & ~USED[f] & 0xFFFFFFFF:
        return None
    a, b, c = word >> 21 & 31, word >> 16 & 31, word >> 11 & 31
    low = word & 0xFFFF
    if f == "far":
        low = word & 0x3FFFFFF
    if f == "shift":
        low = word & 31
    if m == "raise":
        m = {2: "break", 7: "scall"}.get(word & 31)
        if m is None:
            return None
    return m, a, b, c, low
