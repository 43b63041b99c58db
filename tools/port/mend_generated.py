#!/usr/bin/env python3
"""Turns the names that Rattle generates from the source, in the answers to goals, to today's spelling.

usage: python3 tools/port/mend_generated.py        at the top of the repository

Today a name from the source keeps its underscores in them, and so do Rattle's own words: in-ok-word is in_ok-word, put-number is put_number.
"""
import os
import re

WORD = re.compile(r"[A-Za-z_][A-Za-z0-9_']*(?:-[A-Za-z0-9_']+)+")
OWN = ["in_ok", "in_err", "in_default", "in_rest", "type_inv", "overflow_mul", "overflow_add", "overflow_sub", "overflow_shl", "overflow_shr", "overflow_cast", "overflow_neg",
       "overflow_step", "nonzero_div", "nonzero_rem", "slice_bounds", "offset_bounds", "invariant_of", "yielded_by", "from_residual", "deref_mut"]


def files(crate, suffix):
    for folder, dirs, names in os.walk(crate):
        dirs[:] = sorted(d for d in dirs if d != "out")
        for name in sorted(names):
            if name.endswith(suffix):
                yield os.path.join(folder, name)


def main():
    for name in sorted(os.listdir("crates")):
        crate = os.path.join("crates", name)
        idents = set(OWN)
        for path in files(crate, ".rt"):
            idents |= set(re.findall(r"[a-z][a-z0-9]*(?:_[a-z0-9]+)+", open(path, encoding="utf-8").read()))
        idents -= {i for i in idents if i.startswith("if_")}  # if-aligned is the test of a bool aligned
        pairs = sorted(((i.replace("_", "-"), i) for i in idents), key=lambda p: -len(p[0]))
        pats = [(re.compile(rf"(?<![A-Za-z0-9_']){re.escape(a)}(?![A-Za-z0-9_'])"), b) for a, b in pairs]

        def turn(m):
            word = m[0]
            for pat, b in pats:
                word = pat.sub(b, word)
            return word

        for path in files(crate, ".antt"):
            parts = path.split(os.sep)
            if parts[2] != "proofs" or len(parts) < 5:
                continue
            text = open(path, encoding="utf-8").read()
            lines = []
            for line in text.splitlines(True):
                use = re.match(r"use (\S+?)\.\{", line)
                if use and not use[1].endswith((".Goals", ".Given")):
                    lines.append(line)
                else:
                    lines.append(WORD.sub(turn, line))
            turned = "".join(lines)
            if turned != text:
                open(path, "w", encoding="utf-8").write(turned)
                print(path)


main()
