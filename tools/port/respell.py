#!/usr/bin/env python3
"""Brings the repository's own definitions, lemmas and record fields to the spelling of today's Rattle, after port.py of the kit has been run.

usage: python3 tools/port/respell.py        once, at the top of the repository

- A name in lower camel case is turned into snake case: breakpointHit, breakpoint_hit.
- A dash that only joins words is turned into an underscore: step-cases, step_cases. It stays between two names: length-bytes_of.
- A type with a dash is turned into upper camel case: Reserved-word, ReservedWord.
- A lemma that would have its function's name gets _lem behind it: jumped-by, jumped_by_lem, beside jumpedBy, jumped_by.
- The crate hex is called hex_text, since the kit has a library of the name hex.

Only names that .antt files declare outside the answers to goals are turned, and only as whole words. It stops where two names would fall together.
"""
import os
import re
import sys

WORD = re.compile(r"[A-Za-z_][A-Za-z0-9_']*(?:-[A-Za-z0-9_'][A-Za-z0-9_']*)*")
DECLARES = re.compile(r"\s*(?:(?:abbrev|unfoldable|pub|data|record)\s+)*([A-Za-z_][\w'-]*)\s*:(?!=)(.*)")
# names of two crates that have the same name from now on, since no file takes both
BOTH = {"refusal_number"}
# names whose dash joins two names
JOINS = {"length-bytesOf", "length-hexDigits", "length-patched", "all-hexDigits", "value-hexDigits", "hexDigits-step", "ifAccepted-same"}


def files(suffixes):
    for folder, dirs, names in os.walk("crates"):
        dirs[:] = sorted(d for d in dirs if d != "out")
        for name in sorted(names):
            if name.endswith(suffixes):
                yield os.path.join(folder, name)


def is_answer(path):
    """Whether a file lies in the folder of a function's proof."""
    parts = path.split(os.sep)
    return parts[2] == "proofs" and len(parts) > 4


def snake(name):
    return re.sub(r"(?<=[a-z0-9])([A-Z])", lambda m: "_" + m[1].lower(), name)


def respelled(name):
    if "-" in name:
        if name in JOINS:
            return "-".join(snake(part) for part in name.split("-"))
        if name[0].isupper():
            return "".join(part[0].upper() + part[1:] for part in name.split("-"))
        return snake(name.replace("-", "_"))
    return name if name[0].isupper() else snake(name)


def declared():
    found = set()
    for path in files(".antt"):
        for line in open(path, encoding="utf-8"):
            m = DECLARES.match(line)
            if m and not (is_answer(path) and "goal." in m[2]):
                found.add(m[1])
    return found


def rename_crate(old, new):
    if not os.path.isdir(f"crates/{old}"):
        return
    os.rename(f"crates/{old}", f"crates/{new}")
    text = open("crates.txt").read()
    open("crates.txt", "w").write("".join(l if l.startswith("#") else re.sub(rf"\b{old}\b", new, l) for l in text.splitlines(True)))
    for path in files((".antt", ".rt")):
        text = open(path, encoding="utf-8").read()
        turned = re.sub(rf"\bRattle\.{old}\.", f"Rattle.{new}.", text)
        if path.endswith(".rt"):
            turned = re.sub(rf"(?<![\w:]){old}::", f"{new}::", turned)
        if turned != text:
            open(path, "w", encoding="utf-8").write(turned)


def main():
    names = declared()
    turn = {n: respelled(n) for n in names if respelled(n) != n}
    plain = {m for n, m in turn.items() if "-" not in n} | names
    turn = {n: m + "_lem" if "-" in n and m in plain - BOTH else m for n, m in turn.items()}
    clash = sorted(n for n, m in turn.items() if m in names or (m not in BOTH and list(turn.values()).count(m) > 1))
    if clash:
        sys.exit("respell: these names would fall together with another: " + ", ".join(f"{n} ({turn[n]})" for n in clash))
    for path in files((".antt", ".rt")):
        text = open(path, encoding="utf-8").read()
        turned = WORD.sub(lambda m: turn.get(m[0], m[0]), text)
        if turned != text:
            open(path, "w", encoding="utf-8").write(turned)
    rename_crate("hex", "hex_text")
    print(f"respell: {len(turn)} names turned")


main()
