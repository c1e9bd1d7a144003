#!/usr/bin/env python3
"""Brings this repository's own definitions and lemmas to one spelling: words in snake case, types and modules in camel case.

usage: python3 tools/respell.py        at the top, once, right behind the move to the newer Rattle

A name that an .antt file declares in lower camel case is respelled wherever it stands: in specs/, proofs/, clauses and comments of src/, edits and
pages. Names of src/ keep their spelling, and so do strings. Where a respelled name would fall together with another one that the same file
sees, the other one moves first (FIRST).
"""

import glob
import re

TOKEN = re.compile(r"[A-Za-z_][A-Za-z0-9_'₀₁₂₃₄₅₆₇₈₉-]*")
DECLARED = re.compile(r"\s*(?:(?:unfoldable|abbrev|pub|data|record|infix\w*|constructor)\s+)*([^\s:(){}]+)\s*(?:\{[^}]*\}|\([^)]*\)|\s)*:(?!=)\s")
STRING = re.compile(r'("(?:[^"\\]|\\.)*")')

# Names that a respelled one would meet: the lemma beside a definition gets the ending that lemmas have, the rest another word.
FIRST = {
    "walked_from": ("walked_from_lem", "crates/zone/proofs/Walks.antt crates/carry/proofs/Carry.antt crates/guards/proofs/Sending.antt"),
    "same_row": ("same_row_lem", "crates/catalogue/proofs/Exact.antt"),
    "whole_by": ("whole_by_lem", "crates/sections/proofs/Chain.antt crates/catalogue/proofs/Judging.antt"),
    "cut_out": ("cut_out_lem", "crates/desks/proofs/are_desks_sound/Proof.antt"),
    "read_out": ("read_out_lem", "crates/guards/proofs/Guards.antt crates/guards/proofs/ReadOut.antt"),
    "last_fits": ("last_fits_lem", "crates/judge/proofs/Parts.antt"),
    "goes_on": ("goes_onward", "crates/judge/proofs/*.antt crates/history/proofs/Events.antt"),
    "headerRead": ("header_read_out", "crates/guards/**/*.antt"),
}
# A part of a lemma's name that is a library's word of before.
WORDS = {"getD": "get_or"}


def snake(part):
    if part in WORDS:
        return WORDS[part]
    return re.sub(r"(?<=[a-z0-9])([A-Z])", lambda m: "_" + m.group(1).lower(), part)


def antt():
    return sorted(glob.glob("crates/*/specs/**/*.antt", recursive=True) + glob.glob("crates/*/proofs/**/*.antt", recursive=True))


def read(path):
    with open(path, encoding="utf-8") as f:
        return f.read()


def write(path, text):
    if read(path) != text:
        with open(path, "w", encoding="utf-8") as f:
            f.write(text)


def parts():
    """The parts, between dashes, of declared names that are in lower camel case."""
    found = set()
    for path in antt():
        for line in read(path).splitlines():
            m = DECLARED.match(line)
            if m and re.fullmatch(r"[a-z][A-Za-z0-9'₀₁₂₃₄₅₆₇₈₉-]*", m.group(1)):
                found |= {p for p in m.group(1).split("-") if re.match(r"[a-z]", p) and re.search("[A-Z]", p)}
    for path in antt() + glob.glob("crates/*/src/*.rt"):
        for line in read(path).splitlines():
            if line.startswith(("use ", "ghost use ")):
                found |= set(re.findall(r" as ([a-z][a-z0-9]*[A-Z][A-Za-z0-9]*)", line))
    return found


def respelled(text, names):
    return TOKEN.sub(lambda m: "-".join(snake(p) if p in names else p for p in m.group(0).split("-")), text)


def outside_strings(text, turn):
    return "\n".join("".join(s if i % 2 else turn(s) for i, s in enumerate(STRING.split(line))) for line in text.split("\n"))


def edit(text, names):
    """An edit's lines: the names, and, of a definition or a proof, projections written tight and today's paths."""
    lines, definition = [], False
    for line in text.split("\n"):
        if line.startswith("file: "):
            definition = not line.endswith(".rt")
        elif definition:
            line = re.sub(r"(?<=[\w)'}]) \.(?=[\w«])", ".", line).replace("Rattle·", "Rattle.")
        lines.append(respelled(line, names))
    return "\n".join(lines)


def main():
    for old, (new, where) in FIRST.items():
        for pattern in where.split():
            for path in glob.glob(pattern, recursive=True):
                write(path, re.sub(rf"(?<![\w'.-]){old}(?![\w'-])", new, read(path)))
    names = parts()
    for path in antt():
        write(path, respelled(read(path), names))
    for path in glob.glob("crates/*/src/*.rt"):
        write(path, outside_strings(read(path), lambda t: respelled(t, names)))
    for path in ["README.md", "crates.txt", *glob.glob("docs/**/*.md", recursive=True)]:
        write(path, respelled(read(path), names))
    for path in glob.glob("crates/*/must-fail/*.edit"):
        write(path, edit(read(path), names))
    print(len(names), "parts of names respelled")


main()
