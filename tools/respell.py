#!/usr/bin/env python3
"""Brings the definitions and lemmas of the repository to today's spelling: words in snake case, types in camel case.

usage: python3 tools/respell.py        at the top of the repository, once, right after port.py

It goes by text, over the .antt files and over the clauses and imports of the .rt files. Names that come from the
sources (fields, parameters, functions) keep their spelling, and so do letters of the format (DBLK), comments, strings
and must-fail edits, but for what stands in backticks.
"""

import glob
import re
import sys

# fields and parameters of the sources; where one is a field of a record of specs/ or proofs/ too, it is spelt alike
SOURCE = {"blockType", "dataType", "mediaType", "creationTime", "lastWrittenTime", "createdAt", "writtenAt", "newUsed"}
# a parameter of the sources, and a definition
BOTH = "sectorSize"
# facts, so types
FACTS = {n + "Number" for n in "opening reading creating committing rollingBack exporting importing parent over flattening".split()}
# lemmas that would have the name of the definition that they are about
LEMMAS = {n: n + "_lem" for n in ("in_image", "in_scope", "none_filled", "not_written")}
BINDERS = {"isBytes", "firstKind", "allNumbers"}
TOKEN = re.compile(r"[^\s(){}\[\],;.«»\"λ`]+")
DECLARED = re.compile(r"^\s*(?:(?:abbrev|unfoldable)\s+)?(?:pub\s+)?(?:(?:abbrev|unfoldable|data|record)\s+)?([^\s:(){}]+)\s*(?:\(.*\)|\{.*\})*\s*:\s")


def snake(name):
    if name in FACTS:
        return name[0].upper() + name[1:]
    name = re.sub(r"(?<![A-Za-z])getD(?![A-Za-z])", "get_or", name)
    name = re.sub(r"([a-z0-9])([A-Z])", lambda m: m.group(1) + "_" + m.group(2).lower(), name)
    return re.sub(r"(?<=_than)(?=\d)", "_", name)


def antt():
    return sorted(glob.glob("crates/*/specs/**/*.antt", recursive=True) + glob.glob("crates/*/proofs/**/*.antt", recursive=True))


def names():
    found = set(BINDERS)
    for path in antt():
        for line in open(path, encoding="utf-8"):
            m = DECLARED.match(line)
            if m and not line.strip().startswith(("let ", "--", "use ")):
                found.add(m.group(1))
    return LEMMAS | {n: snake(n) for n in found if n[0].islower() and n not in SOURCE and snake(n) != n}


def code(text, new):
    """The text with each token turned; a parameter of the sources behind `c.args` and the like stays."""
    out, end = [], 0
    for m in TOKEN.finditer(text):
        t = m.group(0)
        if t in new and not (t == BOTH and text[: m.start()].endswith(".")):
            out += [text[end : m.start()], new[t]]
            end = m.end()
    return "".join(out) + text[end:]


def ticks(text, new):
    return re.sub(r"`[^`]*`", lambda m: "`" + code(m.group(0)[1:-1], new) + "`", text)


def line(text, new):
    m = re.search(r"(^|\s)--(\s|$)", text)
    at = m.start() if m else len(text)
    return code(text[:at], new) + ticks(text[at:], new)


def clauses(text, new):
    """A .rt file: the imports and the braces behind requires and ensures."""
    out, at = [], 0
    imported = re.search(r"^ghost use [^;]*\b%s\b" % BOTH, text, re.M)
    kept = {k: v for k, v in new.items() if imported or k != BOTH}
    for m in re.finditer(r"^ghost use [^;]*;|^\s*(?:requires|ensures)\b[^{\n]*(?=\{)", text, re.M):
        if m.start() < at:
            continue
        start, end = m.start(), m.end()
        if not m.group(0).startswith("ghost"):
            depth = 0
            while True:
                depth += {"{": 1, "}": -1}.get(text[end], 0)
                end += 1
                if not depth:
                    break
        out += [ticks(text[at:start], kept), code(text[start:end], new if m.group(0).startswith("ghost") else kept)]
        at = end
    return "".join(out) + ticks(text[at:], kept)


def main():
    new = names()
    taken = {}
    for path in antt():
        for t in set(TOKEN.findall(open(path, encoding="utf-8").read())):
            taken.setdefault(t, []).append(path)
    for old in sorted(new):
        if new[old] in taken:
            print(f"falls together: {old} and {new[old]}, in {' '.join(taken[new[old]][:4])}")
    if "--look" in sys.argv:
        return
    for path in antt():
        text = open(path, encoding="utf-8").read()
        open(path, "w", encoding="utf-8").write("".join(line(l, new) for l in text.splitlines(keepends=True)))
    for path in sorted(glob.glob("crates/*/src/*.rt")):
        text = open(path, encoding="utf-8").read()
        open(path, "w", encoding="utf-8").write(clauses(text, new))
    print(f"{len(new)} names")


main()
