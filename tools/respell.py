#!/usr/bin/env python3
"""Brings the repository's own definitions, lemmas, fields and constructors to snake case, everywhere they are named.

usage: python3 tools/respell.py [--names]     at the top, after the kit's port.py, once; --names prints the pairs and changes nothing

A name is one that an .antt file declares: `camelCase` and `dashed-name` become `camel_case` and `dashed_name`. Types keep their capitals. In .rt files
only clauses, ghost lines and backticked comments are looked at, in .md files only what stands in backticks; code, strings and outputs stay.
"""

import glob
import os
import re
import sys

TOKEN = re.compile(r"[^\s(){}\[\],;.`\"]+")
DECLARED = re.compile(r"^\s*(?:(?:abbrev|unfoldable|pub)\s+)*([^\s:(){}\[\],;\".]+)\s:(?:\s|$)")
HEAD = re.compile(r"^(?:(?:abbrev|unfoldable|pub)\s+)*(?:record|data)\s+(\S+)")
# What the toolchain names in proof files, and what a proof by hand calls its goals.
MADE = re.compile(r"^\s*(?:pub )?\S+ : tie\.|^\s*pub \S+-spec : ")


def read(path):
    with open(path, encoding="utf-8") as f:
        return f.read()


def snake(name):
    if "◌" in name:
        return name.replace("-", "_")
    if name[0].isupper():
        return name.replace("-", "_")
    name = name.replace("getD", "get_or")
    while re.search(r"[a-z0-9₀-₉][A-Z]", name):
        name = re.sub(r"([a-z0-9₀-₉])([A-Z])", lambda m: m.group(1) + "_" + m.group(2).lower(), name, count=1)
    return name.replace("-", "_")


def by_hand(path):
    return os.path.basename(path) == "Proof.antt"


def declared():
    names = {}
    for path in sorted(glob.glob("crates/*/specs/**/*.antt", recursive=True) + glob.glob("crates/*/proofs/**/*.antt", recursive=True)):
        for line in read(path).split("\n"):
            if line.lstrip().startswith("--"):
                continue
            m = DECLARED.match(line)
            if m and m.group(1) not in ("◌",):
                if by_hand(path) and MADE.match(line):
                    continue
                names.setdefault(m.group(1), set()).add(path)
            m = HEAD.match(line)
            if m:
                names.setdefault(m.group(1), set()).add(path)
    return names


# A lemma that would have its function's name; a name of one file that would fall together with one that it imports.
LEMMAS = """accepted-of by-rule in-a-row not-a-number clamped-each digits-mark digits-word element-in entries-needed entry-at fed-words first-true holder-entry holder-table mark-at
mark-from mark-words output-length place-entry place-in place-table record-at result-at sum-bits word-at words-needed""".split()
LOCAL = [
    ("replay_text/proofs/Compared.antt", "differs_at", "differing"),
    ("replay_text/proofs/compare/Proof.antt", "step_words", "right_words"),
    ("step_work/proofs/Counted.antt", "one_bit", "single_bit"),
]
# Constructors that one line declares together, and names that a file gives to what it imports.
TOGETHER = "roleA roleB roleC partA partB partC partD recordReadCall recordWriteCall".split()
# `specs.contracts` is a module of the toolchain's.
MOVED = ("answers", "Contracts", "Promised")


def pairs():
    kept = re.compile(r"^(invariant|decreases)-|-requires(-\d+)?$|^(loop|returns|overflow|slice|array)(-|$)")
    found = {name: snake(name) for name in TOGETHER}
    for name, paths in declared().items():
        if all(by_hand(p) for p in paths) and kept.search(name):
            continue
        new = name.replace("-", "_") + "_lem" if name in LEMMAS else snake(name)
        if new != name:
            found[name] = new
            # the words of an operator stand apart where it is used
            found.update((x, y) for x, y in zip(name.split("◌"), new.split("◌")) if x != y)
    return found


def in_tokens(text, names):
    return TOKEN.sub(lambda m: names.get(m.group(0), m.group(0)), text)


def in_logic(text, names):
    """All but what a comment says outside of backticks."""
    lines = text.split("\n")
    return "\n".join(in_backticks(x, names) if x.lstrip().startswith("--") else in_tokens(x, names) for x in lines)


def in_backticks(text, names):
    return re.sub(r"`[^`\n]*`", lambda m: in_tokens(m.group(0), names), text)


def in_source(text, names):
    """Clauses are what stands in braces after requires, ensures, ghost or invariant words; ghost use lines are whole."""
    out = []
    i = 0
    start = re.compile(r"ghost use [^;]*;|\b(?:requires|ensures|ghost|decreases)\b\*?[^{};\n]*\{|//[^\n]*")
    while True:
        m = start.search(text, i)
        if not m:
            out.append(text[i:])
            return "".join(out)
        out.append(text[i : m.start()])
        if m.group(0).startswith("//"):
            out.append(in_backticks(m.group(0), names))
            i = m.end()
        elif m.group(0).startswith("ghost use"):
            out.append(in_tokens(m.group(0), names))
            i = m.end()
        else:
            depth, j = 1, m.end()
            while depth:
                depth += {"{": 1, "}": -1}.get(text[j], 0)
                j += 1
            out.append(text[m.start() : m.end()] + in_tokens(text[m.end() : j], names))
            i = j


def change(path, text):
    if text != read(path):
        with open(path, "w", encoding="utf-8") as f:
            f.write(text)
        return 1
    return 0


def move():
    """The file that has a name of the toolchain's, and the paths that name it."""
    crate, old, new = MOVED
    os.rename("crates/%s/specs/%s.antt" % (crate, old), "crates/%s/specs/%s.antt" % (crate, new))
    path = "Rattle.%s.specs." % crate
    for p in glob.glob("crates/*/**/*", recursive=True):
        if p.endswith((".antt", ".rt")):
            text = read(p).replace(path + old + ".", path + new + ".")
            if p == "crates/%s/specs/Lib.antt" % crate:
                text = text.replace("mod " + old, "mod " + new)
            change(p, text)


def main():
    names = pairs()
    if "--names" in sys.argv:
        for old in sorted(names):
            print(old, names[old])
        return
    changed = 0
    for path, old, new in LOCAL:
        if os.path.exists("crates/" + path):
            change("crates/" + path, in_tokens(read("crates/" + path), {old: new}))
    move()
    for path in sorted(glob.glob("crates/*/**/*", recursive=True)):
        if path.endswith(".antt"):
            changed += change(path, in_logic(read(path), names))
        elif path.endswith(".rt"):
            changed += change(path, in_source(read(path), names))
        elif path.endswith(".edit"):
            text = read(path)
            changed += change(path, in_tokens(text, names) if "specs/" in text.split("\n")[0] else text)
    for path in sorted(glob.glob("*.md") + glob.glob("docs/**/*.md", recursive=True) + glob.glob("bench/*.md")):
        changed += change(path, in_backticks(read(path), names))
    print("respelled %d names in %d files" % (len(names), changed))


main()
