#!/usr/bin/env python3
"""Brings the repository's own definitions and lemmas to one spelling: words in snake case, types and modules in camel case.

usage: python3 tools/respell.py [--list]        at the top of the repository, once, after the library's names were brought over

A name of the repository's own is one that a file of crates/*/specs or crates/*/proofs defines (a definition, a lemma, a record or data type,
a field, a constructor), or a word with a dash that a file calls its own, as a variable. `next-stage` and `leastIn` become `next_stage` and `least_in`,
`Joint-level` becomes `JointLevel`, and a file `One-way.antt` becomes `OneWay.antt`. Names that the check makes from the source (what stands
behind `goal.`, and the steps of a proof's `c`, `w` and `l`) keep their spelling, and so do strings, and code, which has no such names. In comments,
README.md and docs/ a name between backticks is turned, and in comments the name of a type too. With --list it prints the table and writes nothing.
It stops where two names of one file would fall together, and does nothing where every name is spelled so already.
"""

import collections
import glob
import os
import re
import subprocess
import sys

TOKEN = r"[^\s(){}\[\];,.λ`\"@|⌜⌝]+"
DEFINES = re.compile(r"(?m)^\s*(?:pub )?(?:abbrev |unfoldable )?(?:pub )?(" + TOKEN + r")\s*(?:\([^()]*\)\s*|\{[^{}]*\}\s*)*:(?!:)")
TYPES = re.compile(r"(?m)^\s*(?:pub )?(?:abbrev )?(?:pub )?(?:record|data) (" + TOKEN + ")")
STANDS = re.compile(r"(?<![\w'?.-])[A-Za-z][\w']*(?:-[\w'?]+)+")  # a word with a dash that is no field
# what a file takes from the library, or from what the check makes of a function
LENT = re.compile(r"use (?:Rattle\.std|borrow|native|Prim|logic|denote|lib|mathlib|[\w.+*-]*\.Goals)\b[^{;\n]*\.\{([^}]*)\}")
MADE = re.compile(r"\b(?:goal|need)\.(" + TOKEN + ")")
BY_HAND = {"attained-within?": "attained_within_or_not"}  # what a plain rule would leave odd


def antt(pattern):
    return sorted(glob.glob("crates/*/" + pattern, recursive=True))


def read(path):
    with open(path, encoding="utf-8") as f:
        return f.read()


def bare(text):
    return re.sub(r"--[^\n]*", "", text)


def respelt(name):
    if name in BY_HAND:
        return BY_HAND[name]
    parts = [p for p in name.split("-") if p]
    if name[:1].isupper():
        return "".join(p[:1].upper() + p[1:] for p in parts)
    words = re.sub(r"(?<=[a-z0-9])([A-Z])", r"_\1", "_".join(parts))
    return words.lower() if re.search(r"[A-Z]", words) else words


def table():
    own, made = set(), set()
    for path in antt("specs/**/*.antt") + antt("proofs/**/*.antt"):
        text = bare(read(path))
        own |= set(DEFINES.findall(text)) | set(TYPES.findall(text))
        made |= set(MADE.findall(text))
    for path in antt("specs/**/*.antt") + antt("proofs/**/*.antt") + antt("src/**/*.rt"):
        text = re.sub(r'"[^"]*"', "", re.sub(r"//[^\n]*", "", bare(read(path))))
        lent = {w.split(" as ")[0].strip() for m in LENT.findall(text) for w in re.split("[,+]", m)}
        own |= {w for w in STANDS.findall(LENT.sub("", text)) if w not in lent}  # what a proof calls its variables
    own -= made
    odd = {n for n in own if re.fullmatch(r"[A-Za-z][\w'?-]*", n) and ("-" in n or re.search(r"^[a-z].*[A-Z]", n))}
    return {n: respelt(n) for n in sorted(odd) if respelt(n) != n}, own


def pattern_of(names):
    return re.compile(r"(?<![\w'?-])(" + "|".join(sorted(map(re.escape, names), key=len, reverse=True)) + r")(?![\w'?-])")


def turn(text, names, finder, proof):
    """The text with its own names respelt; in a proof, not the steps that the check names (behind `c.`, `w.`, `l.`)."""
    def one(m):
        before = text_line[: m.start()]
        if proof and re.search(r"(?<![\w'-])(?:c|w|l)(?:\.[^\s(){}\[\];,.]+)*\.$", before):
            return m.group(0)
        return names[m.group(1)]

    out = []
    for text_line in text.split("\n"):
        out.append(finder.sub(one, text_line))
    return "\n".join(out)


def halves(line, mark):
    """A line's text and its comment."""
    at = line.find(mark)
    return (line, "") if at < 0 else (line[:at], line[at:])


def by_line(text, mark, names, finder, proof):
    loud = {n for n in names if n[:1].isupper()}
    comments = pattern_of(loud) if loud else None
    out = []
    for line in text.split("\n"):
        head, tail = halves(line, mark)
        if '"' in head:
            pieces = head.split('"')
            head = '"'.join(turn(p, names, finder, proof) if i % 2 == 0 else p for i, p in enumerate(pieces))
        else:
            head = turn(head, names, finder, proof)
        tail = re.sub(r"`[^`]+`", lambda m: finder.sub(lambda k: names[k.group(1)], m.group(0)), tail)
        if comments:
            tail = comments.sub(lambda k: names[k.group(1)], tail)
        out.append(head + tail)
    return "\n".join(out)


def together(path, before, names, own):
    """Names of one file that would fall together. (A function of src/ may have the name of the word that its contract says it answers.)"""
    seen = collections.defaultdict(set)
    for token in own & set(re.findall(r"[A-Za-z][\w'?-]*", before)):
        seen[names.get(token, token)].add(token)
    return [f"{path}: {sorted(v)} would all be {k}" for k, v in seen.items() if len(v) > 1]


def main(argv):
    names, own = table()
    if "--list" in argv:
        for old, new in names.items():
            print(old, new)
        return 0
    if not names:
        return 0
    finder = pattern_of(names)
    files = [(p, "--") for p in antt("specs/**/*.antt") + antt("proofs/**/*.antt")] + [(p, "//") for p in antt("src/**/*.rt")]
    clashes = [c for p, mark in files for c in together(p, bare(read(p)) if mark == "--" else read(p), names, own)]
    if clashes:
        print("\n".join(clashes))
        return 1
    for path, mark in files:
        before = read(path)
        proof = bool(re.search(r"/(Answers|Invariants|Choices)\.antt$", path))
        after = by_line(before, mark, names, finder, proof)
        if after != before:
            with open(path, "w", encoding="utf-8") as f:
                f.write(after)
    for path in ["README.md"] + sorted(glob.glob("docs/*.md")):
        before = read(path)
        after = re.sub(r"`[^`\n]+`", lambda m: finder.sub(lambda k: names[k.group(1)], m.group(0)), before)
        if after != before:
            with open(path, "w", encoding="utf-8") as f:
                f.write(after)
    for path in antt("specs/**/*-*.antt") + antt("proofs/**/*-*.antt"):
        old = os.path.basename(path)[:-5]
        new = respelt(old)
        if not old[:1].isupper() or new == old:
            continue
        subprocess.run(["git", "mv", path, os.path.join(os.path.dirname(path), new + ".antt")], check=True)
        crate = path.split("/")[1]
        for other in antt("specs/**/*.antt") + antt("proofs/**/*.antt") + antt("src/**/*.rt"):
            before = read(other)
            after = re.sub(r"(?<=[. ])" + re.escape(old) + r"(?=[.\n;]|$)", new, before) if crate in other or f"Rattle.{crate}." in before else before
            if after != before:
                with open(other, "w", encoding="utf-8") as f:
                    f.write(after)
    return 0


if __name__ == "__main__":
    raise SystemExit(main(sys.argv[1:]))
