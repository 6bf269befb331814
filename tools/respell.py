#!/usr/bin/env python3
"""Respells the definitions and lemmas of this repository as today's Rattle spells words: in snake case.

usage: python3 tools/respell.py     once, at the top of the repository, right after the toolchain's port.py

Of every name that a specs/ or proofs/ file declares (answers to goals in a Proof.antt aside):
  noDomains -> no_domains        a definition, field, constructor or variable in lower camel case
  file-length -> file_length     a lemma whose dash joins plain words
A lemma whose new name a definition, function or word of std has already gets _lem behind it. Types and modules keep their
capital, functions of src/, strings and paths stay as they are. Comments follow, since they cite the names.
Prints each renamed name. A second run changes nothing.
"""

import os
import re
import sys

DECLARED = re.compile(r"^\s*(?:pub |abbrev |unfoldable )*([^\s:(){}=,;]+)\s*:(?!=)\s")
WORD = re.compile(r"[^\s(){}\[\];,.:λ\"«»@\\`]+")
TAKEN = "bit_and bit_or bit_xor".split()


def files(ends):
    for folder, dirs, names in os.walk("crates"):
        dirs[:] = sorted(d for d in dirs if d not in ("out", "must-fail"))
        for n in sorted(names):
            if n.endswith(ends):
                yield os.path.join(folder, n)


def read(path):
    with open(path, encoding="utf-8") as f:
        return f.read()


def is_walk(path):
    return os.path.basename(path) == "Proof.antt"


def declared():
    """The names that specs/ and lemma files declare, and those that walks declare for themselves."""
    shared, own = set(), {}
    for path in files(".antt"):
        for line in read(path).split("\n"):
            m = DECLARED.match(line)
            if not m or line.strip().startswith("--"):
                continue
            if not is_walk(path):
                shared.add(m.group(1))
            elif " tie." not in line and "statement M" not in line:
                own.setdefault(path, set()).add(m.group(1))
    return shared, own


def snake(name):
    return re.sub(r"(?<=[a-z0-9])(?=[A-Z])|(?<=[A-Z])(?=[A-Z][a-z])", "_", name).lower()


def is_camel(name):
    return name[0].islower() and re.search(r"[a-z0-9][A-Z]", name) is not None


def renamings():
    shared, own = declared()
    words = {w for path in files(".antt") for w in WORD.findall(read(path))}
    words |= {w for path in files(".rt") for line in read(path).split("\n") if line.startswith("ghost use") for w in re.findall(r" as (\w+)", line)}
    camel = {n: snake(n).replace("-", "_") for n in sorted(words) if is_camel(n)}
    if len(set(camel.values())) != len(camel):
        sys.exit("two definitions fall together")
    taken = set(camel.values()) | {n for n in shared if "-" not in n} | set(TAKEN)
    dashed = {n: n + "_lem" for n in shared if n in camel.values()}
    for n in sorted(n for n in shared if "-" in n and n not in camel):
        new = n.replace("-", "_")
        dashed[n] = new + "_lem" if new in taken else new
    if len(set(dashed.values())) != len(dashed):
        sys.exit("two lemmas fall together")
    return camel, dashed, own


def imported(text):
    """The names that a file takes from its own repository's specs/ and lemma files."""
    names = set()
    for m in re.finditer(r"use Rattle\.\w+\.(?:specs|proofs)\.[^\s{]*\{([^}]*)\}", text):
        names |= {n.strip().split(" ")[0] for n in m.group(1).split(",")}
    return names


def turned(path, text, camel, dashed, own):
    names = dict(camel)
    if path.endswith(".antt"):
        names |= dashed if not is_walk(path) else {n: dashed[n] for n in imported(text) if n in dashed}
        names |= {n: snake(n).replace("-", "_") for n in own.get(path, ()) if n not in names and ("-" in n or is_camel(n))}

    def one(m):
        word, near = m.group(0), m.string[max(m.start() - 1, 0) : m.start()] + m.string[m.end() : m.end() + 1]
        # a step of a walk, or a folder of a path, is no lemma
        is_step = word not in camel and "." in near and (is_walk(path) or "-" not in word)
        return word if is_step else names.get(word, word)

    pieces = re.split(r'("(?:[^"\\\n]|\\.)*")', text) if path.endswith(".rt") else [text]
    return "".join(p if k % 2 else WORD.sub(one, p) for k, p in enumerate(pieces))


def main():
    camel, dashed, own = renamings()
    for path in files((".antt", ".rt")):
        text = read(path)
        new = turned(path, text, camel, dashed, own)
        if new != text:
            with open(path, "w", encoding="utf-8") as f:
                f.write(new)
    for old, new in sorted((camel | dashed).items()):
        print(f"{old} -> {new}")


main()
