#!/usr/bin/env python3
"""Respells the repository's own names as today's Rattle spells them, once, after port.py: words in snake case, a function's proof under its name.

usage: tools/port_names.py      at the top of the repository, on the tree that port.py made of it

It turns .antt and .rt files below crates/ (not the strings of .rt), the texts of must-fail edits, and the names that docs/, README.md and
CONTRIBUTING.md cite. Functions of src/, exported C names, strings, inputs and outputs keep their names.
"""
import os
import re
import sys

WORD = re.compile(r"(?<![A-Za-z0-9])[a-z][a-z0-9]*[A-Z][A-Za-z0-9]*")
STRING = re.compile(r'"(?:[^"\\]|\\.)*"')
# A lemma that would fall together with the definition that it is about.
LEMMAS = {"graph/specs/Before.antt": {"fit_then": "fit_then_lem"}, "promises/specs/LargerSnapshots.antt": {"marks_then": "marks_then_lem"}}
# The library's `getD` is `get_or` now, so lemmas on it are too.
LIBRARY = [(re.compile(r"(?<![A-Za-z0-9_'-])getD(?![A-Za-z0-9_'])"), "get_or"), (re.compile(r"(?<![A-Za-z0-9_'-])get_d_(?=tabulate|words)"), "get_or-")]


def snake(word):
    word = re.sub(r"([A-Z]+)([A-Z][a-z])", r"\1_\2", word)
    return re.sub(r"([a-z0-9])([A-Z])", r"\1_\2", word).lower()


def turned(text):
    for pattern, new in LIBRARY:
        text = pattern.sub(new, text)
    return WORD.sub(lambda m: snake(m.group(0)), text)


def files(top, endings):
    for folder, dirs, names in os.walk(top):
        dirs[:] = sorted(d for d in dirs if d not in ("out", ".git"))
        for n in sorted(names):
            if n.endswith(endings):
                yield os.path.join(folder, n)


def read(path):
    with open(path, encoding="utf-8") as f:
        return f.read()


def write(path, text, old):
    if text != old:
        with open(path, "w", encoding="utf-8") as f:
            f.write(text)


def outside_strings(text):
    parts, at = [], 0
    for m in STRING.finditer(text):
        parts += [turned(text[at : m.start()]), m.group(0)]
        at = m.end()
    return "".join(parts) + turned(text[at:])


def proof_names():
    """The old name of each function's proof, `f-of-spec`, beside today's, `f_of_spec`."""
    names = {}
    for path in files("crates", ("Proof.antt",)):
        function = os.path.basename(os.path.dirname(path)).lstrip("+")
        names[function.replace("_", "-") + "-spec"] = function + "_spec"
    return names


def main():
    if not os.path.isdir("crates"):
        print("port_names: run it at the top of the repository", file=sys.stderr)
        return 2
    proofs = proof_names()
    spec = re.compile(r"(?<![\w'-])(" + "|".join(sorted(map(re.escape, proofs), key=len, reverse=True)) + r")(?![\w'-])")
    for path in files("crates", (".antt",)):
        old = read(path)
        text = old
        for lemma, new in next((v for k, v in LEMMAS.items() if path.endswith(k)), {}).items():
            text = re.sub(rf"(?<![\w'-]){lemma}(?![\w'-])", new, text)
        text = turned(text)
        if "/proofs/" in path:
            text = spec.sub(lambda m: proofs[m.group(1)], text)
        write(path, text, old)
    for path in files("crates", (".rt",)):
        old = read(path)
        write(path, outside_strings(old), old)
    for path in files("crates", (".edit",)):
        old = read(path)
        write(path, outside_strings(old), old)
    for path in [*files("docs", (".md",)), "README.md", "CONTRIBUTING.md"]:
        old = read(path)
        write(path, re.sub(r"`[^`\n]*`", lambda m: turned(m.group(0)), old), old)
    print(f"port_names: {len(proofs)} proofs")
    return 0


if __name__ == "__main__":
    raise SystemExit(main())
