#!/usr/bin/env python3
"""Spells the project's own definitions and lemmas in snake case, in every crate's definitions, contracts, proofs and edits.

Run once, at the top, after the kit's script port.py. Functions of src/, exported names and strings are not spelled in
camel case here, so no name of theirs is met.
"""
import glob
import re
import sys

# Variables of one proof, and names that the toolchain makes from the code.
KEPT = {"cB", "dA", "eB", "lL", "extA", "extR", "lmA", "fromX", "fromY", "toY", "x4A", "read_Some"}

# Lemmas that would fall together with the definition that they are about.
LEMMAS = {"same_row": "same-row", "runs_on": "runs-on"}

WORD = re.compile(r"(?<![A-Za-z0-9_'])[a-z][a-z0-9_]*[A-Z][A-Za-z0-9_']*")
STRING = re.compile(r"""b?"(?:[^"\\]|\\.)*"|b?'(?:[^'\\]|\\.)'""")


def snake(word):
    word = word.replace("getD", "get_or")
    word = re.sub(r"(?<=[a-z0-9])([A-Z])", r"_\1", word)
    word = re.sub(r"(?<=[A-Z])([A-Z])(?=[a-z])", r"_\1", word)
    return word.lower()


def spelled(match):
    word = match.group(0)
    if word in KEPT:
        return word
    return snake(word)


def respell(text, rust, first):
    if not rust:
        for old, new in LEMMAS.items() if first else ():
            text = re.sub(rf"(?<![A-Za-z0-9_'-]){old}(?![A-Za-z0-9_'-])", new, text)
        return WORD.sub(spelled, text)
    parts, last = [], 0
    for s in STRING.finditer(text):
        parts += [WORD.sub(spelled, text[last : s.start()]), s.group(0)]
        last = s.end()
    return "".join(parts + [WORD.sub(spelled, text[last:])])


def main():
    texts = {}
    for path in sorted(glob.glob("crates/*/**/*", recursive=True)):
        if "/out/" not in path and path.endswith((".antt", ".rt", ".edit")):
            with open(path, encoding="utf-8") as file:
                texts[path] = file.read()
    # The definitions are in snake case from the second run on, so what is spelled like them then is no lemma.
    first = any(re.search(r"\bsameRow\b", text) for text in texts.values())
    changed = 0
    for path, old in texts.items():
        new = respell(old, path.endswith((".rt", ".edit")), first)
        if new != old:
            changed += 1
            with open(path, "w", encoding="utf-8") as file:
                file.write(new)
    print(f"{changed} files spelled anew", file=sys.stderr)


if __name__ == "__main__":
    main()
