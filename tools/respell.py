#!/usr/bin/env python3
"""Respells this repository's own definitions and lemmas by the table respelled.tsv beside this script: functions in snake case, a dash
only between two names. Run once at the top of the repository, after the kit's port.py and before any edit by hand.

What turns: in crates/*/specs and crates/*/proofs every word of the table; in crates/*/src the clauses' words that no Rust name can be
(camel case, or with a dash) and so are definitions' alone; in must-fail edits the same. Comments turn with the code.
A name that is spelled like a function's and stands behind a dot, as a proof names a call, stays.
"""

import glob
import os
import re
import sys

WORD = re.compile(r'[^\s(){}.;,@"«»\[\]:`]+')
HERE = os.path.dirname(os.path.realpath(__file__))


def table():
    with open(os.path.join(HERE, "respelled.tsv"), encoding="utf-8") as f:
        return dict(line.rstrip("\n").split("\t") for line in f if line.strip())


def turned(text, names, antt, in_function):
    def one(m):
        word = m[0]
        new = names.get(word)
        if new is None:
            return word
        behind_dot = text[m.start() - 1 : m.start()] == "."
        plain = "-" not in word and not re.search("[a-z][A-Z]", word)
        if plain and (not antt or behind_dot):
            return word
        if in_function and behind_dot and "-" in word:
            return word
        return new

    return WORD.sub(one, text)


def main(root):
    names, count = table(), 0
    for pattern, antt in (("specs/**/*.antt", True), ("proofs/**/*.antt", True), ("src/**/*.rt", False), ("must-fail/*.edit", None)):
        for path in sorted(glob.glob(os.path.join(root, "crates/*", pattern), recursive=True)):
            with open(path, encoding="utf-8") as f:
                text = f.read()
            is_antt = antt if antt is not None else bool(re.search(r"(?m)^file: .*\.antt", text))
            below = os.path.relpath(path, root).split(os.sep)
            in_function = len(below) > 4 and below[2] == "proofs"
            new = turned(text, names, is_antt, in_function)
            if new != text:
                count += 1
                with open(path, "w", encoding="utf-8") as f:
                    f.write(new)
    print(f"respell: {count} files")


if __name__ == "__main__":
    main(sys.argv[1] if len(sys.argv) > 1 else ".")
