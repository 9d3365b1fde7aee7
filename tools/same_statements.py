#!/usr/bin/env python3
"""Sets two checkouts beside each other: is every declaration of OLD's specs/ and lemma files in NEW, in the same crate, with the same statement
(of a definition: the same text) and within modules of the same parameters?

usage: tools/same_statements.py OLD NEW [--moved]

OLD is an older checkout after port.py and tools/respell.py, so that spellings agree. What differs is printed, old and new; the exit status is 1
if anything does. --moved prints, for each crate, which declarations stand in another file now.
"""

import collections
import glob
import os
import re
import sys

NAME = r"[^\s(){}.;,@\"«»\[\]:`]+"
MARKS = r"(?:(?:pub|abbrev|unfoldable|pattern|axiom)\s+)*"
DECLARED = re.compile(rf"^(\s*)({MARKS})(record\s+|data\s+)?(?:pub\s+)?({NAME})(?:\s*\{{[^}}]*\}})?\s*:(?:\s.*|)$")
SHAPED = re.compile(rf"^(\s*)({MARKS})(record\s+|data\s+)(?:pub\s+)?({NAME})\s*[({{].*$")
RENAMED = {"Proof.antt": "Theorem.antt", "Reads.antt": "ReadLaws.antt", "Met.antt": "Meeting.antt"}
MODULE = re.compile(r"^\s*module (\S+) ?(.*) where\s*$")


def plain(text):
    text = re.sub(r"\bpub\s+", "", text)
    text = re.sub(r"\s+", " ", text)
    text = re.sub(r"\(\s+", "(", text)
    text = re.sub(r",?\s+\)", ")", text)
    return re.sub(r";\s*}", " }", text).strip()


def declarations(path):
    """Each declaration: name, whether it is a definition, its lines, the parameters of the modules around it."""
    around, now = [], None
    with open(path, encoding="utf-8") as f:
        lines = f.read().split("\n")
    for line in lines:
        if not line.strip() or line.lstrip().startswith("--") or re.match(r"\s*(pub )?use ", line):
            continue
        depth = len(line) - len(line.lstrip())
        while around and depth <= around[-1][0]:
            around.pop()
        module = MODULE.match(line)
        if module:
            around.append((depth, plain(module[2])))
            now = None
            continue
        found = DECLARED.match(line) or SHAPED.match(line)
        if found and not line.strip().startswith(("let ", "in ", "(", "λ")):
            kind = bool(found[3]) or bool(re.search("abbrev|unfoldable", found[2]))
            now = (found[4], kind, [line.strip()], tuple(it for _, it in around))
            yield now
        elif now:
            now[2].append(line.strip())


def statement(name, lines):
    out = lines[:1]
    for line in lines[1:]:
        if line.startswith("unfolding") or re.match(re.escape(name) + r"(\s|$)", line):
            break
        out.append(line)
    return plain(re.sub(r"\b(abbrev|unfoldable)\s+", "", " ".join(out)))


def load(top):
    found = collections.defaultdict(list)
    for pattern in ("specs/**/*.antt", "proofs/*.antt"):
        for path in sorted(glob.glob(f"{top}/crates/*/{pattern}", recursive=True)):
            if os.path.basename(path) != "Lib.antt":
                crate = os.path.relpath(path, top).split(os.sep)[1]
                for name, kind, lines, around in list(declarations(path)):
                    body = plain(re.sub(r"\b(abbrev|unfoldable)\s+", "", " ".join(lines))) if kind else ""
                    found[crate, name].append((statement(name, lines), body, around, os.path.relpath(path, f"{top}/crates/{crate}")))
    return found


def main(argv):
    old, new = load(argv[0]), load(argv[1])
    count, differ, moved = 0, 0, collections.defaultdict(list)
    for (crate, name), items in sorted(old.items()):
        for said, body, around, path in items:
            count += 1
            same = [it for it in new.get((crate, name), []) if it[0] == said and it[1] == body and it[2] == around]
            if not same:
                differ += 1
                print(f"{crate} {name} ({path})\n  - {body or said}")
                for it in new.get((crate, name), []):
                    print(f"  + {it[1] or it[0]} ({it[3]})")
            elif path not in [it[3] for it in same]:
                module = os.path.basename(path)
                to = next((it[3] for it in same if os.path.basename(it[3]) == RENAMED.get(module, module)), same[0][3])
                moved[crate, path, to].append(name)
    if "--moved" in argv:
        for (crate, path, to), names in sorted(moved.items()):
            print(f"{crate}: {path} -> {to}: {' '.join(names)}")
    print(f"{count} declarations, {differ} differ")
    return 1 if differ else 0


if __name__ == "__main__":
    sys.exit(main(sys.argv[1:]))
