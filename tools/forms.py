#!/usr/bin/env python3
"""Lists where src/ has forms that the language has a plainer one for; docs/DESIGN-PASS.md says what became of each.

usage: tools/forms.py [--list] [COMMIT]

Of a commit, or of the files as they are. Each point is found by its look alone, so a place listed is a place to judge:
  1 enums of cases without fields and at most one with; structs with a bool, kind or refusal beside other fields; functions that answer a u8
  2 functions that read the same once names and numbers are left out
  3 loops that are no `for`
  4 functions whose body is one match on their argument, or one cast
  5 requirements that stand word for word in three functions or more; two or more parameters that stand together in three or more
  6 structs with arrays and a count beside them; functions that take arrays or slices together with a count
  7 function pointers, `dyn`, and tables of functions
  8 answers, invariants and own lemmas in proofs/
"""
import re
import subprocess
import sys

shown = "--list" in sys.argv
args = [a for a in sys.argv[1:] if a != "--list"]
if args and args[0] in ("-h", "--help"):
    sys.exit(__doc__)
commit = args[0] if args else None


def git(*words):
    return subprocess.run(["git", *words], capture_output=True, text=True, check=True).stdout


def files(pattern):
    if commit:
        names = [n for n in git("ls-tree", "-r", "--name-only", commit, "crates").split("\n") if re.search(pattern, n)]
        return [(n, git("show", f"{commit}:{n}")) for n in names]
    names = git("ls-files", "--cached", "--others", "--exclude-standard", "crates").split("\n")
    out = []
    for n in sorted(set(names)):
        if re.search(pattern, n):
            try:
                out.append((n, open(n).read()))
            except FileNotFoundError:
                pass
    return out


class Function:
    def __init__(self, place, name, params, answer, clauses, body):
        self.place, self.name, self.params, self.answer, self.clauses, self.body = place, name, params, answer, clauses, body


def matching(text, at, opening, closing):
    depth = 0
    for i in range(at, len(text)):
        depth += {opening: 1, closing: -1}.get(text[i], 0)
        if depth == 0:
            return i
    return len(text)


def plain(text):
    return re.sub(r"//[^\n]*", "", text)


def functions(name, text):
    crate = name.split("/")[1]
    text = plain(text)
    for m in re.finditer(r"\bfn (\w+)(?:<[^>]*>)?\(", text):
        if not re.search(r"(^|\n)\s*(pub(\(\w+\))? )?(const )?(extern \"C\" )?$", text[: m.start()]):
            continue
        end = matching(text, m.end() - 1, "(", ")")
        params = [" ".join(p.split()) for p in re.split(r",(?![^<\[(]*[>\])])", text[m.end() : end]) if p.strip()]
        brace = re.compile(r"\n\s*\{\n").search(text, end)
        one_line = re.compile(r" \{\n").search(text, end)
        head = text[end + 1 : brace.start() if brace else len(text)]
        answer = re.match(r"\s*->\s*([^\n{]*)", head)
        start = brace.end() - 2 if brace else end
        if one_line and (not brace or one_line.start() < brace.start()) and "ensures" not in text[end : one_line.start() + 1] and "requires" not in text[end : one_line.start() + 1]:
            start, head = one_line.end() - 2, ""
        stop = matching(text, start, "{", "}")
        clauses = re.findall(r"requires[^{]*\{ (.*) \}", head)
        yield Function(f"{crate}::{m.group(1)}", m.group(1), params, answer.group(1).strip() if answer else "", clauses, text[start + 1 : stop])


def shape(f):
    words = re.findall(r"\w+|[^\w\s]", " ".join(f.params) + " -> " + f.answer + " " + f.body)
    keep = {"if", "while", "for", "match", "return", "let", "mut", "as", "in", "&", "u8", "u16", "u32", "u64", "usize", "bool"}
    names = {}
    return " ".join(w if w in keep or not re.match(r"\w", w) else names.setdefault(w, f"v{len(names)}") if not w[0].isdigit() else "0" for w in words)


sources = files(r"^crates/[^/]*/src/.*\.rt$")
fns = [f for n, t in sources for f in functions(n, t)]
points = {k: [] for k in range(1, 9)}

for n, t in sources:
    crate = n.split("/")[1]
    t = plain(t)
    for m in re.finditer(r"\n(?:pub )?enum (\w+)[^{]*\{", t):
        body = t[m.end() : matching(t, m.end() - 1, "{", "}")]
        flat = re.sub(r"\{[^}]*\}", "()", body)
        cases = [c.strip() for c in flat.split(",") if c.strip()]
        if sum("(" in c for c in cases) <= 1:
            points[1].append(f"enum {crate}::{m.group(1)}")
    for m in re.finditer(r"\n(?:pub )?struct (\w+)[^{;]*\{", t):
        body = t[m.end() : matching(t, m.end() - 1, "{", "}")]
        fields = re.findall(r"(\w+): ([^,\n]+)", body)
        if len(fields) > 1 and any(ty == "bool" or fn in ("kind", "refusal") for fn, ty in fields):
            points[1].append(f"struct {crate}::{m.group(1)}")
        if any(ty.startswith("[") for _, ty in fields) and any(fn in ("count", "saved", "len", "n") for fn, _ in fields):
            points[6].append(f"struct {crate}::{m.group(1)}")
    for m in re.finditer(r"\n +(while|loop) [^\n]*", t):
        before = re.findall(r"\bfn (\w+)", t[: m.start()])
        points[3].append(f"{crate}::{before[-1] if before else '?'}: {m.group(0).strip()}")
    points[7] += [f"{crate}: {m.group(0).strip()}" for m in re.finditer(r"[^\n]*(\bdyn |: fn\(|&fn\(|\[fn\()[^\n]*", t)]

shapes = {}
for f in fns:
    if f.answer == "u8":
        points[1].append(f"fn {f.place} -> u8")
    body = " ".join(f.body.split())
    if len(body) > 12:
        shapes.setdefault(shape(f), []).append(f.place)
    if re.fullmatch(r"match \w+(\.\w+)? \{.*\}", body) and len(f.params) == 1 or re.fullmatch(r"\w+ as \w+", body):
        points[4].append(f.place)
    if any("[" in p for p in f.params) and any(re.match(r"(n|count|len|saved|size): (usize|u64)", p) for p in f.params):
        points[6].append(f"fn {f.place}")
points[2] = [" = ".join(g) for g in shapes.values() if len(g) > 1]
needs = {}
for f in fns:
    for c in f.clauses:
        for part in re.split(r" × ", c):
            needs.setdefault(re.sub(r"^\((.*)\)$", r"\1", part), set()).add(f.place)
points[5] = [f"{k}  ({len(v)})" for k, v in needs.items() if len(v) >= 3]
together = {}
for f in fns:
    ps = [p for p in f.params if not p.startswith(("self", "&self", "&mut self"))]
    for i in range(len(ps) - 1):
        if all(re.search(r"&", p) for p in ps[i : i + 2]):
            together.setdefault(", ".join(ps[i : i + 2]), set()).add(f.place)
points[5] += [f"{k}  ({len(v)})" for k, v in together.items() if len(v) >= 3]
for n, t in files(r"^crates/[^/]*/proofs/.*\.antt$"):
    if n.endswith("/Answers.antt"):
        points[8] += [f"{n.split('/')[1]}: {g}" for g in re.findall(r"^pub ([\w-]+) : goal", t, re.M)]
    elif n.endswith("/Invariants.antt"):
        points[8] += [f"{n.split('/')[1]}: {g}" for g in re.findall(r"^abbrev pub ([\w-]+) : goal", t, re.M)]
for k, v in points.items():
    print(f"{k}: {len(v)}")
    if shown:
        print("".join(f"    {x}\n" for x in sorted(v)), end="")
