#!/usr/bin/env python3
"""Lists the places in crates/*/src where an older form of Rust may stand, by kind, with a count for each kind.

usage: python3 tools/places.py [-v] [FOLDER]     FOLDER is a checkout (this one if left out); -v prints each place

A place is a function, or a line outside of functions. It goes by text, and what it lists is to be read: a
place may be a false find, or be kept for a reason written beside it. Conversions by `from` and `try_from` are what is wanted.
"""

import collections
import glob
import re
import sys

verbose = "-v" in sys.argv[1:]
folders = [a for a in sys.argv[1:] if a != "-v"]
top = folders[0] if folders else "."
files = sorted(glob.glob(f"{top}/crates/*/src/**/*.rt", recursive=True))
found = collections.OrderedDict()


def place(kind, path, line, text, where=None):
    """Notes a place: one for each kind and function (or line, where no function is given)."""
    places = found.setdefault(kind, collections.OrderedDict())
    places.setdefault((path, where or line), (line, " ".join(text.split())))


def functions(text):
    """Each function: line, signature up to the body, the clauses, the body."""
    for m in re.finditer(r"^( *)(?:pub(?:\([a-z]+\))? )?(?:const )?fn (\w+)", text, re.M):
        indent = m.group(1)
        end = re.compile(rf"^{indent}\}}$", re.M)
        opened = re.compile(rf"^(?:{indent}\{{|{indent}(?:pub.*|const.*|fn.*|\) .*)\{{)$", re.M).search(text, m.start())
        stop = end.search(text, opened.end() if opened else m.end())
        if not opened or not stop:
            continue
        head = text[m.start():opened.end()]
        clauses = re.findall(r"^\s*(requires|ensures) ?(\w*) ?\{ (.*) \}$", head, re.M)
        signature = re.split(r"^\s*(?:requires|ensures)\b", head, maxsplit=1, flags=re.M)[0]
        yield text.count("\n", 0, m.start()) + 1, m.group(2), " ".join(signature.split()), clauses, text[opened.end():stop.end()]


KINDS = [
    ("1 a number in a pattern, an arm or a field that stands for a kind",
     r"\bkind: \d|=> \(\d+, |^\s*\d+ => (?:Some|Ok)\(\w|^\s*\d+ => \"|=> \d+,$|\bKIND_\w+"),
    ("1 an answer of 0 that says nothing", r"^    0$"),
    ("3 a loop over a range", r"\bfor \w+ in \(?[\w.()]+\.\."),
    ("3 an index worked out by hand", r"\w\[[^\]\[]*\b(?:len\(\)|\w+) ?- ?1[^\]]*\]|\w\[\w+\]|\w\.len\(\) - "),
    ("4 a cast", r"\w\)? as (?:u8|u16|u32|u64|usize|i64|i128|f64)\b"),
    ("4 a newtype for printing", r"^pub struct \w+\(pub \w+\);"),
    ("6 a vector beside a ghost capacity", r"^\s*ghost \w+: \{ [\w+ ]+ ≤ vec_capacity \w+ \}"),
    ("6 an index into an arena, as a field", r"^\s*(?:pub )?(?:left|right|function|argument|body|bound|condition|yes|no): usize"),
    ("6 an array with a count", r"\[Node \{|\[\w+; \d+\]"),
    ("7 a match on which operation or domain to run", r"\bmatch (?:op|case\.bottom)\b|Op::\w+ => |Bottom::\w+ => "),
]

clauses_of = collections.defaultdict(set)
pairs_of = collections.defaultdict(set)
bodies = collections.defaultdict(list)
for path in files:
    text = open(path, encoding="utf-8").read()
    code = [re.sub(r"//.*", "", line) for line in text.split("\n")]
    inside = "items"
    for number, line in enumerate(code, 1):
        begun = re.match(r" *(?:pub(?:\([a-z]+\))? )?(?:const )?fn (\w+)", line)
        if begun:
            inside = f"fn {begun.group(1)} {number}"
        elif re.match(r"\S", line) and not re.match(r"[{})]|where\b", line):
            inside = "items"
        for kind, pattern in KINDS:
            if re.match(r"ghost use|use ", line) or re.match(r"fn (?:try_)?from ", inside):
                continue
            if re.search(pattern, line):
                place(kind, path, number, line, None if inside == "items" else inside)
    for number, name, signature, clauses, body in functions(text):
        if "&mut" in signature and re.search(r"-> bool(?: \{)?$", signature):
            place("1 a flag beside an effect", path, number, signature)
        for _, _, clause in clauses:
            fact = re.sub(r"\b(?:self|code|owed|path|work|out|nodes)\.(old|new)\b", r"x.\1", clause)
            clauses_of[fact].add((path, number, name))
        listed = re.sub(r"^[^(]*|<[A-Z]\w*: [^(]*>(?=\()", "", signature)
        names = [p for p in re.findall(r"(\w+): (&?(?:mut )?[\w\[\]<>&]+)", listed) if p[0] not in ("f", "rt")]
        for i, a in enumerate(names):
            for b in names[i + 1:]:
                pairs_of[(a, b)].add((path, number, name))
        shape = re.sub(r"\b\d[\w_]*\b", "N", re.sub(r"\b[A-Z]\w*\b", "T", body))
        shape = re.sub(r"\s+", " ", re.sub(r"//.*", "", shape)).strip(" }")
        if len(shape) > 12:
            bodies[shape].append((path, number, name))

for fact, where in clauses_of.items():
    if len(where) >= 3 and re.search(r"≤|capacity|Measured|len ", fact):
        for path, number, name in sorted(where):
            place("5 a fact in three contracts or more", path, number, f"{name}: {fact}", f"{name}: {fact}")
for (a, b), where in pairs_of.items():
    if len(where) >= 3:
        for path, number, name in sorted(where):
            place("5 parameters that travel together", path, number, f"{name}: {a[0]}: {a[1]}, {b[0]}: {b[1]}", f"{name} {number} {a} {b}")
for shape, where in bodies.items():
    if len(where) >= 2:
        for path, number, name in where:
            place("2 bodies alike but for types and numbers", path, number, f"{name}: {shape[:60]}")

for kind in sorted(found):
    print(f"{len(found[kind]):4}  {kind}")
    if verbose:
        for (path, _), (number, text) in found[kind].items():
            print(f"        {path[len(top) + 1:]}:{number}: {text[:110]}")
