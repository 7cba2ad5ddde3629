#!/usr/bin/env python3
"""Brings the names of this repository's own definitions and lemmas to the spelling of today's Rattle.

usage: python3 tools/spelling.py        at the top of the repository, after the kit's port.py

Types, modules and statements are in upper camel case, all else in snake case. In the name of a lemma a dash stays where it
joins the names of two definitions. Names of Rust items, goals and of the library stay as they are. It is meant to be run
once; a second run changes nothing.
"""

import glob
import re

WORD = r"[^\s(){}\[\];,.λ\"`:◌]+"
SIGNATURE = re.compile(rf"^\s*((?:abbrev |unfoldable |pub )*)(?:(data|record|ruleset) (?:pub )?)?({WORD}(?: {WORD})*) :(?: |$)")
GOAL = re.compile(r": (?:goal|given)\.")
TOKEN = re.compile(r"[^\s(){}\[\];,.λ\"`]+")
JOINABLE = {"length", "take", "drop", "map", "reverse", "append", "nth", "get_or", "cond", "omega"}


def own_names(paths):
    """Each name that a file of specs/ or proofs/ gives, with whether it is a definition, and not a lemma."""
    names, fields = {}, set()
    for path in paths:
        in_record = False
        for line in open(path, encoding="utf-8"):
            text = line.rstrip("\n")
            if text.lstrip().startswith(("--", "use ", "pub use ")):
                continue
            if text and not text[0].isspace():
                in_record = bool(re.match(r"(?:pub )?(record|data) ", text))
            found = SIGNATURE.match(text)
            if not found or GOAL.search(text) or "=" in found.group(3):
                continue
            definition = bool(found.group(1).strip() not in ("", "pub") or found.group(2) or in_record)
            for name in found.group(3).split():
                names[name] = names.get(name, False) or definition
                if in_record:
                    fields.add(name)
    return names, fields


def other_names(paths):
    """Each name that a file gives to an import."""
    return {n for p in paths for n in re.findall(rf" as ({WORD})(?=[,}}])", open(p, encoding="utf-8").read())}


def camel_to_snake(word):
    return re.sub(r"(?<=[a-z0-9])([A-Z])", lambda m: "_" + m.group(1).lower(), word)


def respelled(name, definition, definitions):
    first = name[0]
    if "-" in name and first.isascii() and first.isupper():
        return "".join(part[:1].upper() + part[1:] for part in name.split("-"))
    if not (first.isalpha() and first.islower()):
        return name
    parts = [camel_to_snake(part) for part in name.split("-")]
    if len(parts) == 1 or definition:
        return "_".join(parts)
    for i in range(1, len(parts)):
        left, right = "_".join(parts[:i]), "_".join(parts[i:])
        if left in definitions and right in definitions:
            return left + "-" + right
    return "_".join(parts)


def library_names(paths):
    """The names that files take from elsewhere."""
    taken = set()
    crates = set(line.split(":")[0].split()[0] for line in open("crates.txt") if line.strip() and not line.startswith("#"))
    for path in paths:
        for found in re.finditer(r"use ((?:\w|[.+'])+)\.\{([^}]*)\}", open(path, encoding="utf-8").read()):
            root = found.group(1).split(".")
            if root[0] == "Rattle" and root[1] in crates and "declared" not in root and "Goals" not in root:
                continue
            taken.update(part.split(" as ")[0].strip() for part in found.group(2).split(","))
    return taken


def main():
    antt = [p for p in glob.glob("crates/**/*.antt", recursive=True) if "/out/" not in p]
    sources = [p for p in glob.glob("crates/**/*.rt", recursive=True) if "/out/" not in p]
    names, fields = own_names(antt)
    names.update((n, True) for n in other_names(antt + sources) if n not in names)
    definitions = {respelled(n, True, set()) for n, d in names.items() if d and len(n) > 1} | JOINABLE
    taken = library_names(antt + sources)
    table = {}
    for name, definition in names.items():
        new = respelled(name, definition, definitions)
        if new == name:
            continue
        if name in taken:
            print(f"kept: {name} is a name of the library, too")
            continue
        table[name] = new
    texts = [open(p, encoding="utf-8").read() for p in antt + sources]
    news = {}
    for old, new in table.items():
        news.setdefault(new, []).append(old)
    for new, olds in sorted(news.items()):
        apart = not any(all(re.search(rf"(?<![\w-]){re.escape(old)}(?![\w-])", text) for old in olds) for text in texts)
        if (len(olds) > 1 and not apart) or new in names or new in taken:
            print(f"falls together: {', '.join(olds)} -> {new}" + (" (own)" if new in names else "") + (" (library)" if new in taken else ""))
            for old in olds:
                table.pop(old)

    def turn(text):
        def word(found):
            token = found.group(0)
            core = token.rstrip("'")
            for key in (token, core):
                if key in table:
                    before = text[: found.start()]
                    if before.endswith(".") and key not in fields:
                        return token
                    return table[key] + token[len(key):]
            return token

        return TOKEN.sub(word, text)

    def turn_ticks(text):
        """Prose has names of ours in ticks alone."""
        return re.sub(r"`[^`\n]*`", lambda m: TOKEN.sub(lambda f: table.get(f.group(0), f.group(0)), m.group(0)), text)

    def turn_line(line, comment):
        code, mark, prose = line.partition(comment)
        return turn(code) + mark + turn_ticks(prose)

    for path in antt + sources + ["README.md"] + glob.glob("docs/*.md"):
        before = open(path, encoding="utf-8").read()
        comment = {"antt": "--", "rt": "//"}.get(path.rsplit(".", 1)[1])
        after = "\n".join(turn_line(line, comment) for line in before.split("\n")) if comment else turn_ticks(before)
        if after != before:
            open(path, "w", encoding="utf-8").write(after)
    for old, new in sorted(table.items()):
        print(f"{old} -> {new}")


if __name__ == "__main__":
    main()
