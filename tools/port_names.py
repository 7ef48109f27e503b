#!/usr/bin/env python3
"""Brings the names of the repository's own definitions and lemmas to today's spelling.

usage: python3 tools/port_names.py [--list]    at the top of the repository, once, after port.py

Functions, lemmas, fields and constructors are in snake case, facts and types in upper camel case. A dash stays in a
lemma's name between two names of definitions ('length-lay'); every other dash becomes an underscore ('back_pushed').
Functions of src/ keep their names. --list prints the table and writes nothing.
"""
import os
import re
import sys

IDENT = r"[^\s(){}.,;@\"«»λ|↦?\[\]]+"
WORD = re.compile(r"[^\s(){}.,;@\"«»\[\]`]+")
# what std calls the words that lemmas of ours are about
STD = {"length", "take", "drop", "append", "get_or", "set", "map", "reverse", "min", "max", "cons", "repeat", "replicate"}
# names of the library that port.py turned where they stood alone
LIBRARY = {"getD": "get_or", "replicate": "repeat"}
FACTS = {"sorted": "IsSorted"}
# a fact in the crate walks, where no function has this name
FACTS_OF_WALKS = {"found": "IsFound"}
MODULES = re.compile(r"^[A-Z]")
# fields of records of lemmas that have a dash; any other word with a dash behind a dot is the check's own
FIELDS = {"same-there", "first-less", "slots-a", "slots-b", "fit-a", "fit-b", "low-high", "high-len", "free-too"}


def files(ending):
    for folder, dirs, names in os.walk("crates"):
        dirs[:] = sorted(d for d in dirs if d != "out")
        for name in sorted(names):
            if name.endswith(ending):
                yield os.path.join(folder, name)


def read(path):
    with open(path, encoding="utf-8") as f:
        return f.read()


def declared():
    """Each name that a file of specs/ or proofs/ declares, and where: its kinds are 'spec', 'lemma' and 'walk'."""
    kinds = {}
    for path in files(".antt"):
        kind = "spec" if "/specs/" in path else "walk" if path.endswith("/Proof.antt") else "lemma"
        for line in re.sub(r"\n\s+: ", " : ", read(path)).splitlines():
            if line.lstrip().startswith("--"):
                continue
            m = re.match(rf"^\s*(?:(?:pub|unfoldable|abbrev)\s+)*({IDENT}(?: {IDENT})*)\s+:(?:\s+(.*)|())$", line)
            if not m:
                continue
            for name in m.group(1).split():
                if name in ("pub", "let", "in", "use", "module", "where", "record", "data", "_"):
                    continue
                if name.startswith("put-digits-") or name[0] in "μ!":
                    continue
                if kind == "walk" and re.search(r"(tie|lts)\.|\{M : Type|goal\.", m.group(2) or ""):
                    continue
                kinds.setdefault(name, set()).add(kind)
            for name in re.findall(rf"[({{]({IDENT}(?: {IDENT})*) : ", (m.group(2) or "")):
                for one in name.split():
                    kinds.setdefault(one, set()).add("local")
    return kinds


def snake(part):
    return re.sub(r"(?<=[a-z0-9'])([A-Z])", lambda m: "_" + m.group(1).lower(), part) if part[:1].islower() else part


def table():
    kinds = declared()
    specs = {n for n, k in kinds.items() if "spec" in k and "-" not in n} | STD

    def spelled(name):
        if name in FACTS:
            return FACTS[name]
        parts = name.split("-")
        if any(p == "" or MODULES.match(p) for p in parts):
            return name
        out = snake(LIBRARY.get(parts[0], parts[0]))
        for before, part in zip(parts, parts[1:]):
            both = LIBRARY.get(before, before) in specs and LIBRARY.get(part, part) in specs
            out += ("-" if both else "_") + snake(LIBRARY.get(part, part))
        return out

    # of names that fall together a definition has the plain one, and a lemma '_lem' behind it
    turned = {n: spelled(n) for n in sorted(kinds) if spelled(n) != n}
    back = {}
    for name in set(kinds) | set(turned):
        back.setdefault(turned.get(name, name), set()).add(name)
    for new, olds in back.items():
        for old in olds:
            if len(olds) > 1 and ("-" in old or "spec" not in kinds[old] and "_" in old):
                turned[old] = new + "_lem"
    return turned


def turn(text, names, behind_dots):
    """text with each whole word of it that stands in names; one behind a dot only if it stands in behind_dots."""

    def one(m):
        word = m.group(0)
        if m.start() and text[m.start() - 1] == "." and word not in behind_dots:
            return word
        return names.get(word, word)

    return WORD.sub(one, text)


def prose(text, names):
    """A comment's text: what cannot be a word of English."""
    return WORD.sub(lambda m: names.get(m.group(0), m.group(0)) if re.search("[a-z][A-Z]", m.group(0)) else m.group(0),
                    text)


def main():
    names = table()
    if len(set(names.values())) < len(names):
        raise SystemExit("two names fall together: give one of them another in this script")
    if "--list" in sys.argv:
        for old in sorted(names):
            print(old, names[old], sep="\t")
        return
    # a name behind a dot is a field, or what the check makes of the source: the latter keeps its spelling here
    fields = {n for n in names if "-" not in n} | FIELDS
    for path in list(files(".antt")) + list(files(".rt")) + list(files(".edit")):
        before = read(path)
        mark = "//" if path.endswith(".rt") else "--"
        lines = []
        for line in before.split("\n"):
            code, sep, comment = line, "", ""
            if not path.endswith(".edit"):
                m = re.search(r"(?:^|(?<=\s))" + mark, line)
                if m:
                    code, sep, comment = line[: m.start()], mark, line[m.end():]
            here = {**names, **FACTS_OF_WALKS} if path.startswith("crates/walks/proofs/") else names
            lines.append(turn(code, here, fields) + sep + prose(comment, names))
        after = "\n".join(lines)
        if after != before:
            with open(path, "w", encoding="utf-8") as f:
                f.write(after)


main()
