#!/usr/bin/env python3
"""Spells the repository's own definitions and lemmas as its Rattle does: words in snake case, facts and modules in camel case.

Run once, at the top of the repository, right after the toolchain's own port script. It takes the names that stand in specs/, those that the
lemma files of proofs/ declare and those that imports make, and changes them wherever they stand as a whole name: in specs/, in proofs/, in the clauses of src/, and
between backquotes in README.md and docs/. Names that the checker makes (goals, steps) are not declared there, and stay.
"""
import pathlib
import re
import sys

NAME = r"[^\s(){}\[\]:=,;.`λ→]+"
HEAD = re.compile(r"(?:(?:abbrev|unfoldable|pub|data|record)\s+)*(" + NAME + r")\s*:(?![:=])")
FIELD = re.compile(r"\s+(?:pub\s+)?(" + NAME + r")\s+:\s")
ALIAS = re.compile(r"\bas ([\w'-]+)")
TOKEN = re.compile(r"[\w'-]+")

# A fact that was spelled as a value.
FACTS = {"less-signed": "LessSigned"}


def spelled(name):
    if name in FACTS:
        return FACTS[name]
    if "-" not in name and not re.search(r"[a-z][A-Z]", name):
        return name
    if name[0].isupper():
        return "".join(part[:1].upper() + part[1:] for part in name.split("-"))
    words = re.sub(r"(?<=[a-z])(?=[A-Z])", "-", name)
    return words.lower().replace("-", "_")


def declared(root):
    names = set()
    for path in root.glob("crates/*/proofs/*.antt"):
        names |= names_of(path)
    library = set()
    for path in root.glob("crates/*/specs/**/*.antt"):
        for line in path.read_text(encoding="utf-8").splitlines():
            tokens = set(TOKEN.findall(line.split("--")[0]))
            if line.startswith("use "):
                if not any(line.startswith(f"use Rattle.{c.name}.") for c in root.glob("crates/*")):
                    library |= tokens
                names |= set(ALIAS.findall(line))
            else:
                names |= tokens
    for path in root.glob("crates/*/src/**/*.rt"):
        for line in path.read_text(encoding="utf-8").splitlines():
            if line.startswith("ghost use "):
                names |= set(ALIAS.findall(line))
    return {n for n in names - library if n[0].isalpha() and not n.startswith("Rattle")}


def names_of(path):
    found = set()
    for line in path.read_text(encoding="utf-8").splitlines():
        head = HEAD.match(line)
        if head:
            found.add(head.group(1))
        field = FIELD.match(line)
        if field:
            found.add(field.group(1))
    return found


def turned(text, table):
    return TOKEN.sub(lambda m: table.get(m.group(0), m.group(0)), text)


def turned_source(text, table):
    """Only imports and clauses: in code a dash is a minus, which stands between spaces, and texts and comments keep their words."""
    out = []
    for line in text.split("\n"):
        bare = line.lstrip()
        if bare.startswith("//") or '"' in line:
            out.append(line)
        else:
            out.append(turned(line, table))
    return "\n".join(out)


def main():
    root = pathlib.Path(__file__).resolve().parent.parent
    names = declared(root)
    table = {n: spelled(n) for n in names if spelled(n) != n}
    clash = sorted(n for n in table if table[n] in names)
    doubled = sorted(n for n in table if sum(table[m] == table[n] for m in table) > 1)
    if clash or doubled:
        sys.exit(f"names fall together: {clash} {doubled}")
    for path in sorted(root.glob("crates/*/specs/**/*.antt")) + sorted(root.glob("crates/*/proofs/**/*.antt")):
        text = path.read_text(encoding="utf-8")
        path.write_text(turned(text, table), encoding="utf-8")
    for path in sorted(root.glob("crates/*/src/**/*.rt")):
        text = path.read_text(encoding="utf-8")
        path.write_text(turned_source(text, table), encoding="utf-8")
    for path in [root / "README.md"] + sorted(root.glob("docs/*.md")):
        text = path.read_text(encoding="utf-8")
        path.write_text(re.sub(r"`[^`\n]+`", lambda m: turned(m.group(0), table), text), encoding="utf-8")
    for name in sorted(table):
        print(name, table[name])


main()
