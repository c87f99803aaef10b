#!/usr/bin/env python3
"""Spells the repository's own definitions, lemmas, fields and constructors as Rattle does: words in snake case, facts and
types in camel case.

    python3 tools/respell.py [FOLDER]

It runs once, after the kit's port.py, at the top of the repository. A name is one of ours where a file of specs/ or a
lemma file of proofs/ declares it. Names that fall together, or that a name of src/ would hide, are printed, and then
nothing is written.
"""

import re
import sys
from collections import defaultdict
from pathlib import Path

TOP = Path(sys.argv[1] if len(sys.argv) > 1 else ".")
NAME = r"[A-Za-z][\w']*(?:-[\w']+)*"
MARKS = r"(?:abbrev |unfoldable |pub |record |data |unfolding |axiom )*"


def new_spelling(name):
    if name[0].isupper():
        return "".join(part[:1].upper() + part[1:] for part in re.split("[-_]", name))
    name = re.sub(r"([a-z0-9])([A-Z])", r"\1_\2", name).lower() if re.search("[a-z][A-Z]", name) else name
    return name.replace("-", "_")


def own_files():
    """The files that declare our names: specs, and lemma files, which lie right in proofs/."""
    for crate in sorted((TOP / "crates").iterdir()):
        yield from sorted(crate.glob("specs/**/*.antt"))
        yield from sorted(crate.glob("proofs/*.antt"))


def declared():
    """Each declared name, with the files that declare it."""
    names = defaultdict(set)
    for path in [*(TOP / "crates").rglob("*.antt"), *(TOP / "crates").rglob("*.rt")]:
        for alias in re.findall(rf" as ({NAME})[,}}]", path.read_text()):
            names[alias].add(path)
    for path in own_files():
        for line in path.read_text().splitlines():
            if line.startswith(("use ", "--")):
                continue
            # a signature, a field, a constructor, or a record's or data type's head
            head = re.match(rf"\s*{MARKS}({NAME})(?: .*)? : ", line + " ") or re.match(rf"\s*{MARKS}({NAME})\s", line)
            if head:
                names[head.group(1)].add(path)
            # names bound by let, λ and parameters
            for bound in re.findall(rf"let ({NAME})(?: :| =)", line) + re.findall(rf"[({{]((?:{NAME} )+):", line):
                for name in bound.split():
                    names[name].add(path)
            for bound in re.findall(rf"λ ((?:{NAME} ?)+)\.", line):
                for name in bound.split():
                    names[name].add(path)
    return names


def library_names():
    names = set()
    for path in list((TOP / "crates").rglob("*.antt")) + list((TOP / "crates").rglob("*.rt")):
        for line in path.read_text().splitlines():
            m = re.match(r"\s*(?:ghost )?use (Rattle\.std|Rattle\.core|borrow|lib|mathlib|native|denote|mir|Prim)\b[^{]*\.\{(.*)\}", line)
            if m:
                for name in m.group(2).split(","):
                    names.update(re.split(" as ", name.strip()))
    return names


def source_names():
    """Parameters, fields and constants of src/, which a clause's name would hide or be hidden by."""
    names = set()
    for path in (TOP / "crates").glob("*/src/*.rt"):
        text = path.read_text()
        names.update(re.findall(r"\bconst (\w+)", text))
        names.update(re.findall(r"(\w+): [&A-Za-z\[(]", text))
    return names


def renamings():
    library = library_names()
    names = declared()
    table = {}
    for name in names:
        new = new_spelling(name)
        if new != name and name not in library:
            table[name] = new
    known = set(names) | library
    together = defaultdict(set)
    for old, new in table.items():
        together[new].add(old)
    trouble = []
    for new, olds in sorted(together.items()):
        if len(olds) > 1:
            trouble.append(f"{sorted(olds)} fall together as {new}")
        if new in known:
            trouble.append(f"{sorted(olds)} becomes {new}, which is a name already")
        if new in source_names():
            trouble.append(f"{sorted(olds)} becomes {new}, a parameter, field or constant of src/")
    return table, trouble


def main():
    table, trouble = renamings()
    accepted = set(ACCEPTED)
    trouble = [line for line in trouble if line not in accepted]
    for line in trouble:
        print(line)
    if trouble:
        return 1
    token = re.compile(r"(?<![\w'\-])(" + "|".join(sorted(map(re.escape, table), key=len, reverse=True)) + r")(?![\w']|-[\w'])")

    def turned(text):
        return token.sub(lambda m: table[m.group(1)], text)

    count = 0

    def rewrite(path, text):
        nonlocal count
        if text != path.read_text():
            path.write_text(text)
            count += 1

    for path in sorted((TOP / "crates").rglob("*.antt")):
        walked = len(path.relative_to(TOP / "crates").parts) > 3 and "proofs" in path.parts
        lines = []
        for line in path.read_text().splitlines(keepends=True):
            if walked and re.match(r"use .*\.(Goals|Given)\b", line) or line.lstrip().startswith("--"):
                lines.append(line)
            else:
                lines.append(turned(line))
        rewrite(path, "".join(lines))
    for path in sorted((TOP / "crates").glob("*/src/*.rt")):
        lines = [line if line.lstrip().startswith("//") or '"' in line else turned(line) for line in path.read_text().splitlines(keepends=True)]
        rewrite(path, "".join(lines))
    ours = set(declared())

    def turned_page(quoted):
        # also the names that the kit's script turned already
        return re.sub(NAME, lambda m: new_spelling(m.group(0)) if new_spelling(m.group(0)) in ours else m.group(0), quoted)

    for path in sorted((TOP / "docs").glob("*.md")):
        rewrite(path, re.sub(r"`[^`\n]*`", lambda m: turned_page(turned(m.group(0))), path.read_text()))
    print(f"{len(table)} names, {count} files")
    return 0


# What was looked at and may stay.
ACCEPTED = []

if __name__ == "__main__":
    sys.exit(main())
