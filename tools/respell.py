#!/usr/bin/env python3
"""Respells the repository's own definitions and lemmas: snake case, and upper camel case for those that begin with a capital.

usage: python3 tools/respell.py            rewrites specs/, proofs/, the ghost text of src/, must-fail/ and the code spans of docs/
       python3 tools/respell.py --at FOLDER    does so in another checkout
       python3 tools/respell.py --list     only prints each old name with its new one, and the names that fall together

A name is one that a file of specs/ or proofs/ declares (a definition, lemma, constructor or field, also a local one), and that
no goal of a function asks for. Functions of src/, exported names, strings, comments, inputs and outputs keep their names.
"""
import os
import re
import sys

WORD = re.compile(r"(?<![\w'-])([A-Za-z_][\w']*(?:-[\w'*+]+)*)(?![\w'-])")
DECLARED = re.compile(r"^\s*(?:(?:abbrev|unfoldable|pub|private|record|data) )*([A-Za-z_][\w']*(?:-[\w']+)*) *((?:[({][^:]*)?):(?![=:])(.*)$")
OPENED = re.compile(r"^\s*(?:(?:abbrev|unfoldable|pub|private) )*(?:record|data) ([A-Za-z_][\w']*(?:-[\w']+)*)")
CAMEL = {"sumBy": "sum_by", "getD": "get_or"}
# A name whose new spelling is a type's already.
OTHER = {"Item-counts": "CountsItems"}


def files(root, ends):
    for folder, dirs, names in os.walk(os.path.join(root, "crates")):
        dirs[:] = sorted(d for d in dirs if d != "out")
        for n in sorted(names):
            if n.endswith(ends):
                yield os.path.join(folder, n)


def read(path):
    with open(path, encoding="utf-8") as f:
        return f.read()


def declared(root):
    """Every declared name, but for the answers to goals."""
    found = set()
    for path in files(root, ".antt"):
        for line in read(path).splitlines():
            m = OPENED.match(line)
            if m:
                found.add(m.group(1))
                continue
            m = DECLARED.match(line)
            if m and not m.group(3).lstrip().startswith("goal."):
                found.add(m.group(1))
    return found


def spelled(name):
    if name in OTHER:
        return OTHER[name]
    parts = name.split("-")
    if name[0].isupper():
        return parts[0] + "".join(p[:1].upper() + p[1:] for p in parts[1:])
    return "_".join(CAMEL.get(p, p) for p in parts)


def answered(root):
    """The names of goals that the files of a function's proof answer."""
    found = set()
    for path in files(root, ".antt"):
        for m in re.finditer(r"^\s*(?:pub )?([A-Za-z_][\w'-]*) : goal\.", read(path), re.M):
            found.add(m.group(1))
    return found


def table(root):
    goals = answered(root)
    return {n: spelled(n) for n in declared(root) if spelled(n) != n and n not in goals}


def together(root, names):
    """New names that stand in the tree already, or that two old names share."""
    seen = {}
    for path in list(files(root, ".antt")) + list(files(root, ".rt")):
        for m in WORD.finditer(read(path)):
            seen.setdefault(m.group(1), set()).add(os.path.relpath(path, root))
    shared = {}
    for old, new in names.items():
        shared.setdefault(new, []).append(old)
    for new, olds in sorted(shared.items()):
        if len(olds) > 1 or new in seen:
            yield new, olds, sorted(seen.get(new, ()))


def turned(text, names):
    return WORD.sub(lambda m: names.get(m.group(1), m.group(1)), text)


def turned_source(text, names):
    """A source file: everything but comments and strings."""
    out = []
    for line in text.splitlines(keepends=True):
        at = re.search(r'(?:^|\s)//', line)
        cut = at.start() if at else len(line)
        out.append(turned(line[:cut], names) + line[cut:])
    return "".join(out)


def turned_proof(text, names):
    """A file of specs/ or proofs/: everything but comments."""
    out = []
    for line in text.splitlines(keepends=True):
        at = re.search(r"(?:^|\s)--(?= |$)", line)
        cut = at.start() if at else len(line)
        out.append(turned(line[:cut], names) + line[cut:])
    return "".join(out)


def turned_page(text, names):
    """A page of docs/: its code spans."""
    return re.sub(r"`[^`\n]+`", lambda m: turned(m.group(0), names), text)


def main():
    root = os.path.dirname(os.path.dirname(os.path.realpath(__file__)))
    if len(sys.argv) > 2 and sys.argv[1] == "--at":  # another checkout, as --at FOLDER
        root = os.path.realpath(sys.argv[2])
    names = table(root)
    if "--list" in sys.argv:
        for old, new in sorted(names.items()):
            print(old, new)
        for new, olds, where in together(root, names):
            print("together:", new, "from", ", ".join(olds), "stands in", " ".join(where))
        return
    for ends, how in ((".antt", turned_proof), (".rt", turned_source), (".edit", turned)):
        for path in files(root, ends):
            text = read(path)
            new = how(text, names)
            if new != text:
                with open(path, "w", encoding="utf-8") as f:
                    f.write(new)
    for page in ["README.md"] + [os.path.join("docs", p) for p in sorted(os.listdir(os.path.join(root, "docs")))]:
        path = os.path.join(root, page)
        if page.endswith(".md"):
            text = read(path)
            new = turned_page(text, names)
            if new != text:
                with open(path, "w", encoding="utf-8") as f:
                    f.write(new)


if __name__ == "__main__":
    main()
