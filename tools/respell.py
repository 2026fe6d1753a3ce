#!/usr/bin/env python3
"""Gives the definitions and lemmas of this repository the spelling of today's Rattle: once, after the kit's port.py.

usage: python3 tools/respell.py        at the top of the repository

A name with dashes that a file of specs/ or proofs/ declares becomes a word in snake case, and a type, whose first letter
is a capital, a word in camel case. It is replaced wherever it is a whole token: in specs/ and proofs/ outside comments, in
src/ and in the edits outside comments and strings, and on pages between backquotes. Names that Rattle makes (the goals of
an answer file) keep their dashes, and so do strings, inputs and outputs. It says which names fall together.
"""

import os
import re
import sys

TOKEN = re.compile(r"[^\s(){}\[\],.;:\"«»`]+")
DECLARED = re.compile(
    r"^\s*(?:abbrev |unfoldable )?(?:pub )?(?:record |data |ruleset |syntax )?"
    r"([^\s(){}\[\],.;:\"«»`]+)\s*(?:\([^)]*\)\s*|\{[^}]*\}\s*)*:(?![=:])\s*(.*)$"
)


def files(folder, *ends):
    for here, folders, names in os.walk(folder):
        folders[:] = sorted(f for f in folders if f not in ("out", ".git", "target"))
        for name in sorted(names):
            if name.endswith(ends):
                yield os.path.join(here, name)


def read(path):
    with open(path, encoding="utf-8") as f:
        return f.read()


def respelled(name):
    parts = name.split("-")
    if name[0].isupper():
        return "".join(p[:1].upper() + p[1:] for p in parts)
    return "_".join(parts)


def declared_names():
    found = {}
    for path in files("crates", ".antt"):
        for line in read(path).splitlines():
            m = DECLARED.match(line.split("--")[0])
            if m and "-" in m.group(1) and "goal." not in m.group(2) and not m.group(1).startswith("-"):
                found[m.group(1)] = respelled(m.group(1))
    return found


# Arguments of definitions.
BOUND = {"yes-then": "yes_then", "now-minute": "now_minute"}


def replaced(text, names):
    return TOKEN.sub(lambda m: names.get(m.group(0), m.group(0)), text)


def antt(text, names):
    out = []
    for line in text.split("\n"):
        code, dashes, comment = line.partition("--")
        out.append(replaced(code, names) + dashes + comment)
    return "\n".join(out)


PIECE = re.compile(r"\"(?:[^\"\\]|\\.)*\"|'(?:[^'\\]|\\.)'|//[^\n]*|(?:[^\"'/]|/(?!/)|')+?(?=\"|'(?:[^'\\]|\\.)'|//|$)", re.S)


def source(text, names):
    return PIECE.sub(lambda m: m.group(0) if m.group(0)[0] in "\"'" or m.group(0).startswith("//") else replaced(m.group(0), names), text)


def page(text, names):
    return re.sub(r"`[^`\n]+`", lambda m: replaced(m.group(0), names), text)


def main():
    if not os.path.isfile("crates.txt"):
        sys.exit("respell: run it at the top of the repository")
    names = {**declared_names(), **BOUND}
    tokens = set()
    for path in files("crates", ".antt", ".rt"):
        text = re.sub(r"(--|//)[^\n]*", "", read(path))
        tokens.update(TOKEN.findall(text))
    owners = {}
    for old, new in sorted(names.items()):
        owners.setdefault(new, []).append(old)
    for new, old in sorted(owners.items()):
        if len(old) > 1 or new in tokens:
            print("falls together:", new, "from", ", ".join(old), "(and a name that stood)" if new in tokens else "")
    changed = 0
    jobs = [(p, antt) for p in files("crates", ".antt")]
    jobs += [(p, source) for p in files("crates", ".rt", ".edit")] + [(p, source) for p in files("tests", ".edit")]
    jobs += [(p, page) for p in files("docs", ".md")] + [("README.md", page)]
    for path, turn in jobs:
        text = read(path)
        new = turn(text, names)
        if new != text:
            changed += 1
            with open(path, "w", encoding="utf-8") as f:
                f.write(new)
    print(len(names), "names,", changed, "files changed")


if __name__ == "__main__":
    main()
