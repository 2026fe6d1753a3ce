#!/usr/bin/env python3
"""Counts the places in src/ that today's forms of the language could write otherwise, point by point.

    python3 tools/places.py [CHECKOUT] [--list]

A place is what a pattern finds in crates/*/src/*.rt. What a pattern cannot tell (whether a type with two variants is an
Option by another name, whether two functions are one) is named in docs/DESIGN-PASS.md beside the count.
"""
import collections
import glob
import os
import re
import sys

PATTERNS = [
    ("1", "an own enum", r"^(pub )?enum \w+"),
    ("1", "let-else that answers an error, nothing or a flag", r"let [^;{}]*? else \{\s*return (Err\(|None|Reply|Verdict|Ok\(false)"),
    ("1", "an arm that wraps an error or a value again",
     r"^\s*(Err\(\w+\) => (Err\(|None|\w+::Refused|Ok\(\w+::Refused|Ok\(Err\(|\(.*Err\()|Ok\(\w+\) => Ok\(Some)"),
    ("1", "an arm that answers nothing, 0 or a truth for None", r"^\s*None => (None|0|true|false)\b"),
    ("1", "a flag for a result, or a value with a flag or a start beside it", r"-> (io::)?Result<bool|-> \(\[u8; \w+\], usize\)"),
    ("1", "a number for what may be absent or for a kind", r"\w*second_price: u32|-> u32\s+requires \{ (Below second|second_in_range)|fn number\(self\)|age: u8"),
    ("3", "an index counted over a length", r"^\s*for \w+ in 0\.\.[\w.]+\.len\(\)"),
    ("3", "a while loop", r"^\s*while "),
    ("3", "a search by hand", r"^\s*for [^{]*\{\n\s*if [^{]*\{\n\s*return "),
    ("3", "a count up to the largest number", r"^\s*for \w+ in \d+\.\.u64::MAX"),
    ("4", "a range tested by two comparisons", r"1 <= \w+ && \w+ <=|< 1 \|\||-MAX_CASH <= cash &&|'\\u\{\w+\}' <= c"),
    ("4", "a conversion tested by hand", r"(<=|>=) [ui]\d+::(MAX|MIN) as"),
    ("4", "equality, a number or a name by hand", r"fn (same_stage\(a|is\(word|number\(self)\b|fn reason\("),
    ("4", "printing by hand", r"fn (put\w*|spelled|amount)\((out|number|satang)\b"),
    ("4", "a type with no equality or no Debug", r"#\[derive\(Clone, Copy\)\]"),
    ("5", "a requires that joins facts", r"^\s*requires[^\n]*×"),
    ("5", "a reference that is only coerced", r"let \w+: &\[\w[^=]*\] = &"),
    ("6", "a pair of arrays, a buffer with a start, or a list beside its command", r"\[u16; 8\]|\[u8; MOST\]|prices: &mut Vec<u64>|prices: Vec<u64>"),
    ("6", "a place found by its number", r"\.swap_remove\(|placed: Vec<Placement>"),
    ("7", "a table of functions, a boxed closure or a step number", r"\bfn\(|dyn Fn|Box<dyn|step: u\d+"),
]

COPIED = re.compile(r"\b(Account|MarginCall|Order|Series|Position|Quote)\s*\{([^{}]*(?:\{[^{}]*\}[^{}]*)*)\}")
CLAUSE = re.compile(r"\s+(requires|ensures)(?: \w+)? \{ (.*) \}\s*$")


def sources(top):
    for path in sorted(glob.glob(os.path.join(top, "crates/*/src/*.rt"))):
        with open(path, encoding="utf-8") as f:
            yield os.path.relpath(path, top), f.read()


def places(top):
    """(point, kind) -> the places, each as FILE:LINE and the line's text."""
    found = collections.OrderedDict(((p, k), []) for p, k, _ in PATTERNS)
    found[("4", "a value copied field by field")] = []
    found[("5", "a clause that stands in three contracts or more")] = []
    clauses = collections.defaultdict(list)
    for path, text in sources(top):
        def place(at):
            line = text.count("\n", 0, at) + 1
            return "%s:%d: %s" % (path, line, text.splitlines()[line - 1].strip())
        for point, kind, pattern in PATTERNS:
            for m in re.finditer(pattern, text, re.M):
                start = m.start() + len(m.group()) - len(m.group().lstrip())
                found[(point, kind)].append(place(start))
        for m in COPIED.finditer(text):
            if len(re.findall(r"(\w+): \w+\.\1\b", m.group(2))) > 1:
                found[("4", "a value copied field by field")].append(place(m.start()))
        for number, line in enumerate(text.splitlines(), 1):
            m = CLAUSE.match(line)
            if m:
                fact = re.sub(r"\.(now|old|new)\b", "", m.group(2))
                clauses[(m.group(1), fact)].append("%s:%d" % (path, number))
    for (word, fact), where in clauses.items():
        if len(where) >= 3:
            found[("5", "a clause that stands in three contracts or more")].append("%d times: %s { %s }" % (len(where), word, fact))
    return found


def proofs(top):
    files = glob.glob(os.path.join(top, "crates/*/proofs/**/*.antt"), recursive=True)
    answers = sum(f.endswith("/Answers.antt") for f in files)
    invariants = sum(f.endswith("/Invariants.antt") for f in files)
    lines = 0
    for f in files:
        with open(f, encoding="utf-8") as text:
            lines += text.read().count("\n")
    return "%d answer files, %d of invariants, %d of lemmas, %d lines" % (
        answers, invariants, len(files) - answers - invariants, lines)


def main(args):
    listed = "--list" in args
    rest = [a for a in args if a != "--list"]
    top = rest[0] if rest else "."
    for (point, kind), where in sorted(places(top).items(), key=lambda item: item[0][0]):
        print("%s  %3d  %s" % (point, len(where), kind))
        if listed:
            for place in where:
                print("          " + place)
    print("8       " + proofs(top))


if __name__ == "__main__":
    main(sys.argv[1:])
