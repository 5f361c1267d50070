#!/usr/bin/env python3
"""Spells this repository's own definitions, lemmas, fields and operators in snake case, as today's Rattle does.

usage: tools/respell.py [--check]      at the top of the checkout, once, right after the toolchain's port.py

A name is turned if a file of specs/ or proofs/ of this repository declares it, and stays in a file that imports it from a
library. Names that the toolchain makes of a source (tie.x, goal.x, and the steps behind a dot in a function's Proof.antt)
stay, and so do Rust's names, strings and outputs. Of two names that would fall together the lemma gets `_lem` at its end.
"""
import collections
import glob
import os
import re
import sys

NAME = r'[^\s(){}.;,@"«»]+'
WORD = re.compile(NAME)
COMMENT = re.compile(r'(?<![^\s(){}.;,@"«»])--[^\n]*')
DECLARED = re.compile(
    rf"(?m)^( *)((?:pub |abbrev |unfoldable |data |record )*)({NAME})((?: \{{[^{{}}\n]*\}})*) :(?=\s)"
)
USE = re.compile(r"(?m)^use ([^\s;{]+?)(?:\.\{([^}]*)\})?(?: as (\S+))?$")
CHECK = "--check" in sys.argv
CRATES = sorted(os.listdir("crates"))


def read(path):
    with open(path, encoding="utf-8") as f:
        return f.read()


def is_old(name):
    return "-" in name or bool(re.match(r"[◌a-z].*[A-Z]", name))


def in_snake_case(name):
    words = re.sub(r"(?<=[a-z0-9])([A-Z])(?=[a-z0-9])", lambda m: "_" + m[1].lower(), name)
    words = re.sub(r"(?<=[a-z0-9])([A-Z])", lambda m: "_" + m[1], words)
    return words.replace("-", "_")


def is_own(module):
    parts = module.split(".")
    return parts[0] == "Rattle" and len(parts) > 1 and parts[1] in CRATES


antt = sorted(
    glob.glob("crates/*/specs/**/*.antt", recursive=True)
    + glob.glob("crates/*/proofs/**/*.antt", recursive=True)
)
sources = sorted(glob.glob("crates/*/src/**/*.rt", recursive=True))
edits = sorted(glob.glob("crates/*/must-fail/*.edit") + glob.glob(".ci/edits/*/*.edit"))
pages = ["README.md", "CONTRIBUTING.md"] + sorted(glob.glob("docs/*.md"))

functions = set()
for path in sources:
    functions |= set(re.findall(r"\bfn (\w+)", read(path)))

declared = collections.defaultdict(set)
library = collections.defaultdict(set)  # a file's names that come from a library
for path in antt:
    text = COMMENT.sub("", read(path))
    for m in USE.finditer(text):
        if not is_own(m[1]):
            library[path] |= {n.strip().split(" as ")[0] for n in (m[2] or "").split(",")}
    for m in DECLARED.finditer(text):
        if not re.match(r"\s*(?:tie|goal)\.", text[m.end() : m.end() + 60]):
            declared[m[3]].add("specs" if "/specs/" in path else "proofs")

taken = collections.defaultdict(set)
for name in declared:
    taken[in_snake_case(name)].add(name)
table = {}
for new, names in taken.items():
    for name in names:
        lemma = len(names) > 1 and "specs" not in declared[name]
        if lemma and any("specs" in declared[other] for other in names - {name}):
            table[name] = new + "_lem"
        elif lemma and "-" in name:
            table[name] = new + "_lem"
        elif is_old(name):
            table[name] = new
# What stands between an operator's holes is spelled as the operator is.
for name in [n for n in table if "◌" in n]:
    for part, new in zip(name.split("◌"), table[name].split("◌")):
        if part != new:
            table[part] = new
# A field of a record is spelled plainly wherever it stands.
for path in antt:
    if not path.endswith(("Proof.antt", "Answers.antt", "Invariants.antt")):
        for m in re.finditer(rf"\.({NAME})", COMMENT.sub("", read(path))):
            if table.get(m[1], "").endswith("_lem"):
                table[m[1]] = in_snake_case(m[1])
for name in [n for n in table if table[n] == n]:
    del table[name]

spelled = set(declared) | set(table.values())
count = 0


def turned(text, kept=frozenset(), proof=False):
    """The text with each word of the table turned. Behind a dot it is a field, which never gets `_lem`."""

    def one(m):
        global count
        word = m[0]
        behind = m.start() > 0 and text[m.start() - 1] == "."
        if word not in table or (word in kept and not behind):
            return word
        if behind:
            plain = in_snake_case(word)
            if proof and plain in functions:
                return word
            if not is_old(word):
                return word
            count += 1
            return plain
        count += 1
        return table[word]

    return WORD.sub(one, text)


def turned_in_prose(text):
    """Names that the toolchain's script had turned in the code are turned here too."""

    def one(m):
        global count
        word = m[0]
        new = in_snake_case(word)
        if word in table or not is_old(word) or new not in spelled:
            return word
        count += 1
        return new

    return WORD.sub(one, turned(text))


def spans(text):
    """Prose: code spans, and words that no prose has."""
    text = re.sub(r"`[^`\n]*`", lambda m: "`" + turned_in_prose(m[0][1:-1]) + "`", text)
    return re.sub(
        r"(?<![`\w-])[a-z]+(?:[A-Z0-9][a-z0-9]*)+(?![\w-])",
        lambda m: turned_in_prose(m[0]) if is_old(m[0]) else m[0],
        text,
    )


def of_antt(path):
    text, out, at = read(path), [], 0
    last = path.rsplit("/", 1)[1]
    proof = last in ("Proof.antt", "Answers.antt", "Invariants.antt")
    for m in COMMENT.finditer(text):
        out += [turned(text[at : m.start()], library[path], proof), spans(m[0])]
        at = m.end()
    return "".join(out) + turned(text[at:], library[path], proof)


def of_lines(path, comment):
    out = []
    for line in read(path).split("\n"):
        at = line.find(comment)
        code, said = (line[:at], line[at:]) if at >= 0 else (line, "")
        parts = re.split(r'("(?:[^"\\]|\\.)*")', code)
        code = "".join(p if i % 2 else turned(p) for i, p in enumerate(parts))
        out.append(code + spans(said))
    return "\n".join(out)


def of_edit(path):
    out = []
    for line in read(path).split("\n"):
        m = re.match(r"(old|new): ", line)
        out.append(m[0] + turned_in_prose(line[m.end() :]) if m else line)
    return "\n".join(out)


def put(path, text):
    if text != read(path) and not CHECK:
        with open(path, "w", encoding="utf-8") as f:
            f.write(text)


for path in antt:
    put(path, of_antt(path))
for path in sources:
    put(path, of_lines(path, "//"))
for path in edits:
    put(path, of_edit(path))
for path in pages:
    put(path, spans(read(path)))
print(f"turned: {count} words of {len(table)} names")
for name in sorted(n for n in table if table[n].endswith("_lem")):
    print(f"lemma: {name} is now {table[name]}")
