#!/usr/bin/env python3
"""Counts the places of the older forms in crates/*/src, by the points of docs/DESIGN-PASS.md.

    tools/places.py [--list] [COMMIT]    of the files as they lie, or of a commit; --list names each place
"""
import re
import subprocess
import sys
from collections import Counter, defaultdict

PROGRAMS = {"planview", "mkplan", "cases", "cardcases", "logcases"}
FN = re.compile(r"^ *(?:pub )?(?:extern \"C\" )?fn (\w+)(?:<[^(]*>)?\((.*?)\)(?: -> ([^\n{]+?))?\s*(?=\n|\{)", re.M | re.S)
TYPE = re.compile(r"^(?:pub )?(struct|enum) (\w+)[^{;]*\{(.*?)^\}", re.M | re.S)
EXPORT = 'extern "C"'


def git(*words):
    return subprocess.run(["git", *words], capture_output=True, text=True, check=True).stdout


def sources(commit):
    """The .rt files of src/ with their text, and the proof files of functions with their line counts."""
    names = (git("ls-tree", "-r", "--name-only", commit, "crates") if commit else git("ls-files", "crates")).split("\n")

    def read(name):
        return git("show", f"{commit}:{name}") if commit else open(name, encoding="utf-8").read()

    code = {n: read(n) for n in names if re.fullmatch(r"crates/\w+/src/.*\.rt", n)}
    proofs = [n for n in names if re.fullmatch(r"crates/\w+/proofs/.+/\w+\.antt", n)]
    return code, {n: read(n).count("\n") for n in proofs}


def functions(code):
    """Each function: its file, line, name, parameters, result, and the text up to the next function."""
    for n, s in code.items():
        found = list(FN.finditer(s))
        for m, after in zip(found, found[1:] + [None]):
            text = s[m.start():after.start() if after else len(s)]
            yield n, s[:m.start()].count("\n") + 1, m.group(1), m.group(2), (m.group(3) or "").strip(), text


def types(code):
    for n, s in code.items():
        for m in TYPE.finditer(s):
            fields = [f.strip() for f in re.split(r",\n", m.group(3)) if f.strip()]
            yield n, s[:m.start()].count("\n") + 1, m.group(1), m.group(2), fields


def clauses(text):
    """The conjuncts of a function's `requires` clauses."""
    for m in re.finditer(r"requires(?: \w+)? \{((?:[^{}]|\{[^{}]*\})*)\}", text):
        for part in m.group(1).split(" × "):
            part = re.sub(r"\s+", " ", part).strip(" ()")
            if part:
                yield part


def of_types(code, put):
    for n, line, kind, name, fields in types(code):
        if kind == "enum":
            if len(fields) == 2 and sum("(" in f or "{" in f for f in fields) == 1:
                put("1 enum like Option", n, line, name)
            if any(f.startswith("Refused") for f in fields):
                put("1 enum like Result", n, line, name)
            continue
        flags = [f for f in fields if re.search(r"\b(refusal|number|ok|wrong|clear|best)\b *:|: bool$", f)]
        arrays = [f for f in fields if re.search(r": \[\w+; \d+\]", f)]
        if flags and len(fields) > 1:
            put("1 flag or number beside a value", n, line, name)
        if arrays and any(re.search(r"\b(count|tasks|blocks)\b *:", f) for f in fields):
            put("6 buffer with a length", n, line, name)
        if len(arrays) > 1:
            put("6 parallel arrays", n, line, name)


def of_lines(code, put):
    for n, s in code.items():
        rows = s.split("\n")
        for i, row in enumerate(rows, 1):
            if re.match(r" *while ", row) and re.search(r"\b\w+ [+-]= 1;", "\n".join(rows[i:i + 40])):
                put("3 index loop", n, i, row.strip())
            if re.search(r"if 0 < ([\w.]*number|\w+\.refusal)\b|[\w.]*number < 1", row):
                put("1 test of a number", n, i, row.strip())


def of_functions(code, put):
    for n, line, name, params, result, text in functions(code):
        body = text[text.find("\n{") + 2:] if "\n{" in text else text[text.find("{") + 1:]
        refuses = re.search(r"number|take|kind", name)
        if result in ("Refusal", "Located"):
            put("1 function that gives a refusal, number 0 for none", n, line, name)
        if result == "u32" and refuses and re.search(r"return \d+;", text):
            put("1 function that gives a number, 0 for none", n, line, name)
        if result in ("u32", "usize") and not refuses and re.search(r"return 0;", text):
            put("1 function that gives 0 for nothing found", n, line, name)
        if re.match(r"\s*\(?\w+(?:\.now)?(?: [%/] \w+)?\)? as \w+\s*\}", body):
            put("4 conversion by hand", n, line, name)
        if re.search(r"_says$|^tell|^ticks_of$|^value_of$", name) and "match " in body:
            put("4 conversion by hand", n, line, name)
        if re.match(r"\s*if \w+ < \w+ \{ \w+ \} else \{ \w+ \}\s*\}", body):
            put("4 order by hand", n, line, name)
        if re.search(r"\bprint!|write_all\(", body):
            put("4 printing by hand", n, line, name)
        if len(re.findall(r"if kind == \d", body)) > 1:
            put("7 switch on a kind's number", n, line, name)


def twins(code, out):
    plain = defaultdict(set)
    for n, line, name, params, result, text in functions(code):
        if EXPORT not in text[:60] and n.split("/")[1] not in PROGRAMS:
            plain[name].add((n, line))
    for name, where in sorted(plain.items()):
        if name.endswith("_in") and (name[:-3] in plain or name[:-3] + "_of" in plain):
            out["2 twin by value and in place"] += [f"{n}:{line} {name}" for n, line in sorted(where)]
        if len({n.split("/")[1] for n, _ in where}) > 1:
            out["2 one name in several crates"].append(f"{name}: " + ", ".join(f"{n}:{l}" for n, l in sorted(where)))


def together(code, out):
    facts, groups = Counter(), Counter()
    for n, line, name, params, result, text in functions(code):
        facts.update(set(clauses(text)))
        if EXPORT not in text[:60]:
            ps = [p.split(":")[0].strip() for p in params.split(",") if ":" in p]
            groups.update({", ".join(ps[i:i + 3]) for i in range(len(ps) - 2)})
    for point, seen in (("5 fact in three contracts or more", facts),
                        ("5 three parameters together in three functions or more", groups)):
        out[point] += [f"{k}  {what}" for what, k in seen.most_common() if k >= 3]


def main():
    args = [a for a in sys.argv[1:] if a != "--list"]
    code, proofs = sources(args[0] if args else None)
    out = defaultdict(list)

    def put(point, n, line, what):
        out[point].append(f"{n}:{line} {what}")

    of_types(code, put)
    of_lines(code, put)
    of_functions(code, put)
    twins(code, out)
    together(code, out)
    for point in sorted(out):
        print(f"{len(out[point]):4}  {point}")
        if "--list" in sys.argv:
            print("".join(f"        {p}\n" for p in out[point]), end="")
    print(f"{sum(s.count(chr(10)) for s in code.values()):6}  lines of src/")
    print(f"{len(proofs):6}  files of functions' proofs, {sum(proofs.values())} lines")


main()
