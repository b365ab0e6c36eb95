#!/usr/bin/env python3
"""Brings the repository's own names in specs/ and proofs/ to the spelling of today's Rattle, once, after the kit's port.py.

usage: python3 tools/port_names.py        at the top of the repository

Types, records and facts are in upper camel case, everything else is in snake case (`operandEnd` too); a dash stays only in a lemma's name that joins the names of things
(`length-put`). Functions of src/, exported names, strings and prose keep their spelling. The script prints names that now stand for more than one thing,
and says where that is in one file.
"""

import collections
import glob
import re
import sys

EDGE = r"\s(){}\[\].,;λ`"
TOKEN = re.compile(rf"[^{EDGE}]+")
DECLARED = re.compile(
    r"^(?P<indent>\s*)(?P<words>(?:(?:unfoldable|abbrev|pub|ruleset|data|record)\s+)*)(?P<name>[^\s:(){}.,;]+)"
    r"(?P<rest>(?:\s*\([^)]*\)|\s*\{[^}]*\})*\s*:(?:\s|$))"
)


def antt_files():
    return sorted(
        glob.glob("crates/*/specs/**/*.antt", recursive=True) + glob.glob("crates/*/proofs/**/*.antt", recursive=True)
    )


def code_of(line):
    """A line without its comment, and the comment."""
    at = line.find("-- ")
    if at < 0 and line.rstrip("\n").endswith("--"):
        at = line.rindex("--")
    return (line, "") if at < 0 else (line[:at], line[at:])


def declarations(text):
    """Each declared name of a file, and whether it is a definition (else a lemma)."""
    inside_type = False
    for line in text.split("\n"):
        code, _ = code_of(line)
        m = DECLARED.match(code)
        if re.match(r"\s*(pub\s+)?(data|record)\s+(pub\s+)?", code):
            inside_type = True
        elif code and not code[0].isspace():
            inside_type = False
        if not m:
            continue
        words = m.group("words").split()
        definition = inside_type or bool({"abbrev", "unfoldable", "data", "record", "ruleset"} & set(words))
        yield m.group("name"), definition


def camel(name):
    first, *rest = name.split("-")
    return first + "".join(w[:1].upper() + w[1:] for w in rest)


def main():
    texts = {p: open(p, encoding="utf-8").read() for p in antt_files()}
    declared = collections.defaultdict(set)  # name -> {is a definition}
    where = collections.defaultdict(set)
    for p, t in texts.items():
        for name, definition in declarations(t):
            declared[name].add(definition or "/specs/" in p)
            where[name].add(p)
    std = set()
    for t in texts.values():
        for m in re.finditer(r"^use (?!Rattle\.(?!std))[^{\n]*\{([^}]*)\}", t, re.M):
            std |= {w.strip().split(" as ")[0] for w in m.group(1).split(",")}
    known = {n for n in std if "-" not in n} | {n for n, d in declared.items() if True in d and "-" not in n}
    # a parameter and an alias, which no line declares
    mapping = {"image-length": "image_length", "machine-book": "machine_book"}
    for name, kinds in declared.items():
        if re.match(r"^[a-z]+[A-Z][A-Za-z]*$", name) and True in kinds:
            mapping[name] = re.sub("[A-Z]", lambda m: "_" + m.group(0).lower(), name)
            continue
        if "-" not in name.strip("-") or "◌" in name or not re.match(r"^[A-Za-z]", name):
            continue
        if name[0].isupper():
            new = camel(name)
        elif kinds == {False} and all(w in known for w in name.split("-")):
            continue  # a lemma that joins two names
        else:
            new = name.replace("-", "_")
        mapping[name] = new
    tokens = collections.Counter()
    for t in texts.values():
        for line in t.split("\n"):
            for w in TOKEN.findall(code_of(line)[0]):
                tokens[w] += 1
    taken = collections.defaultdict(list)
    for old, new in mapping.items():
        taken[new].append(old)
    for new, olds in sorted(taken.items()):
        if new in tokens or len(olds) > 1:
            both = [p for o in olds for p in where[o] if re.search(rf"(?<![^{EDGE}]){re.escape(new)}(?![^{EDGE}])", texts[p])]
            print(f"falls together: {', '.join(olds)} -> {new}" + (f" in {both[0]}" if both else ""))

    def turned(text):
        return TOKEN.sub(lambda m: mapping.get(m.group(0), m.group(0)), text)

    def turned_spans(text):
        return re.sub(r"`[^`\n]+`", lambda m: turned(m.group(0)), text)

    for p, t in texts.items():
        lines = []
        for line in t.split("\n"):
            code, comment = code_of(line)
            lines.append(turned(code) + turned_spans(comment))
        write(p, t, "\n".join(lines))
    for p in sorted(glob.glob("crates/*/src/**/*.rt", recursive=True) + glob.glob("crates/*/must-fail/*.edit")):
        t = open(p, encoding="utf-8").read()
        write(p, t, "\n".join(turned(l) if not l.lstrip().startswith(("//", "#")) else turned_spans(l) for l in t.split("\n")))
    for p in sorted(glob.glob("*.md") + glob.glob("docs/**/*.md", recursive=True) + glob.glob("oracle/*.md")):
        t = open(p, encoding="utf-8").read()
        write(p, t, turned_spans(t))
    return 0


def write(path, old, new):
    if old != new:
        with open(path, "w", encoding="utf-8") as f:
            f.write(new)


if __name__ == "__main__":
    sys.exit(main())
