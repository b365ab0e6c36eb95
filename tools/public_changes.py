#!/usr/bin/env python3
"""Lists what two checkouts differ in of what others rely on: public functions with their clauses, public types, and what
stands in specs/. A Markdown table for each crate, old and new side by side.

usage: tools/public_changes.py OLD NEW
"""
import os
import re
import sys


def read(path):
    with open(path, encoding="utf-8") as file:
        return file.read()


def flat(text):
    return re.sub(r"\s+", " ", text).strip()


def code_of(folder):
    """Public items of a crate's src: name to signature and clauses. An impl's functions have the type's name before theirs."""
    items = {}
    for top, _, names in os.walk(folder):
        for name in sorted(names):
            if not name.endswith(".rt"):
                continue
            owner = ""
            text = re.sub(r"^[ \t]*//.*\n", "", read(os.path.join(top, name)), flags=re.M)
            for match in re.finditer(
                r"^impl(?:<[^>]*>)? ([^{]+?) \{$|^(}) *$|^( *)(?:pub (?:extern \"C\" )?|)fn (\w+)|^pub (struct|enum|trait|type|const) (\w+)", text, re.M
            ):
                if match.group(1):
                    owner = match.group(1)
                elif match.group(2):
                    owner = ""
                elif match.group(4):
                    public = "pub " in match.group(0) or " for " in owner
                    if not public:
                        continue
                    end = re.compile(r"\n%s\{\n" % match.group(3)).search(text, match.start())
                    one = text.find("{", match.start()) if not end else end.start()
                    key = (owner + "::" if owner else "") + match.group(4)
                    items[key] = flat(text[match.start() : one])
                else:
                    kind = match.group(5)
                    rest = text[match.start() :]
                    stop = rest.index(";") if kind in ("type", "const") or rest.split("\n", 1)[0].endswith(";") else rest.index("\n}") + 2
                    items[match.group(6)] = flat(rest[:stop])
    return items


def specs_of(folder):
    """What stands in specs: name to text, without comments and imports."""
    items = {}
    for top, _, names in os.walk(folder):
        for name in sorted(names):
            if not name.endswith(".antt") or name == "Lib.antt":
                continue
            text = re.sub(r"^[ \t]*--.*\n", "", read(os.path.join(top, name)), flags=re.M)
            text = re.sub(r"^(pub |unfoldable pub )?use .*\n", "", text, flags=re.M)
            for block in re.split(r"\n\s*\n", text):
                head = re.match(r"^\s*(?:(?:abbrev|unfoldable) )?(?:pub )?(?:record |data )?([^\s:(]+)", block)
                if head and head.group(1) not in ("module", "infixl", "infixr", "infix"):
                    items[name[:-5] + "." + head.group(1)] = flat(block)
    return items


def cell(text):
    return "`" + text.replace("|", "\\|").replace("`", "'") + "`" if text else ""


def table(title, old, new):
    rows = []
    for key in sorted(set(old) | set(new)):
        if old.get(key) != new.get(key):
            rows.append("| %s | %s |" % (cell(old.get(key, "")), cell(new.get(key, ""))))
    if rows:
        print("**%s**\n\n| Old | New |\n|---|---|" % title)
        print("\n".join(rows) + "\n")


def main():
    if len(sys.argv) != 3:
        sys.exit(__doc__)
    old, new = (os.path.join(folder, "crates") for folder in sys.argv[1:])
    for crate in sorted(set(os.listdir(old)) | set(os.listdir(new))):
        table(crate + ", src", code_of(os.path.join(old, crate, "src")), code_of(os.path.join(new, crate, "src")))
        table(crate + ", specs", specs_of(os.path.join(old, crate, "specs")), specs_of(os.path.join(new, crate, "specs")))


main()
