#!/usr/bin/env python3
"""Brings the names of this repository's own definitions and lemmas to one spelling.

A fact or a type is in upper camel case (`RefusalLaw`), everything else in snake case (`reading_of`). Names of the standard library and names
that Rattle makes from the source keep the dashes that they have. Run once, at the top of the checkout.
"""

import glob
import os
import re

PART = r"[A-Za-zℕ][\w'₀-₉ℕ]*"
NAME = rf"{PART}(?:-[\w'₀-₉ℕ]+)*"
DASHED = rf"{PART}(?:-[\w'₀-₉ℕ]+)+"
USE = re.compile(r"use\s+([^\s{}]+)\.\{([^}]*)\}")
DEFINED = re.compile(rf"\s*(?:(?:abbrev|unfoldable|pub)\s+)*({NAME})\s*(?:\([^=]*\)\s*|\{{[^=]*\}}\s*)*:(?!:)")
HEADED = re.compile(rf"(?:(?:abbrev|unfoldable|pub)\s+)*(?:record|data|ruleset)\s+(?:pub\s+)?({NAME})")


def sources():
    found = glob.glob("crates/*/**/*.antt", recursive=True) + glob.glob("crates/*/**/*.rt", recursive=True)
    return sorted(f for f in found if "/out/" not in f)


def read(path):
    with open(path, encoding="utf-8") as f:
        return f.read()


def is_own(path):
    crate = re.match(r"Rattle\.(\w+)\.", path)
    made = re.search(r"\.(Goals|Given)$", path)
    return bool(crate) and os.path.isdir("crates/" + crate.group(1)) and not made


def names(texts):
    """The names with a dash that the repository defines, and those that come from elsewhere."""
    own, other = set(), set()
    for path, text in texts.items():
        for where, listed in USE.findall(text):
            for item in listed.split(","):
                first, *alias = item.strip().split(" as ")
                (own if is_own(where) else other).add(first.strip())
                own.update(a.strip() for a in alias)
        if path.endswith(".antt"):
            for line in text.split("\n"):
                head = HEADED.match(line)
                defined = DEFINED.match(line)
                if head:
                    own.add(head.group(1))
                elif defined and ": goal." not in line:
                    own.add(defined.group(1))
    return {n for n in own - other if re.fullmatch(DASHED, n)}


def respelled(name):
    if name[0].isupper():
        return "".join(part[0].upper() + part[1:] for part in name.split("-"))
    return name.replace("-", "_")


def in_source(text, turned):
    return re.sub(rf"(?<![\w'-]){DASHED}", lambda m: turned.get(m.group(0), m.group(0)), text)


def main():
    texts = {path: read(path) for path in sources()}
    turned = {name: respelled(name) for name in names(texts)}
    pages = {path: read(path) for path in ["README.md"] + sorted(glob.glob("docs/*.md"))}
    for path, text in texts.items():
        with open(path, "w", encoding="utf-8") as f:
            f.write(in_source(text, turned))
    for path, text in pages.items():
        with open(path, "w", encoding="utf-8") as f:
            f.write(re.sub(r"`[^`\n]*`", lambda m: in_source(m.group(0), turned), text))
    print(len(turned), "names turned")


if __name__ == "__main__":
    main()
