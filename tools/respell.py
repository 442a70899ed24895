#!/usr/bin/env python3
"""Respells the repository's own definitions and lemmas in snake case: `readTable` becomes `read_table`.

usage: respell.py [--check] FOLDER

It takes the names that specs/ and proofs/ of FOLDER/crates declare, and fields and constructors with them, and turns each word of them that
begins with a small letter and has a capital, in .antt, .rt and .edit files and in the code spans of .md files. A dash stays. It prints names
that would fall together with a word that stands in a file already. --check writes nothing.
"""
import glob
import os
import re
import sys

WORD = re.compile(r"(?<![\w'\-◌])[A-Za-z_][\w']*(?:-[\w']+)*")
CAMEL = re.compile(r"[a-z][a-z0-9]*[A-Z]")
# Lemmas that would have their function's name.
LEMMAS = {"digit_value": "digit_value_lem", "digits_number": "digits_number_lem", "same_word": "same_word_lem"}


def snake(word):
    """`readTable` is `read_table`; a capital that stands alone at a part's end, as in `codeB`, too."""
    return "-".join(re.sub(r"(?<=[a-z0-9])([A-Z])", lambda m: "_" + m[1].lower(), part) if CAMEL.match(part) else part for part in word.split("-"))


def files(root, endings):
    for folder, dirs, names in os.walk(root):
        dirs[:] = sorted(d for d in dirs if d not in ("out", ".git", "target", "shared"))
        for name in sorted(names):
            if name.endswith(endings):
                yield os.path.join(folder, name)


def read(path):
    with open(path, encoding="utf-8") as f:
        return f.read()


def main():
    check = "--check" in sys.argv[1:]
    root = [a for a in sys.argv[1:] if a != "--check"][0]
    table = {}
    for path in files(os.path.join(root, "crates"), (".antt",)):
        for word in WORD.findall(read(path)):
            for part in word.split("-"):
                if CAMEL.match(part):
                    table[part] = snake(part)
    together = []
    changed = 0
    for path in list(files(os.path.join(root, "crates"), (".antt", ".rt", ".edit"))) + list(files(root, (".md",))):
        old = read(path)
        words = set(WORD.findall(old))

        def one(m):
            if path.endswith(".antt") and m[0] in LEMMAS:
                return LEMMAS[m[0]]
            return "-".join(table.get(p, p) for p in m[0].split("-"))

        if path.endswith(".md"):
            new = re.sub(r"`[^`\n]+`", lambda s: WORD.sub(one, s[0]), old)
        else:
            new = WORD.sub(one, old)
            for w in words:
                t = "-".join(table.get(p, p) for p in w.split("-"))
                if t != w and t in words and t not in LEMMAS:
                    together.append((path, w, t))
        if new != old:
            changed += 1
            if not check:
                with open(path, "w", encoding="utf-8") as f:
                    f.write(new)
    for path, w, t in together:
        print(f"together: {os.path.relpath(path, root)}: {w} and {t}")
    print(f"{len(table)} parts of names, {changed} files, {len(together)} that fall together")


main()
