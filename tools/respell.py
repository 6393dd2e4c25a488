#!/usr/bin/env python3
"""Brings the names of specs/ and proofs/ to snake case, and those of types to camel case, in all crates: new-checks becomes new_checks,
Pay-in becomes PayIn. Names of src/, goals and names of the library stay.

usage: python3 tools/respell.py [--list | --anyway]    at the top of the repository, once, after the port of the kit

It works on whole words, outside comments, in .rt and .antt files and in the lines 'old:' and 'new:' of must-fail edits. A name that would
fall together with a word that stands in one of the files where it is used is printed; nothing is written then but with --anyway.
"""

import os
import re
import sys

ENDS = r"\s(){}\[\].;,`\"λ"
WORD = re.compile(r"[^" + ENDS + r"]+")
DECLARED = re.compile(r"^\s*(?:(?:abbrev|unfoldable|pub)\s+)*([^" + ENDS + r":]+)\s*:(?!:)\s*(.*)$")
TYPE = re.compile(r"^\s*(?:pub\s+)?(?:record|data)\s+([^" + ENDS + r":]+)")
LIBRARY = re.compile(r"use (?:Rattle\.std|borrow|Prim|mathlib|native|lib)\b.*")


def files(root):
    for folder, inner, names in os.walk(root):
        inner[:] = sorted(d for d in inner if d not in ("out", "data", ".git"))
        for name in sorted(names):
            if name.endswith((".rt", ".antt", ".edit")):
                yield os.path.join(folder, name)


def declared(path):
    """The names that a file of specs/ or proofs/ declares, each with whether it is a type. Goals are Rattle's names."""
    for line in open(path, encoding="utf-8"):
        if line.lstrip().startswith("--"):
            continue
        named = TYPE.match(line)
        if named:
            yield named.group(1), True
            continue
        named = DECLARED.match(line)
        if named and not line.lstrip().startswith(("use ", "let ")) and not re.match(r"(goal|need|given)\.", named.group(2)):
            yield named.group(1), named.group(2).rstrip().endswith("Type 0")


def respelled(name, is_type):
    if is_type and name[0].isupper():
        return "".join(part[0].upper() + part[1:] for part in name.split("-"))
    return name.replace("-", "_")


def code_and_comment(path, line):
    """A line's code, and the comment behind it, which stays."""
    if path.endswith(".edit"):
        return (line, "") if line.startswith(("old: ", "new: ")) else ("", line)
    mark = "--" if path.endswith(".antt") else "//"
    at = re.search(r"(^|\s)" + mark, line)
    return (line[: at.start()], line[at.start() :]) if at else (line, "")


def main():
    paths = list(files("crates"))
    kinds, library = {}, set()
    for path in paths:
        if not path.endswith(".antt"):
            continue
        for name, is_type in declared(path):
            if "-" in name and re.search("[A-Za-z]", name):
                kinds[name] = kinds.get(name, False) or is_type
        for line in open(path, encoding="utf-8"):
            for used in LIBRARY.findall(line):
                library.update(WORD.findall(used))
    new = {name: respelled(name, is_type) for name, is_type in kinds.items() if name not in library}
    for name in sorted(set(kinds) & library):
        print("the library's too, so it stays:", name)
    if "--list" in sys.argv:
        for name in sorted(new):
            print(name, new[name])
    texts, bad = {}, False
    for path in paths:
        lines = open(path, encoding="utf-8").read().split("\n")
        out, before, after = [], set(), {}
        for line in lines:
            code, comment = code_and_comment(path, line)
            for word in WORD.findall(code):
                if word in new:
                    after[new[word]] = word
                else:
                    before.add(word)
            out.append(WORD.sub(lambda m: new.get(m.group(0), m.group(0)), code) + comment)
        for word in sorted(before & set(after)):
            print(f"{path}: {after[word]} falls together with {word}")
            bad = bad or "--list" not in sys.argv
        texts[path] = ("\n".join(lines), "\n".join(out))
    if "--list" in sys.argv:
        return 0
    if bad and "--anyway" not in sys.argv:
        return 1
    for path, (old, text) in texts.items():
        if old != text:
            open(path, "w", encoding="utf-8").write(text)
    return 0


sys.exit(main())
