#!/usr/bin/env python3
"""Respells the names in specs and proofs that the toolchain's port.py leaves: lower camel case becomes snake case, and getD get_or.

usage: tools/port_names.py    at the top of a checkout, once, on what port.py has made of the commit that docs/PORT.md names first

Functions of src/, exported names, strings, inputs and outputs keep their names. A name that falls together with another one is told.
"""
import glob
import re

NAME = r"[A-Za-z0-9_'-]"
# A declared name, or one that an import gives: 'name : ..', 'names as name'.
DECLARED = re.compile(rf"^\s*(?:(?:abbrev|unfoldable|pub|opaque) )*([a-z]{NAME}*) :", re.M)
GIVEN = re.compile(rf"\bas ([a-z]{NAME}*)")


def texts():
    """The files that hold such names. What the toolchain makes (out/) is none of them."""
    paths = glob.glob("crates/**/*", recursive=True)
    return [path for path in paths if path.endswith((".antt", ".rt", ".edit")) and "/out/" not in path]


def read(path):
    with open(path, encoding="utf-8") as file:
        return file.read()


def turned(name):
    """Each part of a name between dashes in snake case, where it begins in lower case."""
    parts = ["get_or" if part == "getD" else part for part in name.split("-")]
    return "-".join(re.sub(r"[A-Z]", lambda capital: "_" + capital[0].lower(), part) if part[:1].islower() else part for part in parts)


def main():
    names, words = set(), set()
    for path in texts():
        text = read(path)
        if path.endswith(".antt"):
            names |= set(DECLARED.findall(text))
            words |= set(re.findall(rf"{NAME}+", text))
        names |= set(GIVEN.findall(text))
    new = {name: turned(name) for name in names if turned(name) != name}
    for name, other in sorted(new.items()):
        if other in words:
            print(f"{name} falls together with {other}")
    for path in texts():
        text = read(path)
        spelled = re.sub(rf"(?<!{NAME})[a-z]{NAME}*", lambda word: new.get(word[0], word[0]), text)
        if spelled != text:
            with open(path, "w", encoding="utf-8") as file:
                file.write(spelled)
    print(f"{len(new)} names respelled")


if __name__ == "__main__":
    main()
