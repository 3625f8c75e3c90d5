#!/usr/bin/env python3
"""Brings the names of this repository's own definitions and lemmas to the spelling of the Rattle library.

usage: python3 tools/respell.py [--list] [FOLDER]     FOLDER is a checkout, this one if none is given

Words are in snake case, facts and types in camel case: 'cell-of' becomes 'cell_of', 'Three-or-five' 'ThreeOrFive', and an
alias of a clause such as 'figuresOf' 'figures_of'. Names are turned where they stand in specs/, in the lemmas and answers of
proofs/, and in the clauses of src/; functions, strings, comments and the names that Rattle makes are left. Two names that
would fall together stop the script before it writes. Run it once, after port.py.
"""

import os
import re
import sys

TOKEN = re.compile(r"(?<![\w'·-])[A-Za-z][\w'₀-₉]*(?:-[\w'₀-₉≤<*]+)+(?![\w'·-])")
CAMEL = re.compile(r" as ([a-z][a-z0-9]*[A-Z]\w*)")
IMPORT = re.compile(r"use\s+([\w.+·'-]+)\.\{([^}]*)\}", re.S)
RUST_STRING = re.compile(r'"(?:[^"\\]|\\.)*"|//[^\n]*|\'(?:[^\'\\]|\\.)\'')
ANTT_COMMENT = re.compile(r"(?m)(?:^|(?<=\s))--.*$")
OWN_LEMMAS = re.compile(r"/(specs|proofs)/[A-Z]\w*\.antt$")
GOAL = re.compile(r"goal\.([\w'·-]+)")


def texts(root):
    for folder, dirs, files in os.walk(os.path.join(root, "crates")):
        dirs[:] = sorted(d for d in dirs if d != "out")
        for name in sorted(files):
            if name.endswith((".rt", ".antt")):
                yield os.path.join(folder, name)


def outside(path, text, turn):
    """The text with `turn` applied to what is neither a comment nor a string."""
    skip = RUST_STRING if path.endswith(".rt") else ANTT_COMMENT
    parts, at = [], 0
    for m in skip.finditer(text):
        parts += [turn(text[at : m.start()]), m.group(0)]
        at = m.end()
    return "".join(parts) + turn(text[at:])


def imported(text, crates):
    """The names that come from a library, by their own spelling."""
    names = set()
    for m in IMPORT.finditer(text):
        parts = m.group(1).split(".")
        own = parts[0] == "Rattle" and len(parts) > 1 and parts[1] in crates
        for item in m.group(2).split(","):
            name = item.strip().split(" as ")[0].strip()
            if not own and name:
                names.add(name)
    return names


def turned(name):
    if name[0].isupper():
        return "".join(part[:1].upper() + part[1:] for part in name.split("-"))
    return re.sub(r"(?<=[a-z0-9])([A-Z])", lambda m: "_" + m.group(1).lower(), name.replace("-", "_"))


def main():
    args = [a for a in sys.argv[1:] if a != "--list"]
    root = args[0] if args else os.path.join(os.path.dirname(os.path.abspath(__file__)), "..")
    crates = set(os.listdir(os.path.join(root, "crates")))
    held = {p: open(p, encoding="utf-8").read() for p in texts(root)}
    library, goals, own, plain = set(), set(), set(), {}
    for text in held.values():
        library |= imported(text, crates)
        goals |= set(GOAL.findall(text))
    for path, text in held.items():
        seen = []
        outside(path, text, lambda part: seen.append(part) or part)
        code = "\n".join(seen)
        if OWN_LEMMAS.search(path):
            own |= set(TOKEN.findall(code))
        if path.endswith(".rt"):
            own |= set(CAMEL.findall(code))
        for word in re.findall(r"[A-Za-z][\w'₀-₉]*", re.sub(TOKEN, " ", code)):
            plain.setdefault(word, path)
    own -= library | goals
    to = {n: turned(n) for n in own}
    for n in sorted(own):
        twins = [m for m in own if m != n and to[m] == to[n]]
        if twins:
            sys.exit(f"respell: {n} and {twins[0]} fall together")
        if "--list" in sys.argv:
            print(n, to[n], "!" + plain[to[n]] if to[n] in plain else "")
    if "--list" in sys.argv:
        return
    names = sorted(own, key=len, reverse=True)
    word = re.compile(r"(?<![\w'·-])(" + "|".join(map(re.escape, names)) + r")(?![\w'·-])") if names else None
    changed = 0
    for path, text in held.items():
        after = outside(path, text, lambda part: word.sub(lambda m: to[m.group(1)], part)) if word else text
        if after != text:
            changed += 1
            with open(path, "w", encoding="utf-8") as f:
                f.write(after)
    print(f"respell: {len(own)} names, {changed} files")


main()
