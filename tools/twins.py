#!/usr/bin/env python3
"""Lists groups of functions in crates/*/src whose bodies have the same shape: alike but for names, types and numbers.

Usage: tools/twins.py [FEWEST_LINES]     (at the top of the repository; 3 lines where no number is given)
"""
import collections
import pathlib
import re
import sys

fewest = int(sys.argv[1]) if len(sys.argv) > 1 else 3
groups = collections.defaultdict(list)
for path in sorted(pathlib.Path("crates").glob("*/src/**/*.rt")):
    lines = path.read_text().splitlines()
    at = 0
    while at < len(lines):
        head = re.match(r"(\s*)(?:pub(?:\(crate\))? )?(?:final )?fn (\w+)", lines[at])
        if not head:
            at += 1
            continue
        start = at
        while at < len(lines) and lines[at].rstrip() != head[1] + "{" and not lines[at].endswith(("{", ";")):
            at += 1
        first = at + 1
        while at < len(lines) and lines[at] != head[1] + "}":
            at += 1
        body = [line.strip() for line in lines[first:at] if line.strip() and not line.strip().startswith("//")]
        if len(body) >= fewest:
            names = {}
            shape = re.sub(r"[A-Za-z_]\w*|\d\w*", lambda m: names.setdefault(m[0], f"n{len(names)}"), "\n".join(body))
            groups[shape].append(f"{path}:{start + 1} {head[2]} ({len(body)} lines)")
        at += 1
count = 0
for places in groups.values():
    if len(places) > 1:
        count += 1
        print(f"group {count}: {len(places)} functions")
        for place in places:
            print(f"  {place}")
print(f"{count} groups, {sum(len(p) for p in groups.values() if len(p) > 1)} functions")
