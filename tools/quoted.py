#!/usr/bin/env python3
"""Holds the code that documents quote to the code that stands.

A quotation is a comment `<!-- quoted from FILE: NAME NAME -->` with a fenced block behind it: the functions of these names, each with its comment and
its contract, parted by blank lines. With --write the blocks are made anew.
"""
import glob
import re
import sys

QUOTED = re.compile(r"(<!-- quoted from (\S+): ([\w ]+?) -->\n\n```rust\n)(.*?)(```\n)", re.S)


def function(path, name):
    """The text of a function: the comment lines before it, its contract and its body."""
    lines = open(path, encoding="utf-8").read().split("\n")
    starts = [n for n, line in enumerate(lines) if re.match(rf"(?:pub )?fn {name}\b", line)]
    if len(starts) != 1:
        sys.exit(f"{path} has {len(starts)} functions {name}")
    first = starts[0]
    while lines[first - 1].startswith("//"):
        first -= 1
    last = lines.index("}", starts[0])
    return "\n".join(lines[first : last + 1]) + "\n"


stale = 0
for page in sorted(glob.glob("docs/**/*.md", recursive=True) + ["README.md"]):
    text = open(page, encoding="utf-8").read()
    new = QUOTED.sub(lambda m: m[1] + "\n".join(function(m[2], name) for name in m[3].split()) + m[5], text)
    if new != text and "--write" in sys.argv:
        open(page, "w", encoding="utf-8").write(new)
    elif new != text:
        stale += 1
        print(f"{page} quotes code that is not the code: tools/quoted.py --write")
sys.exit(stale > 0)
