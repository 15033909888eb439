#!/usr/bin/env python3
"""Prints the table of docs/CHECKS.md: python3 tools/checks.py, from the root. How long the check of a crate takes is not in it: rt ci does not say."""
import os
import re

print("| Crate | Functions | Code lines | Definition lines | Proof lines | Must-fail edits |")
print("|---|---|---|---|---|---|")


def lines(folder, ending):
    """Lines that are neither empty nor comments."""
    total = 0
    for root, _, names in os.walk(folder):
        for name in names:
            if name.endswith(ending):
                text = open(os.path.join(root, name), encoding="utf-8").read().split("\n")
                total += sum(1 for t in text if t.strip() and not t.strip().startswith(("//", "--")))
    return total


def functions(folder):
    total = 0
    for root, _, names in os.walk(folder):
        for name in names:
            total += len(re.findall(r"(?m)^\s*(?:pub |pub\(crate\) )?(?:extern \"C\" )?fn \w+", open(os.path.join(root, name), encoding="utf-8").read()))
    return total


sums = [0] * 5
for line in open("crates.txt", encoding="utf-8"):
    words = line.split("#")[0].split(":")[0].split()
    if not words:
        continue
    crate = words[0]
    base = f"crates/{crate}"
    edits = sum(len(os.listdir(folder)) for folder in (f"{base}/must-fail", f"tests/merge_edits/{crate}") if os.path.isdir(folder))
    row = [functions(f"{base}/src"), lines(f"{base}/src", ".rt"), lines(f"{base}/specs", ".antt"), lines(f"{base}/proofs", ".antt"), edits]
    sums = [a + b for a, b in zip(sums, row)]
    print(f"| {crate} | " + " | ".join(str(n) for n in row) + " |")
print("| all | " + " | ".join(str(n) for n in sums) + " |")
