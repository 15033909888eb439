#!/usr/bin/env python3
"""Counts the must-fail edits of each public function that has a contract, and names those with fewer than two.

An edit is of the function in whose text, contract and body, it stands. One whose text does not stand exactly once is named too. With -v every function is
printed with its edits.
"""
import glob
import os
import re
import sys

FOLDERS = ("crates/{}/must-fail", "tests/merge_edits/{}", "tests/release_edits/{}")
FUNCTION = re.compile(r"(?:    )?(?:pub(?:\(crate\))? )?(?:extern \"C\" )?fn (\w+)")
OF_TRAIT = re.compile(r"impl\b.* for ")


def functions(path):
    """The functions and methods of a file: name, a method's behind its `impl`; first line; text; whether it is public, as a trait's methods are."""
    lines = open(path, encoding="utf-8").read().split("\n")
    starts = [(n, FUNCTION.match(line).group(1)) for n, line in enumerate(lines) if FUNCTION.match(line)]
    for (n, name), (end, _) in zip(starts, starts[1:] + [(len(lines), "")]):
        heads = [line for line in lines[:n] if line.startswith("impl")][-1:] if lines[n].startswith(" ") else []
        public = lines[n].lstrip().startswith("pub ") or any(OF_TRAIT.match(head) for head in heads)
        yield " ".join([head.rstrip(" {") for head in heads] + [name]), n, "\n".join(line.split("//")[0] for line in lines[n:end]), public


def edited_line(path, edit):
    """The line that an edit changes, that of its last pair; none where a text of it does not stand exactly once."""
    text = open(path, encoding="utf-8").read() if os.path.exists(path) else ""
    pairs = list(zip(re.findall(r"^old: (.*)$", edit, re.M), re.findall(r"^new: ?(.*)$", edit, re.M)))
    for old, new in pairs[:-1]:
        if text.count(old) != 1:
            return None
        text = text.replace(old, new)
    return text[: text.index(pairs[-1][0])].count("\n") if text.count(pairs[-1][0]) == 1 else None


def crate_edits(crate):
    """Each public function with a contract and the edits that it has; and the edits whose text does not stand."""
    found = [(path, *item) for path in sorted(glob.glob(f"crates/{crate}/src/**/*.rt", recursive=True)) for item in functions(path)]
    of = {(path, name): [] for path, name, _, text, public in found if public and "ensures" in text}
    lost = []
    for edit in sorted(sum((glob.glob(folder.format(crate) + "/*.edit") for folder in FOLDERS), [])):
        words = open(edit, encoding="utf-8").read()
        path = f"crates/{crate}/" + re.search(r"^file: (.*)$", words, re.M).group(1)
        line = edited_line(path, words)
        if line is None:
            lost.append(edit)
            continue
        hit = [(p, name) for p, name, start, _, _ in found if p == path and start <= line][-1:]
        for key in hit:
            of.get(key, []).append(os.path.basename(edit)[:-5])
    return of, lost


few = total = stale = 0
for crate in [line.split(":")[0].split()[0] for line in open("crates.txt", encoding="utf-8") if ":" in line and not line.startswith("#")]:
    of, lost = crate_edits(crate)
    for edit in lost:
        print(f"{edit}: its text does not stand exactly once")
    stale += len(lost)
    for (path, name), edits in of.items():
        total += 1
        few += len(edits) < 2
        if len(edits) < 2 or "-v" in sys.argv:
            print(f"{crate} {os.path.basename(path)} {name}: {len(edits)}", *edits)
print(f"{total} public functions with a contract, {few} of them with fewer than two edits; {stale} edits whose text does not stand")
sys.exit(few + stale > 0)
