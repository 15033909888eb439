#!/usr/bin/env python3
"""Holds crates.txt to the crates' files: a crate lists what its files name, and no more.

The kit has a crate list each library that its files name (`X::` in src/, `Rattle.X` there, in specs/ and in proofs/; a library that is only reached through
another one cannot be named) and each that declares the type of a value which its code handles, be it under the name by which another library passes it on.
Any other line of crates.txt says that a crate leans on one that it does not need, and has rt prove it again for nothing.

    tools/direct.py            fails where a crate lists another one for nothing, or does not list one that its files name
    tools/direct.py --write    takes those out of crates.txt
"""
import glob
import re
import sys

LIST = "crates.txt"
TYPE = re.compile(r"\b[A-Z]\w+")


def text_of(crate, *forms):
    paths = [path for form in forms for path in sorted(glob.glob(f"crates/{crate}/{form}", recursive=True))]
    return "\n".join(line.split("//")[0] for path in paths for line in open(path, encoding="utf-8"))


def listed(line):
    """The crate of a line and what it lists; none where the line has no crate."""
    name, colon, words = line.split("#")[0].partition(":")
    return (name.split()[0], words.split()) if colon else None


lines = open(LIST, encoding="utf-8").read().split("\n")
deps = dict(filter(None, map(listed, lines)))
code = {crate: text_of(crate, "src/**/*.rt") for crate in deps}
proofs = {crate: text_of(crate, "specs/**/*.antt", "proofs/**/*.antt") for crate in deps}
# of each type's name the crates that declare one and the types in it; of each crate's function the types in its head
declared, heads = {}, {}
for crate, text in code.items():
    for name, inside in re.findall(r"\b(?:struct|enum) (\w+)[^{;]*\{(.*?)\n\}", text, re.S):
        declared.setdefault(name, []).append((crate, TYPE.findall(inside)))
    for name, given, back in re.findall(r"\bfn (\w+)\s*(?:<[^>]*>)?\((.*?)\)\s*(?:->\s*([^\n{]*))?", text, re.S):
        heads.setdefault((crate, name), set()).update(TYPE.findall(given + " " + back))


def declarers(crate):
    """The crates that declare a type which stands in a crate's code, in the head of a function that it calls, or inside such a type."""
    calls = re.findall(r"\b(\w+)(?:::\w+)*::(\w+)[(;]", code[crate])
    todo, seen = set(TYPE.findall(code[crate])).union(*(heads.get(call, ()) for call in calls)), set()
    while todo - seen:
        name = (todo - seen).pop()
        seen.add(name)
        todo.update(inner for _, inside in declared.get(name, []) for inner in inside)
    return {other for name in seen for other, _ in declared.get(name, [])}


def names(crate, dep):
    return bool(re.search(rf"(?<![\w:]){dep}::|Rattle\.{dep}\b", code[crate]) or re.search(rf"Rattle\.{dep}\b", proofs[crate]))


def needed(crate, dep):
    return names(crate, dep) or dep in declarers(crate)


idle = {crate: [dep for dep in deps[crate] if not needed(crate, dep)] for crate in deps}
if "--write" in sys.argv:
    kept = {crate: [dep for dep in deps[crate] if dep not in idle[crate]] for crate in deps}
    made = [f"{listed(line)[0]}: {' '.join(kept[listed(line)[0]])}".rstrip() if listed(line) else line for line in lines]
    open(LIST, "w", encoding="utf-8").write("\n".join(made))
    idle = {}
modules = {crate: set(re.findall(r"^\s*(?:pub )?mod (\w+)", code[crate], re.M)) for crate in deps}
lacking = [(crate, other) for crate in deps for other in deps if other not in {crate, *deps[crate], *modules[crate]} and names(crate, other)]
found = [f"crates.txt: {crate} lists {dep}, which none of its files needs" for crate in idle for dep in idle[crate]]
lost = [f"crates.txt: {crate} does not list {other}, which its files name" for crate, other in lacking]
print(*found, *lost, f"{sum(map(len, deps.values()))} dependencies of {len(deps)} crates, {len(found)} for nothing, {len(lost)} not listed", sep="\n")
sys.exit(bool(found + lost))
