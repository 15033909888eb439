#!/usr/bin/env python3
"""Brings the repository's own definitions and lemmas to the spelling of today's Rattle, once, after port.py: words in snake case.

    python3 tools/snake_names.py          at the top of the repository: rewrites crates/, tests/, tools/ and the pages in place

port.py respells the names of Rattle and its library; the repository's own (`imageLength`, `slotIn`) are left to this script. A name with a capital within it
and none at its start is a value, a lemma or a local, never a function of src/, which are in snake case already; types and modules keep their capitals.
Where the new name is another lemma's or local's in a file that has both, that one is renamed first (FALLS_TOGETHER).
"""
import os
import re

# what would have the name of a definition beside it, and its new name
FALLS_TOGETHER = {
    "all_digits": "are_all_digits",
    "all_told": "all_told_are",
    "in_place": "is_in_place",
    "is_digit": "is_a_digit",
    "is_open": "is_open_now",
    "line_word": "line_word_is",
    "map_back": "map_is_back",
    "no_keys": "no_keys_are",
    "op_fits": "op_does_fit",
    "wide_ok": "wide_is_ok",
    "write_done": "write_is_done",
}
CAMEL = re.compile(r"(?<![A-Za-z0-9_'])([a-z][A-Za-z0-9_'-]*[a-z0-9][A-Z][A-Za-z0-9_'-]*)")
# a name by itself: no part of a path, of a projection or of a name with dashes
ALONE = r"(?<![A-Za-z0-9_'·.-]){}(?![A-Za-z0-9_'.-])"
# an import from proofs/ has dots and braces before the name; paths of proofs/ name files and functions, which stay
PAGES = (".md", ".txt", ".py", ".sh")


def files(root, endings):
    for folder, dirs, names in os.walk(root):
        dirs[:] = sorted(d for d in dirs if d not in ("out", "target", ".git"))
        for name in sorted(names):
            if name.endswith(endings):
                yield os.path.join(folder, name)


def read(path):
    with open(path, encoding="utf-8") as file:
        return file.read()


def snake(word):
    word = word.replace("getD", "get_or")
    return re.sub(r"(?<=[a-z0-9])([A-Z])", lambda m: "_" + m[1].lower(), word)


def names():
    """Each camel-case name that an .antt file has, and its new one."""
    found = set()
    for path in files("crates", (".antt",)):
        found |= set(CAMEL.findall(re.sub(r"--.*", "", read(path))))
    return {word: snake(word) for word in found}


def turned(text, new, apart):
    for word, other in apart.items():
        text = re.sub(ALONE.format(re.escape(word)), other, text)
    return CAMEL.sub(lambda m: new.get(m[1], m[1]), text)


def main():
    new = names()
    changed = 0
    for path in [*files("crates", (".antt", ".rt", ".edit")), *files("tests", (".edit", *PAGES)), *files("docs", (".md",)), *files("tools", (".py",)),
                 "README.md"]:
        if path == os.path.join("tools", os.path.basename(__file__)):
            continue
        text = read(path)
        after = turned(text, new, FALLS_TOGETHER if path.endswith(".antt") else {})
        if after != text:
            changed += 1
            with open(path, "w", encoding="utf-8") as file:
                file.write(after)
    print(f"{len(new)} names, {changed} files")


if __name__ == "__main__":
    main()
