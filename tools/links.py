#!/usr/bin/env python3
"""Holds the Markdown files to the repository.

- every link to a file or to a heading resolves, those by a name that the page defines too;
- every path in code quotes that names a file, a folder, a crate's file or a must-fail edit of the repository exists (the landings' notes aside, which
  name things as they stood then);
- no line is longer than 120 characters but quoted code, and rows of tables on the pages in WIDE.
"""
import glob
import os
import re
import sys

LONGEST = 120
# pages whose tables may be wide: bench/RESULTS.md is printed by bench/run and the model, and the gate holds its last table to what the model prints
WIDE = {"bench/RESULTS.md"}
CRATES = set(os.listdir("crates"))
EDITS = ("crates/{}/must-fail/{}.edit", "tests/merge_edits/{}/{}.edit", "tests/release_edits/{}/{}.edit")
PLACEHOLDER = re.compile(r"\b[A-Z]{2,}\b|\.\.|\*|…")
problems = []


def read(path):
    return open(path, encoding="utf-8").read()


def pages():
    found = [path for path in glob.glob("**/*.md", recursive=True) if not path.startswith("target/") and "/target/" not in path]
    return sorted(found)


def slug(heading):
    """The name that a heading is linked by."""
    plain = re.sub(r"`|\*\*|\[([^]]*)\]\([^)]*\)", r"\1", heading)
    return re.sub(r"[^\w\- ]", "", plain.lower()).strip().replace(" ", "-")


def anchors(path):
    return {slug(line.lstrip("#").strip()) for _, line, code in lines_of(path) if not code and re.match(r"#+ ", line)}


def lines_of(path):
    """Each line with its number and whether it is quoted code: fenced, or indented by four and outside a list."""
    fenced = listed = False
    for number, line in enumerate(read(path).split("\n"), 1):
        if line.startswith("```"):
            fenced = not fenced
            yield number, line, True
            continue
        if re.match(r"(?:[-*]|\d+\.) ", line):
            listed = True
        elif line and not line.startswith(" "):
            listed = False
        yield number, line, fenced or (line.startswith("    ") and not listed)


def check_link(path, number, target):
    if re.match(r"[a-z]+:", target):
        return
    file, _, anchor = target.partition("#")
    there = os.path.normpath(os.path.join(os.path.dirname(path), file)) if file else path
    if not os.path.exists(there):
        problems.append(f"{path}:{number}: {target} does not exist")
    elif anchor and anchor not in anchors(there):
        problems.append(f"{path}:{number}: {there} has no heading #{anchor}")


def stands(folder, words):
    """Whether a quoted path stands in the repository: from the root, beside the page, in a crate, as an edit or a vector; true of what is no path, and of
    what rt makes of a crate."""
    first, _, rest = words.partition("/")
    if re.fullmatch(r"crates/\w+/out/\w+", words):
        return os.path.isdir(words.split("/out/")[0])
    if first in ("", "target") or any(os.path.exists(os.path.join(place, words)) for place in ("", folder, "crates")) or glob.glob(f"tests/vectors/{words}.in"):
        return True
    if first in CRATES:
        return any(os.path.exists(form.format(first, rest)) for form in EDITS)
    if first in ("specs", "proofs", "src"):
        return bool(glob.glob(f"crates/*/{words}"))
    return not os.path.isdir(first)


def check_quote(path, number, words):
    if "/" not in words or not re.fullmatch(r"[\w./+-]+", words) or PLACEHOLDER.search(re.sub(r"README|\b[A-Z]+\.md|[A-Z]+\.txt", "", words)):
        return
    if re.fullmatch(r"[\d/.]+", words) or words.startswith(("<", "-")):
        return
    if not stands(os.path.dirname(path), words.rstrip("/")):
        problems.append(f"{path}:{number}: `{words}` does not exist")


for path in pages():
    named = dict(re.findall(r"^\[([^]]+)\]: (\S+)$", read(path), re.M))
    for number, line, code in lines_of(path):
        if len(line) > LONGEST and not code and not (path in WIDE and line.startswith("|")):
            problems.append(f"{path}:{number}: {len(line)} characters")
        if code:
            continue
        plain = re.sub(r"`[^`]*`", "", line)
        for target in re.findall(r"\]\(([^)\s]+)\)|^\[[^]]+\]: (\S+)$", plain):
            check_link(path, number, "".join(target))
        for name in re.findall(r"\]\[(\w+)\]", plain):
            if name not in named:
                problems.append(f"{path}:{number}: no link is named {name}")
        for words in re.findall(r"`([^`\n]+)`", line) if not path.startswith("docs/landings/L") else []:
            check_quote(path, number, words)
print(*problems, f"{len(pages())} pages, {len(problems)} problems", sep="\n")
sys.exit(bool(problems))
