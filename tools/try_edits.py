#!/usr/bin/env python3
"""Tries the must-fail edits of FOLDER/CRATE/*.edit by rt must-fail, which begins with what stands proved; with names after FOLDER of these crates alone.

    --share     of them a twelfth, by the count of commits: another one with each, so that in twelve all have had their turn
    --share=K   the twelfth K, 0 to 11
    --since=C   those alone that are not as they were at the commit C
    --list      prints the edits that would be tried

What was tried of tests/release_edits stands in tests/edits_tried.txt with the count of commits and what came of it: commit it with the next change.

The edits are put in the place of the crates' own, in a copy of crates/ and crates.txt with the libraries that are proved and built. An edit that the prover
does not refuse fails the run, and so does one that cannot be applied, compiled or read, or is not tried. Run from the repository's root, once all is proved:
of a crate and an edit with nothing changed below, rt takes what an earlier run on this machine did.
"""
import glob
import os
import re
import shutil
import subprocess
import sys
import tempfile
import zlib

SHARES = 12
STAMPED, STAMPS = "tests/release_edits", "tests/edits_tried.txt"
HEADING = """# Written by tools/try_edits.py: of each edit of tests/release_edits the count of commits (git rev-list --count HEAD) when it was last tried, and what
# came of it. One that is not listed was not tried since the file began, at count 367; docs/CHECKS.md of 798c3cf says what was tried before. Counts up to
# 375 are of the older kit (docs/PORT.md).
"""


def read(path):
    return open(path, encoding="utf-8").read()


def commits():
    """The count of commits, 0 where git does not say."""
    said = subprocess.run(["git", "rev-list", "--count", "HEAD"], capture_output=True, text=True).stdout.strip()
    return int(said or 0)


def shared(crate, edits, share):
    """The edits of a crate whose turn it is. A crate's first one has its turn by the crate's name, the next one a commit later, so that other crates' edits
    do not move them."""
    return [edit for k, edit in enumerate(edits) if (zlib.crc32(crate.encode()) + k) % SHARES == share]


def stamp(asked, kept):
    """Puts down what was tried, and forgets edits that are gone."""
    stamps = dict(line.split(" ", 1) for line in read(STAMPS).split("\n") if line and not line.startswith("#")) if os.path.exists(STAMPS) else {}
    for name, edits in asked.items():
        stamps.update({f"{name}/{edit}": f"{commits()} {'NOT REFUSED' if (name, edit) in kept else 'refused'}" for edit in edits})
    lines = [f"{edit} {said}" for edit, said in sorted(stamps.items()) if os.path.exists(f"{STAMPED}/{edit}.edit")]
    with open(STAMPS, "w", encoding="utf-8") as out:
        out.write(HEADING + "\n".join(lines) + "\n")


def chosen(folder, names, options):
    """Of each crate the edits to be tried."""
    asked = {name: [os.path.basename(path)[:-5] for path in sorted(glob.glob(f"{folder}/{name}/*.edit"))] for name in names or sorted(os.listdir(folder))}
    for option in options:
        if option.startswith("--share"):
            share = int(option.partition("=")[2] or commits()) % SHARES
            asked = {name: shared(name, edits, share) for name, edits in asked.items()}
            print(f"{folder}: share {share} of {SHARES}")
        if option.startswith("--since="):
            changed = subprocess.run(["git", "diff", "--name-only", option.partition("=")[2], "--", folder], capture_output=True, text=True, check=True).stdout.split()
            asked = {name: [edit for edit in edits if f"{folder}/{name}/{edit}.edit" in changed] for name, edits in asked.items()}
    return {name: edits for name, edits in asked.items() if edits}


def put(one, other):
    """A file of a copy, by a link where that can be made: rt replaces what it built, and changes none of it."""
    try:
        os.link(one, other)
    except OSError:
        shutil.copy2(one, other)


def try_all(folder, asked):
    """Has rt try each edit; gives those that were not refused, with what was said of them, and those that rt marks as refused only because
    a proof file names what the edit took away, or by a limit of the prover. rt marks none where another error stands beside that."""
    work = tempfile.mkdtemp()
    try:
        shutil.copytree("crates", f"{work}/crates", ignore=shutil.ignore_patterns("must-fail", "out"))
        shutil.copy("crates.txt", work)
        for built in glob.glob("crates/*/out/rlib"):
            shutil.copytree(built, f"{work}/{built}", copy_function=put)
        for name, edits in asked.items():
            os.makedirs(f"{work}/crates/{name}/must-fail")
            for edit in edits:
                shutil.copy(f"{folder}/{name}/{edit}.edit", f"{work}/crates/{name}/must-fail")
        said = subprocess.run(["rt", "must-fail", *asked], cwd=work, capture_output=True, text=True)
    finally:
        shutil.rmtree(work)
    of = dict(re.findall(r"^rt: must-fail (\S+)\.edit: (.*)$", said.stdout, re.M))
    if said.returncode not in (0, 1) or not of and asked:
        print(said.stdout[-3000:], said.stderr[-3000:])
        sys.exit(2)
    kept = {(name, edit): of.get(f"{name}/{edit}", "not tried") for name in asked for edit in asked[name]
            if not of.get(f"{name}/{edit}", "").startswith("refused")}
    return kept, [edit for edit, words in of.items() if words.startswith("refused, as it must be (only")]


def main():
    options = [word for word in sys.argv[1:] if word.startswith("--")]
    folder, *names = [word.rstrip("/") for word in sys.argv[1:] if not word.startswith("--")]
    asked = chosen(folder, names, options)
    if "--list" in options:
        print(*[f"{folder}/{name}/{edit}" for name in asked for edit in asked[name]], sep="\n")
        return
    kept, weak = try_all(folder, asked)
    if folder == STAMPED:
        stamp(asked, kept)
    for (name, edit), words in kept.items():
        print(f"{folder}/{name}/{edit}: {words}")
    for edit in weak:
        print(f"{folder}/{edit}: marked by rt as refused only for a name or a limit")
    count = sum(len(edits) for edits in asked.values())
    print(f"{count} edits tried; {count - len(kept)} refused, {len(weak)} of them marked by rt as only for a name or a limit; {len(kept)} not")
    sys.exit(len(kept) > 0)


main()
