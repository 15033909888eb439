#!/usr/bin/env python3
"""Holds the functions that take an image to write to a recorded list.

Only `op_writer::put_piece` stores for operations, and it requires each store's turn; every other function on the list hands the image on to
it, or is named with its reason. A function that takes `&mut [u8]` and is not on the list could store out of turn with no proof that says so.
Looked at are the crates of the core on words, by their prefixes.

Of the functions that a word goes through on its way into the image the code itself is signed: a contract sees what they leave, not whether a word was
stored twice, first with another value. After a change that is meant, and read, --sign writes the sums anew.

    tools/writers.py          fails where a function takes an image to write and is not listed, or is listed and does not, or signed code has changed
    tools/writers.py --list   prints them
"""
import glob
import hashlib
import re
import sys

PREFIXES = ("state_", "op_", "call_", "badgerdross")
PROBE = ("state_text", "state_edits")  # probe's, which print and set a state
FUNCTION = re.compile(r"^\s*(?:pub(?:\(crate\))? )?(?:extern \"C\" )?fn (\w+)[^(]*\(([^)]*)\)", re.M)
LIST = "tests/writers.txt"


def writers():
    """Crate, module and name of each function that takes a slice of bytes to write."""
    for path in sorted(glob.glob("crates/*/src/**/*.rt", recursive=True)):
        crate = path.split("/")[1]
        if not crate.startswith(PREFIXES) or crate in PROBE:
            continue
        module = path.split("/src/")[1][:-3].replace("/", "::")
        text = re.sub(r"//.*", "", open(path, encoding="utf-8").read())
        for name, parameters in FUNCTION.findall(text):
            if re.search(r"&(?:'\w+ )?mut \[u8\]", parameters):
                yield f"{crate}::{name}" if module == "lib" else f"{crate}::{module}::{name}"


def sum_of(name):
    """The sum of a function's text, contract and body, without comments and with blanks as one."""
    crate, *modules, function = name.split("::")
    text = re.sub(r"//.*", "", open(f"crates/{crate}/src/{'/'.join(modules) or 'lib'}.rt", encoding="utf-8").read())
    body = re.search(rf"^(?:pub )?fn {function}\b.*?^}}$", text, re.M | re.S).group(0)
    return hashlib.sha256(" ".join(body.split()).encode()).hexdigest()[:16]


def signed(text):
    """The list with the sums as they are, and the names whose code is not the signed one."""
    changed = [name for name, was in re.findall(r"^signed (\S+) (\w+)$", text, re.M) if sum_of(name) != was]
    return re.sub(r"^signed (\S+) \w+$", lambda m: f"signed {m[1]} {sum_of(m[1])}", text, flags=re.M), changed


text, changed = signed(open(LIST, encoding="utf-8").read())
if "--sign" in sys.argv:
    open(LIST, "w", encoding="utf-8").write(text)
    changed = []
found = set(writers())
if "--list" in sys.argv:
    print(*sorted(found), sep="\n")
    sys.exit(0)
listed = {line.split()[0] for line in open(LIST, encoding="utf-8") if line.strip() and not line.startswith(("#", "signed "))}
for name in sorted(found - listed):
    print(f"{name} takes an image to write and is not in {LIST}")
for name in sorted(listed - found):
    print(f"{name} is in {LIST} and takes no image to write")
for name in changed:
    print(f"{name} is not the code that was signed in {LIST}: see that it stores each word once, then tools/writers.py --sign")
print(f"{len(found)} functions take an image to write")
sys.exit(found != listed or bool(changed))
