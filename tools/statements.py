#!/usr/bin/env python3
"""Holds the statements to tests/statements.txt, so that a changed one is a change that somebody signs in the same commit.

A proof does not notice that its statement says less than it did: a premise that nothing meets, or a sentence that is always true, leaves it as it is. What a
function's contract equates with code cannot be hollowed in this way. So these are held:

- a file of specs/ that declares a proposition, that is, anything whose result is Type 0;
- every file of specs/ of a crate without functions, where no contract ties a definition to code;
- in proofs/, that a statement without parameters, declared in such a file, is the type of a theorem (FILE#THEOREM), and a record of sentences where it is;
- any other line of the record: a theorem may be listed by hand.

A sum is of the text without comments, blanks as one, so that neither a comment nor rt fmt needs a signature. With --sign the record is written anew; the
words of a line, what it states, are kept and may be edited by hand.
"""
import glob
import hashlib
import os
import re
import sys

RECORD = "tests/statements.txt"
HEADING = """\
# The statements, signed: the sum of each file or theorem, and what it states. `python3 tools/statements.py` says what is held and fails on a difference;
# after a change that is meant, `python3 tools/statements.py --sign` writes the sums anew.
"""
PROPOSITION = re.compile(r"(?:→|:) Type 0(?: where)?$", re.M)
CLOSED = re.compile(r"^abbrev pub (\w+) : Type 0$", re.M)
SENTENCES = re.compile(r"^pub record (\w+) : Type 0 where$", re.M)


def read(path):
    return open(path, encoding="utf-8").read()


def plain(text):
    return " ".join(re.sub(r"(?m)(?:^|(?<=\s))--.*$", "", text).split())


def stated(item):
    """The text that a line of the record holds: a file's, or the type of a theorem in it; none where it is gone."""
    path, _, theorem = item.partition("#")
    if not os.path.exists(path):
        return None
    if not theorem:
        return plain(read(path))
    found = re.search(rf"^pub {theorem} : (.*?)^(?:unfolding\b|{theorem} )", read(path), re.M | re.S)
    return found and plain(found.group(1))


def has_functions(crate):
    return any(re.search(r"^\s*(?:pub(?:\(crate\))? )?(?:extern \"C\" )?fn ", read(path), re.M) for path in glob.glob(f"{crate}/src/**/*.rt", recursive=True))


def proved():
    """FILE#THEOREM and the type of each theorem whose type is one name."""
    return [(f"{path}#{theorem}", name) for path in sorted(glob.glob("crates/*/proofs/*.antt"))
            for theorem, name in re.findall(r"^pub ([\w-]+) : (\w+)$", read(path), re.M)]


def held():
    """What must stand in the record, and the statements that are the type of no theorem: of their crate or, where it has none, of any."""
    items, unproved, theorems = [], [], proved()
    for crate in sorted(glob.glob("crates/*")):
        files = [path for path in sorted(glob.glob(f"{crate}/specs/*.antt")) if not path.endswith("/Lib.antt")]
        files = [path for path in files if PROPOSITION.search(read(path)) or not has_functions(crate)]
        items += files
        for name in [name for path in files for name in CLOSED.findall(read(path)) if not is_type(read(path), name)]:
            found = [item for item, type_ in theorems if type_ == name]
            items += [item for item in found if item.startswith(crate + "/")] or found
            unproved += [] if found else [f"{crate}: {name} is the type of no theorem"]
        # a record without parameters is data or several sentences: sentences where it is the type of a theorem
        for name in [name for path in files for name in SENTENCES.findall(read(path))]:
            items += [item for item, type_ in theorems if type_ == name]
    return items, unproved


def is_type(text, name):
    """Whether a name is another word for a type of data, such as `Row = Bool × ℕ`."""
    return bool(re.search(rf"^{name} = (?:Bool|ℕ|List|Option|Result)\b", text, re.M))


def recorded():
    lines = [line.split(None, 2) for line in read(RECORD).split("\n") if line and not line.startswith("#")] if os.path.exists(RECORD) else []
    return {line[1]: (line[0], line[2] if len(line) > 2 else "") for line in lines}


def words(item, text):
    """What a new line says of a file: its first sentence, a long one up to its colon; of a theorem: its type."""
    if "#" in item:
        return text
    comment = " ".join(line[3:] for line in re.match(r"(?:-- .*\n)*", read(item)).group().split("\n")).strip()
    sentence = re.split(r"(?<=\.) ", comment)[0].rstrip(".")
    return sentence if len(sentence) <= 100 else re.split(r"[:;] ", sentence)[0]


record = recorded()
items, complaints = held()
sums = {item: text and hashlib.sha256(text.encode()).hexdigest()[:16] for item in {*items, *record} for text in [stated(item)]}
if "--sign" in sys.argv:
    lines = [f"{sums[item]} {item} {record[item][1] if item in record else words(item, stated(item))}" for item in sorted(sums) if sums[item]]
    open(RECORD, "w", encoding="utf-8").write(HEADING + "\n".join(lines) + "\n")
    for item in sorted(item for item in sums if not sums[item]):
        print(f"{item} is gone, and no longer in the record")
    record = recorded()
complaints += [f"{item} is a statement that {RECORD} does not list" for item in items if item not in record]
complaints += [f"{item} is gone" for item in record if not sums.get(item)]
complaints += [f"{item} is not the one that was signed" for item, (signed, _) in record.items() if sums.get(item) and sums[item] != signed]
print(*sorted(complaints), f"{len(record)} statements, {len(complaints)} of them changed, gone, unlisted or unproved", sep="\n")
sys.exit(bool(complaints))
