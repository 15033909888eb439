#!/usr/bin/env python3
"""Counts in src/ the places that docs/DESIGN-PASS.md speaks of: forms of an older Rattle for which today's has a plainer one.

    python3 tools/places.py           the counts, a line each
    python3 tools/places.py -v        and the places: file, line, text

Counted by the text, so a place that stays as it is, with the reason beside it, is counted too. Twins are functions of one crate or of two whose tokens are the
same but for names and numbers.
"""
import glob
import re
import sys

FUNCTION = re.compile(r"^\s*(?:pub(?:\(crate\))? )?(?:extern \"C\" )?fn (\w+)")
KEPT = {"fn", "pub", "let", "mut", "if", "else", "while", "for", "in", "return", "match", "as", "usize", "u64", "u8", "bool", "true", "false"}
CONVERSIONS = r"number_of|answer_of|until_of|join|word_of|put_bytes|put_decimal|put_byte|is_digit|worth|one_if|op_by|letter_of|asks_of|digit\w*"


def sources():
    for path in sorted(glob.glob("crates/*/src/**/*.rt", recursive=True)):
        yield path, [line.split("//")[0].rstrip() for line in open(path, encoding="utf-8").read().split("\n")]


def functions():
    """Of each function: where it stands, its head up to the clauses, its clauses, its body."""
    for path, lines in sources():
        starts = [n for n, line in enumerate(lines) if FUNCTION.match(line)]
        for start, end in zip(starts, starts[1:] + [len(lines)]):
            text = "\n".join(lines[start:end])
            head, brace, body = text.partition("\n{")
            if not brace:
                head, brace, body = text.partition(" {\n")
            signature = re.split(r"\n\s*(?:requires|ensures)\b", head)[0]
            yield path, start + 1, FUNCTION.match(lines[start]).group(1), signature, head[len(signature):], body


def lines_with(pattern):
    return [(path, n + 1, line.strip()) for path, lines in sources() for n, line in enumerate(lines) if re.search(pattern, line)]


def functions_with(test):
    return [(path, n, name) for path, n, name, signature, clauses, body in functions() if test(signature, clauses, body)]


def shape(body):
    """The tokens of a body, each name and number by its first place."""
    seen = {}
    tokens = re.findall(r"\w+|[^\w\s]", body)
    return tuple(t if t in KEPT or not re.match(r"\w", t) else seen.setdefault(t, len(seen)) for t in tokens)


def twins():
    of = {}
    for path, n, name, _, _, body in functions():
        key = shape(body)
        if len(key) >= 25:
            of.setdefault(key, []).append((path, n, name))
    return [place for places in of.values() if len(places) > 1 for place in places]


def enums(test):
    found = []
    for path, lines in sources():
        text = "\n".join(lines)
        for m in re.finditer(r"^(?:pub(?:\(crate\))? )?enum (\w+) \{\n(.*?)^\}", text, re.M | re.S):
            variants = re.findall(r"^    (\w+)(\(|,| \{)", m.group(2), re.M)
            if test(variants):
                found.append((path, text[: m.start()].count("\n") + 1, m.group(1)))
    return found


COUNTS = [
    ("1 own enums with one case that holds a value", lambda: enums(lambda v: sum(k != "," for _, k in v) == 1 and len(v) != 2 or len(v) == 2 and any(k != "," for _, k in v))),
    ("1 fields that say whether the others hold", lambda: lines_with(r"^    (pub )?(row|answer|number|ok|set|changed|more|letter): \w+,$")),
    ("1 functions that return a row by its number", lambda: functions_with(lambda s, c, b: re.search(r"fn \w*row\w*\(", s) and "-> usize" in s)),
    ("1 lines that test a row or a number", lambda: lines_with(r"\b(row|number|early)\b [!=]= \d+")),
    ("1 parameters that are a kind by its number", lambda: lines_with(r"\b(kind|call|letter): (usize|u8)\b")),
    ("2 twins, of 25 tokens or more", twins),
    ("3 loops by while", lambda: lines_with(r"^\s*while ")),
    ("4 derives of Clone and Copy alone", lambda: lines_with(r"derive\(Clone, Copy\)")),
    ("4 conversions and printing by hand", lambda: lines_with(r"^\s*(pub(\(crate\))? )?fn (" + CONVERSIONS + r")\(")),
    ("5 contracts that say Legal z", lambda: functions_with(lambda s, c, b: re.search(r"requires[^\n]*\n?[^\n]*Legal z", c))),
    ("5 contracts that say whose sizes and places z and at are", lambda: functions_with(lambda s, c, b: "≡ places_of" in c)),
    ("5 functions that take sizes beside the words", lambda: functions_with(lambda s, c, b: "z: Sizes" in s and "words: &" in s)),
    ("5 functions that take sizes beside the image", lambda: functions_with(lambda s, c, b: "z: Sizes" in s and "image: &" in s)),
    ("6 functions that take arrays side by side", lambda: functions_with(lambda s, c, b: len(re.findall(r"\[usize; 16\]", s)) > 1)),
    ("6 functions that take a buffer with a length or a place", lambda: functions_with(lambda s, c, b: re.search(r": &(mut )?\[u8\],\s*(at|n|have|kept|length): usize", s))),
    ("7 matches on an operation", lambda: lines_with(r"\bmatch (op|until|ask|form)\b")),
    ("8 functions with files of a proof", lambda: sorted((d, 0, "") for d in {p.rsplit("/", 1)[0] for p in glob.glob("crates/*/proofs/**/*.antt", recursive=True) if re.search(r"/(Answers|Invariants|Proof)\.antt$", p)})),
]

for name, places in COUNTS:
    found = places()
    print(f"{len(found):5} {name}")
    if "-v" in sys.argv:
        for path, n, text in found:
            print(f"        {path}:{n} {text}")
