#!/usr/bin/env python3
"""Writes docs/ROWS.md: each refusal's number with its sentence, its calls, where it is defined, coded, proved and tried by wrong programs; then each call.

All of it is read from the sources: the sentences and calls from crates/wording, each call's table of rows from the law that holds it to them
(crates/refusals/proofs/Returned.antt), the code from the lines that return the number, the edits from the lines that they change. Only the theorems
that stand beside a number are named here, and looked up.

    tools/rows.py           writes the page
    tools/rows.py --check   fails where the page is stale, a row has no definition or code, or a named theorem does not stand
"""
import glob
import os
import re
import sys

PAGE = "docs/ROWS.md"
TABLE, WORDS, LAWS = "crates/wording/specs/Calls.antt", "crates/wording/specs/Words.antt", "crates/refusals/proofs/Returned.antt"
FOLDERS = ("crates/{}/must-fail", "tests/merge_edits/{}", "tests/release_edits/{}")
SIGNATURE = re.compile(r"^ *(?:abbrev |unfoldable )*pub (\w[\w'-]*) : (.*)$")
FUNCTION = re.compile(r"^(?:pub(?:\(crate\))? )?(?:extern \"C\" )?fn (\w+)")
# theorems that say more of a number than which calls return it
BESIDE = {
    2: [("crates/refinement/proofs/CutFormat.antt", "format-cuts")],
    4: [("crates/refinement/proofs/NeverRefused.antt", "never-refused")],
    7: [("crates/refinement/proofs/MountReadsBack.antt", "mount-reads-back")],
    8: [("crates/refinement/proofs/NeverRefused.antt", "never-refused")],
    14: [("crates/refusals/proofs/InTheWay.antt", "write-met"), ("crates/refusals/proofs/InTheWay.antt", "event-met")],
    18: [("crates/refusals/proofs/InTheWay.antt", "consolidate-met")],
    19: [("crates/refinement/proofs/CheckpointRoom.antt", "checkpoint-makes-room")],
    22: [("crates/refinement/proofs/FreedSlot.antt", "frees-slot")],
    26: [("crates/moduli_text/proofs/TextLaws.antt", "moduli-ok")],
}
# where a number that no call returns any more was shown to be one
GONE = {16: ("crates/refinement/proofs/RowSixteen.antt", "never-sixteen")}
HEAD = """# The refusals by number, and the calls

Written by `python3 tools/rows.py` from the sources, and held to them by the gate. A call returns a number if and only
if its row is the first of the call's rows, in order, to apply. "Defined" names what decides (the test) and the tables
of rows that it stands in; "code" the functions that return the number (what is written of the proof of `f` in
`crates/NAME/src/M.rt` stands in `crates/NAME/proofs/M/f`, without `M` for `lib.rt`; where there is nothing, Rattle
finds the proof by itself); "law" the theorem by which a call returns the numbers of its rows and no others
(`crates/refusals/proofs/Returned.antt`). Of every number: a refused call changes nothing
(`refused-unchanged`, `crates/refinement/proofs/Refused.antt`), and its sentence reads back (`refusals-told`,
`crates/refusals/proofs/Told.antt`). "Edits" are wrong programs in the lines of the row, in its test's definition or in
a function that its code asks; the prover refuses each.
"""
problems = []


def read(path):
    return open(path, encoding="utf-8").read()


# ---- the definitions


def definitions():
    """Of each name the places where a definition of it stands: file, type, text."""
    found = {}
    for path in sorted(glob.glob("crates/*/specs/*.antt")) + [LAWS]:
        lines = read(path).split("\n")
        for n, line in enumerate(lines):
            match = SIGNATURE.match(line)
            if match:
                end = next((k for k in range(n + 1, len(lines)) if not lines[k].strip()), len(lines))
                found.setdefault(match[1], []).append((path, match[2], "\n".join(lines[n:end])))
    return found


DEFINED = definitions()


def resolved(path, name):
    """The definition that a name stands for in a file: its own, an imported one, or the only one."""
    here = [d for d in DEFINED.get(name, []) if d[0] == path]
    if here:
        return here[0]
    for crate, module, names in re.findall(r"use Rattle\.(\w+)\.specs\.([\w.]+?)\.\{([^}]*)\}", read(path)):
        if name in re.findall(r"[\w'-]+", names):
            there = [d for d in DEFINED.get(name, []) if d[0] == f"crates/{crate}/specs/{module.replace('.', '/')}.antt"]
            if there:
                return there[0]
    return DEFINED[name][0] if len(DEFINED.get(name, [])) == 1 else None


def is_table(definition):
    return bool(re.search(r"(?:→ |^)(?:List )?Row$", definition[1]))


def pairs(text):
    """The rows that stand in a text: the test and the number of each."""
    for match in re.finditer(r",\s*(\d+),?\s*\)", text):
        depth, at = 0, match.start()
        while depth <= 0 and at > 0:
            at -= 1
            depth += {"(": 1, ")": -1}.get(text[at], 0)
        yield text[at + 1 : match.start()], int(match[1])


def rows_of(path, name, seen):
    """The rows of a table and of the tables that it names: number, table, test, file."""
    definition = resolved(path, name)
    if not definition or not is_table(definition) or (definition[0], name) in seen:
        return
    seen.add((definition[0], name))
    body = definition[2].split("\n", 1)[-1]
    for test, number in pairs(body):
        yield number, (definition[0], name), test
    for other in re.findall(r"\w[\w']*", body):
        yield from rows_of(definition[0], other, seen)


def tests_of(path, test):
    """The definitions that a row's test names: those that give a truth value, else any."""
    named = [(name, resolved(path, name)) for name in dict.fromkeys(re.findall(r"\w[\w']*", test))]
    named = [(name, d) for name, d in named if d and "/bounded/" not in d[0]]
    deciding = [(d[0], name) for name, d in named if d[1].endswith("Bool")]
    return deciding or [(d[0], name) for name, d in named if d[1].endswith("ℕ") and name.endswith(("_row", "_slot"))]


# ---- the calls


def list_of(text, name):
    body = re.search(rf"^{name} =\s*(.*?)(?:\n\n|\Z)", text, re.M | re.S).group(1)
    return re.findall(r"\w+", body)


def calls_of():
    """Of each number the calls whose place has it."""
    text, found = read(TABLE), {}
    body = re.search(r"^places =\n(.*?)\n\n", text, re.M | re.S).group(1)
    for number, names in re.findall(r"\((\d+), ([^)]*)\)", body):
        calls = []
        for name in re.findall(r"\w+", names):
            calls += list_of(text, name) if name in ("readers", "askers") else [name]
        found.setdefault(int(number), []).extend(c for c in calls if c not in found.get(int(number), []))
    return found


def laws():
    """Of each call the name of its law and the table that it speaks of."""
    return {call: (law, table) for law, call, table in
            re.findall(r"pub ([\w-]+-returns) : .*?Returns(?:ByOne)? (\w+) .*?\((\w+_(?:rows|table))", read(LAWS))}


def sentences():
    text = re.search(r"^texts =\n(.*?)\n\n", read(WORDS), re.M | re.S).group(1)
    return [m[1] or "" for m in re.finditer(r'(?:∷|^) +(?:\[\]|codes "([^"]*)")(?=\n)', text, re.M)]


# ---- the code


def below(crate):
    """A crate and those that it leans on, by crates.txt."""
    deps = {line.split(":")[0].split()[0]: line.split(":")[1].split() for line in read("crates.txt").split("\n") if ":" in line and not line.startswith("#")}
    seen, todo = set(), [crate]
    while todo:
        name = todo.pop()
        if name not in seen and name in deps:
            seen.add(name)
            todo += deps[name]
    return sorted(seen - {"answers", "wording", "reasons", "reason_reading", "refusals", "calling"})


class Function:
    def __init__(self, path, name, start, lines):
        self.path, self.name, self.start, self.lines = path, name, start, lines

    def refuses(self):
        """Whether its contract tells a row's number, an answer or what turns a call back."""
        contract = "\n".join(self.lines).split("\n{\n")[0].partition("ensures")[2]
        return bool(re.search(r"refusal|Row|row_of|_row|answered_at|Decides|Judges|Found|Leaves|Started|Keeps|mount_of|read_of|load_of", contract))


def functions():
    for crate in below("badgerdross"):
        for path in sorted(glob.glob(f"crates/{crate}/src/**/*.rt", recursive=True)):
            lines = read(path).split("\n")
            starts = [(n, FUNCTION.match(line)[1]) for n, line in enumerate(lines) if FUNCTION.match(line)]
            for (n, name), (end, _) in zip(starts, starts[1:] + [(len(lines), "")]):
                yield Function(path, name, n, lines[n:end])


CODE = list(functions())
BY_NAME = {}
for f in CODE:
    BY_NAME.setdefault(f.name, []).append(f)


def answers():
    return {int(n): name for name, n in re.findall(r"Refusal::(\w+) => (\d+),", read("crates/rows/src/lib.rt"))}


def returning(number, answer):
    """The functions that return a number, with the lines of the row: from its `if` to the return."""
    said = re.compile(rf"Err\(Refusal::{answer}\)")
    for f in CODE:
        hits = [k for k, line in enumerate(f.lines) if said.search(line)]
        for k in hits if f.refuses() else []:
            first = next((j for j in range(k, -1, -1) if re.match(r"\s+(?:if|let|while)\b", f.lines[j])), k)
            yield f, range(f.start + first, f.start + k + 1), f.lines[first : k + 1]


# ---- the edits


def edited():
    """Of each edit the file and the line that its last pair changes."""
    for pattern in FOLDERS:
        for path in sorted(glob.glob(pattern.format("*") + "/*.edit")):
            words = read(path)
            crate = path.split("/")[2] if path.startswith("tests/") else path.split("/")[1]
            file = f"crates/{crate}/" + re.search(r"^file: (.*)$", words, re.M)[1]
            text = read(file) if os.path.exists(file) else ""
            changes = list(zip(re.findall(r"^old: (.*)$", words, re.M), re.findall(r"^new: ?(.*)$", words, re.M)))
            for old, new in changes[:-1]:
                text = text.replace(old, new)
            if text.count(changes[-1][0]) == 1:
                yield f"{crate}/{os.path.basename(path)[:-5]}", file, text[: text.index(changes[-1][0])].count("\n")


EDITS = list(edited())


def of_lines(path, lines):
    return [name for name, file, line in EDITS if file == path and line in lines]


def span(definition):
    """The lines of a definition in its file."""
    start = read(definition[0])[: read(definition[0]).index(definition[2])].count("\n")
    return range(start, start + definition[2].count("\n") + 1)


def row_lines(definition, number):
    """The lines of a table that have the number's rows."""
    first = span(definition).start
    return [first + k for k, line in enumerate(definition[2].split("\n")) if re.search(rf", {number},?\s*\)|^\s+{number},$", line)]


# ---- the page


def lookup(path, theorem):
    if not os.path.exists(path) or not re.search(rf"^ *(?:pub )?{re.escape(theorem)} :|^ *(?:abbrev |unfoldable )*pub {re.escape(theorem)} ", read(path), re.M):
        problems.append(f"{path} has no {theorem}")
    return f"`{theorem}` (`{path}`)"


def wrapped(prefix, items, between="; "):
    """A list item, its lines at most 120 characters."""
    lines, line = [], f"- **{prefix}**"
    for k, item in enumerate(items):
        piece = item + (between.rstrip() if k + 1 < len(items) else "")
        for word in piece.split(" "):
            if len(line) + 1 + len(word) > 120:
                lines.append(line)
                line = "  " + word
            else:
                line += " " + word
    return "\n".join(lines + [line])


def by_file(items):
    """Names by their files: `a`, `b` (`file`)."""
    files = {}
    for path, name in items:
        if name not in files.setdefault(path, []):
            files[path].append(name)
    return [", ".join(f"`{name}`" for name in names) + f" (`{path}`)" for path, names in files.items()]


def section(number, calls, told, answer):
    law, rows = laws(), []
    for call in calls:
        rows += [(t, test) for n, t, test in rows_of(LAWS, law[call][1], set()) if n == number]
    tests = list(dict.fromkeys(d for (path, _), test in rows for d in tests_of(path, test)))
    tables = list(dict.fromkeys(t for t, _ in rows if t[0] != LAWS))
    code = list(returning(number, answer))
    if not tables or not code:
        problems.append(f"row {number} has {len(tables)} tables and {len(code)} places in the code")
    named = {word for _, _, lines in code for word in re.findall(r"(\w+)\(", " ".join(lines))} - {"turned_back", "refused"}
    tried = [e for f, lines, _ in code for e in of_lines(f.path, lines)]
    for path, name in tables:
        tried += of_lines(path, row_lines(resolved(path, name), number))
    for path, name in tests:
        tried += of_lines(path, span(resolved(path, name)))
    for f in [BY_NAME[name][0] for name in sorted(named) if len(BY_NAME.get(name, [])) == 1]:
        tried += of_lines(f.path, range(f.start, f.start + len(f.lines)))
    out = [f"## {number}: {told}", "", wrapped("Answer", [f"`Refusal::{answer}`, `BADGERDROSS_" + re.sub(r"(?<!^)([A-Z])", r"_\1", answer).upper() + "`"])]
    out.append(wrapped("Calls", [", ".join(calls)]))
    out.append(wrapped("Defined", (["by " + part for part in by_file(tests)[:1]] + by_file(tests)[1:]) + ["in " + ", ".join(by_file(tables))]))
    out.append(wrapped("Code", by_file([(f.path, f.name) for f, _, _ in code])))
    beside = [lookup(path, name) for path, name in BESIDE.get(number, [])]
    out.append(wrapped("Law", [", ".join(f"`{law[call][0]}`" for call in calls)] + beside))
    out.append(wrapped("Edits", [", ".join(f"`{e}`" for e in sorted(set(tried))) or "none of its own"]))
    return "\n".join(out) + "\n"


def in_order(path, name):
    """The numbers of a table, row by row; those of a table of which one of several is picked stand in brackets."""
    definition = resolved(path, name)
    body = definition[2].split("\n", 1)[-1]
    body = body[body.index("=") + 1 :]
    found = [(m.start(), m[1]) for m in re.finditer(r",\s*(\d+),?\s*\)", body)]
    for match in re.finditer(r"(?<![\w.])\w[\w']*", body):
        other = resolved(definition[0], match[0])
        if other and is_table(other):
            inner = in_order(definition[0], match[0])
            found.append((match.start(), f"({inner})" if "cond " in body and "(" + match[0] in body else inner))
    return ", ".join(numbers for _, numbers in sorted(found))


def parts_of(call):
    """What is said of a call: its rows in order, and where its definition, its table of rows and its code stand."""
    law, table = laws()[call]
    rows = resolved(LAWS, table)
    names = [f"{call}_of", f"{call.replace('_slot', '')}_of", f"{call}_row", f"{call}_call"]
    where = next(((d[0], name) for name in names for d in DEFINED.get(name, []) if "/refinement/" in d[0]), None)
    code = [f for f in CODE if f.name == call and f.path.startswith(("crates/call_", "crates/recalling/"))
            and f.lines[0].startswith("pub ") and "call_round" not in f.path]
    if not where or len(code) != 1:
        problems.append(f"the call {call} has the definition {where} and {len(code)} functions")
        return None
    # the law of a write speaks of a table of its own, which it shows to be the call's
    tabled = (where[0], f"{call}_call_rows") if rows[0] == LAWS else (rows[0], table)
    line = f"| {call} | {in_order(LAWS, table)} | `{where[1]}` | `{tabled[1]}` | `{law}` |"
    return line, where, tabled, (code[0].path, code[0].name)


CALLS_HEAD = """## The calls

The rows of each call in their order. Of a write the first bracket is the wide writer's, the second any other's. What a
taken call does is in its definition. Where definitions, tables and code stand is said below.

| Call | Rows | Definition | Table | Law |
|---|---|---|---|---|
"""


def calls_part():
    """The calls: a narrow table, and the files of what it names."""
    lines, defined, tables, code = zip(*filter(None, (parts_of(call) for call in laws())))
    files = [wrapped("Definitions", by_file(defined)), wrapped("Tables", by_file(tables)), wrapped("Code", by_file(code))]
    return CALLS_HEAD + "\n".join(lines) + "\n\n" + "\n".join(files) + "\n"


def gone(number):
    said = f"## {number}: not given to another row\n\nNo call returns it any more."
    return said + (" See " + lookup(*GONE[number]) + ".\n" if number in GONE else "\n")


def page():
    calls, told, names = calls_of(), sentences(), answers()
    parts = [section(n, calls[n], told[n], names[n]) if calls.get(n) else gone(n) for n in range(1, max(calls) + 1)]
    return HEAD + "\n" + "\n".join(parts) + "\n" + calls_part()


text = page()
if "--check" not in sys.argv:
    open(PAGE, "w", encoding="utf-8").write(text)
elif not os.path.exists(PAGE) or read(PAGE) != text:
    problems.append(f"{PAGE} is stale: tools/rows.py")
print(*problems, f"{len(re.findall('^## [0-9]', text, re.M))} rows, {len(laws())} calls, {len(problems)} problems", sep="\n")
sys.exit(bool(problems))
