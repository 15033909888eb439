#!/usr/bin/env python3
"""Holds crates.txt to the layers, and draws them for docs/ARCHITECTURE.md.

Each crate stands in one layer and leans on crates of its own layer and of those below. The picture stands in the document between two marks.

    tools/layers.py           draws the picture anew
    tools/layers.py --check   fails where a crate stands in no layer, in two, or leans on a higher one, and where the picture is stale
"""
import fnmatch
import re
import sys

PAGE = "docs/ARCHITECTURE.md"
MARKS = ("<!-- layers: drawn by tools/layers.py -->\n", "<!-- layers end -->\n")
WIDTH = 116
# from the lowest up: name, what it is about, its crates. A name with * takes what no other layer names
LAYERS = [
    ("base", "loops over numbers, sets of lines, meters", "bounded rows masks naming sequences hashing meters moduli_text"),
    ("image", "words, sizes, lines and entries of a lent buffer", "words runs image_words layout image lines entries"),
    ("text", "numbers printed and read, lines cut out of input", "decimals cutting text number_text printing"),
    ("journal", "slots, records, replay; what a mount finds; a fresh image", "journal replay names mount fresh"),
    ("state", "the record of the definitions, rows from 11 on, row 8", "state operations needs slot_rules validity"),
    ("theory", "the calls' definitions, demand 3 and what stands on it; no code",
     "refinement cases leftovers any_order torn_case witnesses placing asked"),
    ("answers", "document 01's numbers; where the copies of a line lie", "answers frames entry_lines"),
    ("state in words", "1,280 words that a host keeps; rows tested on them", "state_words state_held state_lines state_rules state_pending op_rows"),
    ("operations", "store i of each; the one function that stores, in turn", "op_*"),
    ("calls", "every call of documents 01 and 02, a round in one call, recall", "call_* recalling host calling"),
    ("reasons", "a refusal as a sentence, and read back", "wording reasons reason_reading refusals"),
    ("library", "all of it for C", "badgerdross badgerdross_c recalling_c"),
    ("programs", "powerhit, probe, short_runs, try_sizes, wear_by_frame, with their parts",
     "forms executing script powerhit workbench buffer_edits state_edits moduli_edits pending_edits call_turns transaction_calls image_calls line_calls "
     "moduli_calls probing pending_text state_text reporting probe sequence_runs sequence_lines short_runs trials trial_lines "
     "trial_laws try_sizes wear wear_lines wear_laws wear_by_frame"),
    ("tests", "programs that are held to the model", "edges page_sums rounds metering slots_freed lost_round wide_rounds cut_formats reasons_shown"),
]
problems = []


def listed():
    """Of each crate those that crates.txt says it leans on; the kit's own have no line and are left out."""
    lines = [line.split("#")[0] for line in open("crates.txt", encoding="utf-8")]
    deps = {name.split()[0]: words.split() for name, _, words in (line.partition(":") for line in lines) if name.strip()}
    return {name: [word for word in words if word in deps] for name, words in deps.items()}


def layer_of(crate):
    """The number of a crate's layer."""
    named = [k for k, (_, _, crates) in enumerate(LAYERS) if crate in crates.split()]
    found = named or [k for k, (_, _, crates) in enumerate(LAYERS) if any(fnmatch.fnmatch(crate, form) for form in crates.split())]
    if len(found) != 1:
        problems.append(f"{crate} stands in {len(found)} layers of tools/layers.py")
    return found[0] if found else 0


def wrapped(words, width):
    lines = [""]
    for word in words:
        if lines[-1] and len(lines[-1]) + 1 + len(word) > width:
            lines.append("")
        lines[-1] += (" " if lines[-1] else "") + word
    return lines


def leaned_on(number, deps, layers):
    """The layers that a layer leans on without another one between: those that no other of them leans on."""
    on = {k: {layers[dep] for crate in deps if layers[crate] == k for dep in deps[crate]} - {k} for k in range(len(LAYERS))}
    return [LAYERS[k][0] for k in sorted(on[number], reverse=True) if not any(k in on[other] for other in on[number] if other != k)]


def picture(deps, layers):
    """The layers as boxes, the highest first."""
    bar, lines = "+" + "-" * (WIDTH - 2) + "+", []
    for number in range(len(LAYERS) - 1, -1, -1):
        name, what, _ = LAYERS[number]
        crates = [crate for crate in deps if layers[crate] == number]
        on = leaned_on(number, deps, layers)
        head = f"{name.upper()}: {what}"
        right = "on " + ", ".join(on) if on else "on nothing"
        lines += [bar, "| " + head + right.rjust(WIDTH - 4 - len(head)) + " |"]
        lines += ["|   " + line.ljust(WIDTH - 6) + " |" for line in wrapped(crates, WIDTH - 6)]
        if len(head) + 1 + len(right) > WIDTH - 4:
            problems.append(f"the picture is too narrow for {name}")
    return "\n".join(lines + [bar])


deps = listed()
layers = {crate: layer_of(crate) for crate in deps}
problems += [f"{crate} ({LAYERS[layers[crate]][0]}) leans on {dep} ({LAYERS[layers[dep]][0]}), which is higher"
             for crate in deps for dep in deps[crate] if layers[dep] > layers[crate]]
text = open(PAGE, encoding="utf-8").read()
drawn = MARKS[0] + "\n```text\n" + picture(deps, layers) + "\n```\n\n" + MARKS[1]
new, found = re.subn(re.escape(MARKS[0]) + ".*?" + re.escape(MARKS[1]), lambda _: drawn, text, flags=re.S)
if found != 1:
    problems.append(f"{PAGE} has {found} places for the picture")
if "--check" not in sys.argv:
    open(PAGE, "w", encoding="utf-8").write(new)
elif new != text:
    problems.append(f"{PAGE} shows a stale picture: tools/layers.py")
print(*problems, f"{len(deps)} crates in {len(LAYERS)} layers, {len(problems)} problems", sep="\n")
sys.exit(bool(problems))
