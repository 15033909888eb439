#!/usr/bin/env python3
"""Writes docs/REQUESTS.md: each request of document 02 with its crates, its theorems, its note and the commit that brought it.

    tools/requests.py           writes the page
    tools/requests.py --check   fails where the page is stale, or a crate, a theorem or a note that it names does not exist
"""
import os
import re
import subprocess
import sys
import textwrap

PAGE = "docs/REQUESTS.md"
DEMAND = "crates/refinement/proofs/"
# request: what, where (crates), theorems (file, name)
REQUESTS = {
    1: ("Reasons in words", "wording reasons reason_reading refusals reasons_shown",
        [("crates/reason_reading/proofs/Theorem.antt", "reads-back"), ("crates/reasons/proofs/Printable.antt", "shown"),
         ("crates/refusals/proofs/Told.antt", "refusals-told")]),
    2: ("Meters on the store", "meters op_event call_event metering",
        [(DEMAND + "MetersAddUp.antt", "meters-add-up"), (DEMAND + "MetersAddUp.antt", "fixed-meters-add-up")]),
    3: ("Write that changes nothing", "lines call_write", [(DEMAND + "AsBefore.antt", "as_before"), ("crates/image/proofs/LineLaws.antt", "merge-words")]),
    4: ("Place in the journal", "journal", [("crates/journal/specs/Records.antt", "position")]),
    5: ("Page map kept in the state", "replay mount state_words state_rules refinement",
        [(DEMAND + "RowSixteen.antt", "frames-good"), (DEMAND + "RowSixteen.antt", "never-sixteen"), (DEMAND + "FramesAlone.antt", "frames-alone"),
         (DEMAND + "FramesAlone.antt", "page-table-unread")]),
    6: ("Power lost on the assembly line", "fresh op_format call_mount cut_formats",
        [(DEMAND + "CutFormat.antt", "format-cuts"), (DEMAND + "JoinedFormat.antt", "joins-lists"),
         ("crates/any_order/proofs/FormatOrder.antt", "format-any-order")]),
    7: ("Make a slot free", "call_consolidate call_rows slots_freed", [(DEMAND + "FreedSlot.antt", "frees-slot")]),
    8: ("Prepare, then confirm", "op_commit call_prepare slots_freed",
        [(DEMAND + "Demand.antt", "every-demand"), (DEMAND + "CommitWhole.antt", "commit-whole")]),
    9: ("Every short run", "sequences sequence_runs sequence_lines short_runs",
        [("crates/sequences/proofs/Order.antt", "rising"), ("crates/sequences/proofs/Order.antt", "complete"),
         ("crates/sequence_runs/proofs/Shown.antt", "bytes-shown")]),
    10: ("A venue's own moduli", "meters moduli_text call_load call_event metering",
         [(DEMAND + "MetersAddUp.antt", "meters-add-up"), (DEMAND + "FixedEvent.antt", "event-as-fixed"),
          ("crates/moduli_text/proofs/TextLaws.antt", "moduli-ok")]),
    11: ("Trying slot and journal sizes", "trials trial_lines try_sizes trial_laws",
         [("crates/trial_laws/proofs/Theorem.antt", "equal-bytes"), ("crates/trial_laws/proofs/Ended.antt", "rounds-end"),
          ("crates/trial_laws/proofs/Read.antt", "counts-plain")]),
    12: ("Wear by frame", "placing wear wear_lines wear_by_frame wear_laws",
         [("crates/wear_laws/proofs/Told.antt", "stores-told"), ("crates/wear_laws/proofs/Copies.antt", "copies_whole"),
          ("crates/wear_laws/proofs/Frames.antt", "stores-of-copies"), ("crates/wear_laws/proofs/Plain.antt", "printed-plain")]),
    13: ("What recall may depend on", "leftovers",
         [("crates/leftovers/proofs/Theorem.antt", "leftovers-never-show"), ("crates/leftovers/proofs/EveryWord.antt", "every-word"),
          ("crates/leftovers/proofs/EveryWord.antt", "any_word")]),
    14: ("Rounds wider than the slots", "entries entry_lines op_log op_copy call_begin wide_rounds",
         [(DEMAND + "Demand.antt", "every-demand"), (DEMAND + "CommitWhole.antt", "commit-whole")]),
}
HEAD = """# The requests of document 02

All fourteen have landed, each with its note; the code of L4 has left its request since (its note says how). Written by
`python3 tools/requests.py`; the gate looks up every crate, theorem and note. "Landed" is the commit that brought the
note to the main line; `-` where the page was written before it.

| Request | What | Note | Landed |
|---|---|---|---|
"""
LIST_HEAD = """
## Crates and theorems

Of each request its crates, and below them its theorems (of L4 the definition that the code is).

"""
problems = []


def read(path):
    return open(path, encoding="utf-8").read() if os.path.exists(path) else ""


def git(*words):
    return subprocess.run(["git", *words], capture_output=True, text=True).stdout.split()


def landed(note):
    """The commit of the main line that brought a note, none where the history does not say."""
    if git("rev-parse", "--is-shallow-repository") != ["false"]:
        return None
    found = git("log", "--first-parent", "-m", "--diff-filter=A", "--format=%h", "--abbrev=8", "--", note)
    return found[-1] if found else None


def stands_in(commit, note):
    """Whether a commit that the page names has the note. A page cannot name the commit that it comes with, and a clone may lack the history."""
    if commit == "-" or git("rev-parse", "--is-shallow-repository") != ["false"]:
        return True
    return bool(git("ls-tree", "--name-only", commit, note)) and bool(git("rev-list", "-1", commit, "^HEAD") == [])


def row(number, said):
    """The line of a request; said is the commit that the page names."""
    what, note = REQUESTS[number][0], f"docs/landings/L{number}.md"
    if not os.path.exists(note):
        return f"| L{number} | {what} | open | |"
    commit = said if said and stands_in(said, note) else landed(note) or "-"
    return f"| L{number} | {what} | [L{number}](landings/L{number}.md) | {commit} |"


def item(number):
    """The crates and theorems of a request, if it is not open."""
    _, crates, theorems = REQUESTS[number]
    if not os.path.exists(f"docs/landings/L{number}.md"):
        return []
    problems.extend(f"L{number}: there is no crate {crate}" for crate in crates.split() if not os.path.isdir(f"crates/{crate}"))
    problems.extend(f"L{number}: {path} has no {name}" for path, name in theorems
                    if not re.search(rf"^ *(?:abbrev |unfoldable )*pub {re.escape(name)} :", read(path), re.M))
    where = ", ".join(f"`{crate}`" for crate in crates.split())
    proved = ", ".join(f"`{name}` (`{path}`)" for path, name in theorems)
    return [wrapped(f"- **L{number}** {where}"), wrapped(f"  - {proved}", "    ")]


def wrapped(words, indent="  "):
    return textwrap.fill(words, 118, subsequent_indent=indent, break_long_words=False, break_on_hyphens=False)


check = "--check" in sys.argv
stands = {int(n): commit for n, commit in re.findall(r"^\| L(\d+) \|.*\| ([-\w]*) \|$", read(PAGE), re.M)} if check else {}
text = HEAD + "\n".join(row(number, stands.get(number)) for number in REQUESTS) + "\n"
text += LIST_HEAD + "\n".join(line for number in REQUESTS for line in item(number)) + "\n"
notes = {name for name in os.listdir("docs/landings") if re.fullmatch(r"L\d+\.md", name)}
problems += [f"docs/landings/{name} is of no request listed" for name in sorted(notes - {f"L{n}.md" for n in REQUESTS})]
if not check:
    open(PAGE, "w", encoding="utf-8").write(text)
elif read(PAGE) != text:
    problems.append(f"{PAGE} is stale: tools/requests.py")
print(*problems, f"{len(REQUESTS)} requests, {len(problems)} problems", sep="\n")
sys.exit(bool(problems))
