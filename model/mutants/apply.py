#!/usr/bin/env python3
"""Makes a copy of the model that holds every wrong rule of rules.txt behind a number: apply.py RULES MODEL COPY.

In the copy each right text becomes a choice between itself and the wrong one, by the number that crate::mutant holds. The model
itself knows nothing of this.
"""
import re
import shutil
import sys
from pathlib import Path

MUTANT = """
/// The wrong rule that is in force; 0 is none.
pub mod mutant {
    use std::sync::atomic::{AtomicU64, Ordering};

    static RULE: AtomicU64 = AtomicU64::new(0);

    pub fn is(rule: u64) -> bool {
        RULE.load(Ordering::Relaxed) == rule
    }

    pub fn set(rule: u64) {
        RULE.store(rule, Ordering::Relaxed);
    }
}
"""


def rules(text):
    """The rules in order, each as a dictionary. A line that starts with a blank goes on with the one before."""
    found = []
    for line in text.splitlines():
        if line.startswith("#") or not line.strip():
            continue
        head = re.fullmatch(r"(\d+) (\S+)", line)
        if head:
            found.append({"number": int(head[1]), "file": head[2]})
        elif line.startswith(" "):
            found[-1][key] += "\n" + line
        else:
            key, value = line.split(" ", 1)
            found[-1][key] = value
    return found


def span(source, rule):
    """Where the right text stands, white space aside."""
    pattern = r"\s*".join(re.escape(c) for c in rule["right"] if not c.isspace())
    matches = list(re.finditer(pattern, source))
    if len(matches) != 1:
        sys.exit(f"rule {rule['number']}: the right text stands {len(matches)} times in {rule['file']}")
    return matches[0].span()


def mutated(source, rules_here):
    """The source with every choice in it, from its end to its start, so that places stay where they are."""
    places = sorted(((span(source, rule), rule) for rule in rules_here), key=lambda place: place[0], reverse=True)
    limit = len(source)
    for (start, end), rule in places:
        if end > limit:
            sys.exit(f"rule {rule['number']}: its right text lies over another rule's")
        right, limit = source[start:end], start
        choice = f"{{ if crate::mutant::is({rule['number']}) {{ {rule['wrong']} }} else {{ {right} }} }}"
        source = source[:start] + (choice if right.endswith(";") else f"({choice})") + source[end:]
    return source


def main():
    text, model, copy = Path(sys.argv[1]), Path(sys.argv[2]), Path(sys.argv[3])
    copy.mkdir(parents=True, exist_ok=True)
    shutil.rmtree(copy / "src", ignore_errors=True)
    shutil.copytree(model / "src", copy / "src", ignore=shutil.ignore_patterns("bin"))
    (copy / "src/bin").mkdir()
    shutil.copy(text.parent / "seen.rs", copy / "src/bin/seen.rs")
    for name in ["Cargo.toml", "Cargo.lock"]:
        shutil.copy(model / name, copy / name)
    all_rules = rules(text.read_text())
    for name in sorted({rule["file"] for rule in all_rules}):
        path = copy / "src" / name
        path.write_text(mutated(path.read_text(), [rule for rule in all_rules if rule["file"] == name]))
    lib = copy / "src/lib.rs"
    lib.write_text("#![allow(warnings)]\n" + lib.read_text() + MUTANT)
    table = [f'    ({rule["number"]}, {rust_text(rule["paper"])}),\n' for rule in all_rules]
    (copy / "src/bin/rules.in").write_text("&[\n" + "".join(table) + "]\n")


def rust_text(text):
    return '"' + text.replace("\\", "\\\\").replace('"', '\\"') + '"'


main()
