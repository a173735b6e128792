#!/usr/bin/env python3
"""Counts the lines of each crate: what a reader must believe, the inner steps, the code, the proofs, and the must-fail edits.

A line counts if it is neither empty nor a comment alone nor an import. What must be believed are the definitions in specs/ of
the crates that promise something, less Steps.antt, which only inner functions cite, and less the crate of computed cases.
"""

import re
import sys
from pathlib import Path

ROOT = Path(__file__).resolve().parents[1]
CRATES = ROOT / "crates"
# Not a line of its own: empty, a comment, an import, the declaration of a file.
ASIDE = re.compile(r"\s*(--.*|//.*|(ghost )?use .*|pub mod .*|mod .*)?$")


def lines_of(files):
    return sum(1 for path in files for line in path.read_text(encoding="utf-8").splitlines() if not ASIDE.match(line))


def counts(crate):
    """Lines of a crate by kind: believed, steps, code, proofs; and how many edits there are."""
    specs = sorted((crate / "specs").glob("*.antt"))
    steps = [path for path in specs if path.name == "Steps.antt"]
    believed = [path for path in specs if path not in steps]
    return [lines_of(believed), lines_of(steps), lines_of(crate.glob("src/**/*.rt")), lines_of(crate.glob("proofs/**/*.antt")),
            len(list(crate.glob("must-fail/*.edit")))]


def table():
    """A row for each crate, in the order of crates.txt, and their sum."""
    names = re.findall(r"^(\w+)(?: staticlib)?:", (ROOT / "crates.txt").read_text(encoding="utf-8"), re.MULTILINE)
    rows = [(name, counts(CRATES / name)) for name in names]
    return [*rows, ("sum", [sum(column) for column in zip(*(row for _, row in rows))])]


def believed():
    """Lines that a reader must believe: the cases repeat the rules, row by row, and needn't be."""
    return sum(row[0] for name, row in table() if name not in ("cases", "sum"))


def main():
    print("| crate | definitions | inner steps | code | proofs | must-fail edits |\n|---|---|---|---|---|---|")
    for name, row in table():
        print(f"| {name} | " + " | ".join(f"{count:,}" for count in row) + " |")
    print(f"\n{believed():,} lines to believe")


if __name__ == "__main__":
    sys.exit(main())
