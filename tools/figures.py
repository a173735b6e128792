#!/usr/bin/env python3
"""Writes into the documents the figures that follow from the tree: how many crates, edits, tests and lines there are, and the limits
that the C headers name.

A sentence stands here with the names of its figures, and in its document with their values. `host/tests/test_documents.py` compares
the two.
"""

import re
import sys
from pathlib import Path

import headers
import lines

ROOT = Path(__file__).resolve().parents[1]

SENTENCES = [
    ("README.md",
     "rt: ok; handles allowed: none; must-fail edits: {edits} refused; every proof and must-fail edit was done in this run\n"
     "{of_proofs} passed, 0 failed\n{of_tests} passed, 0 failed\n{of_all} passed, 0 failed\n"),
    ("README.md",
     "| slots, each with an owner | {slots} |\n"
     "| a block | {max_references} references, {max_requests} requests, {max_block_bytes} bytes |\n"),
    ("README.md", "| a table | {table_bytes} bytes |\n| the records of a table | {records_numbers} numbers of 16 bits |\n"),
    ("README.md", "| a shelf | {shelf_bytes} bytes |\n"),
    ("docs/FORMATS.md", "`p`, how many references | 0 to {max_references} |\n| 4 | `r`, how many requests | 0 to {max_requests} |\n"),
    ("docs/FORMATS.md", "so a block has {header_bytes} to {max_block_bytes} bytes."),
    ("docs/FORMATS.md", "waiting for up to four campaigns: {shelf_bytes} bytes that the caller keeps and lends."),
    ("docs/FORMATS.md", "{shelf_places} entries of {shelf_entry_bytes} bytes; entry i begins at byte 1 + {shelf_entry_bytes}i |"),
    ("docs/FORMATS.md",
     "with more than {max_references} references or {max_requests} requests, or of a length other than the two counts give; a request list"
     " over {max_request_list_bytes} bytes or"),
    ("host/man/giangotum-listing.1", "A block has {header_bytes} to {max_block_bytes} bytes:"),
    ("host/man/giangotum-listing.1", "how many references it has, 0 to {max_references}\n"),
    ("host/man/giangotum-listing.1", "how many requests it has, 0 to {max_requests}\n"),
    ("host/man/giangotum-listing.1", "over {max_references} references or {max_requests} requests, another length than"),
    ("docs/TRUST.md",
     "{believed} lines, comments and imports aside (`tools/lines.py` counts them), for {code} lines of code and {proofs} of\nproofs"),
]


def matches(pattern, *paths):
    return sum(len(re.findall(pattern, path.read_text(encoding="utf-8"), re.MULTILINE)) for path in paths)


def figures():
    """Each figure by its name, as documents write numbers. A constant of the headers has its name there, without the prefix."""
    rows = lines.table()
    _, (_, _, code, proofs, edits) = rows[-1]
    crates = len(rows) - 1
    of_tests = matches(r"^def test_", *(ROOT / "host" / "tests").glob("test_*.py"))
    steps = matches(r"^ *check '", ROOT / "tools" / "gate.sh")
    values = {"crates": crates, "edits": edits, "of_proofs": crates + edits, "of_tests": of_tests,
              "of_all": crates + edits + of_tests + steps, "believed": lines.believed(), "code": code, "proofs": proofs,
              **{name.removeprefix("GT_").lower(): value for name, value in headers.constants().items()}}
    return {name: f"{value:,}" for name, value in values.items()}


def corrected(page, sentence, values):
    """The page with the sentence's figures as they are. The sentence stands there once."""
    pattern = re.sub(r"\\{\w+\\}", r"[0-9,]+", re.escape(sentence))
    result, count = re.subn(pattern, lambda _: sentence.format(**values), page)
    if count != 1:
        raise ValueError(f"stands {count} times: {sentence}")
    return result


def main():
    values = figures()
    for name, sentence in SENTENCES:
        path = ROOT / name
        path.write_text(corrected(path.read_text(encoding="utf-8"), sentence, values), encoding="utf-8")


if __name__ == "__main__":
    sys.exit(main())
