#!/usr/bin/env python3
"""Writes the tables of docs/BENCHMARKS.md that have what `make bench` measures, from its outputs.

    bench/tables.py OUTPUT...    each the output of a run; the last run's figures are shown, and the ranges are over all of them

A table is found by the beginning of its first line. The text around the tables is written by people.
"""

import re
import sys
from pathlib import Path

PAGE = Path(__file__).resolve().parents[1] / "docs" / "BENCHMARKS.md"
FIGURE = r" +([\d.,]+)"


def rows(output, section, label, figures):
    """The rows of a section: what stands in the label's groups, and so many figures. A section ends where the next program starts."""
    text = re.split(r"\n(?:target/host/|python3 -B )", output.split(section, 1)[1])[0]
    return [match.groups() for match in re.finditer(rf"^{label}{FIGURE * figures}$", text, re.MULTILINE)]


def time(figure, unit="us"):
    """A time, or an amount, with three figures, or with two behind the point where it is small."""
    value = float(figure)
    return f"{value:.{0 if value >= 100 else 1 if value >= 10 else 2}f} {unit}"


def between(values):
    values = [float(value) for value in values]
    return f"{min(values):.2f} to {max(values):.2f}"


def compared(runs, name, unit="us"):
    """A row for each: its name, our time, that of C, and C's over ours in this run and in all."""
    return [[name(i, row), time(row[-3], unit), time(row[-2], unit), row[-1], between(run[i][-1] for run in runs)]
            for i, row in enumerate(runs[-1])]


def digests(runs):
    def name(i, size):
        return f"{int(size):,}{', the longest block' if i == 1 else ''}"
    return [[name(i, size), f"{float(ours):.1f}", f"{float(in_c):.1f}", ratio] for i, (size, ours, in_c, ratio) in enumerate(runs[-1])]


def campaigns(runs):
    def name(i, row):
        return f"{'busy' if i < 4 else 'ordinary'}, {row[0].replace('interpreted, then', 'admitted and interpreted, then')}"
    return compared(runs, name)


def forms(runs):
    return compared(runs, lambda i, row: ["busy, 16 references a row", "ordinary, 4 references a row"][i])


def arrivals(runs):
    return compared(runs, lambda i, row: row[0])


def joins(runs):
    return [[pair, blocks, time(ours), time(in_c), share, ratio, between(run[i][-1] for run in runs)]
            for i, (pair, blocks, ours, in_c, share, ratio) in enumerate(runs[-1])]


def listings(runs):
    return compared(runs, lambda i, row: row[0], "ms")


def calls(runs):
    return [[f"`{call}`, {of}", taken, share, between(run[i][-2] for run in runs) if i else "", admissions]
            for i, (call, of, taken, share, admissions) in enumerate(runs[-1])]


def growth(runs):
    return [["busy" if i < 5 else "ordinary", held if refusal == "0" else f"{held}, refused", references, size, time(ours), time(in_c), share,
             ratio, between(run[i][-2] for run in runs)]
            for i, (held, refusal, references, size, ours, in_c, ratio, share) in enumerate(runs[-1])]


def batches(runs):
    busy, ordinary, peaks = zip(*((float(busy), float(ordinary), int(peak)) for _, busy, ordinary, peak in runs[-1]))
    picked = [("the first", busy[0], ordinary[0], f"{peaks[0]:,} KiB"), ("the last", busy[-1], ordinary[-1], f"{peaks[-1]:,} KiB"),
              ("the fastest of the ten", min(busy), min(ordinary), ""), ("the slowest of the ten", max(busy), max(ordinary), "")]
    return [[name, time(of_busy), time(of_ordinary), peak] for name, of_busy, of_ordinary, peak in picked]


def full_listings(runs):
    return [[count, time(int(size.replace(",", "")) / 1e6, "MB"), time(taken, "ms"), f"{each} us", f"{peak} KiB"]
            for count, size, taken, each, peak in runs[-1]]


# The beginning of a table's first line; where its rows stand in an output; how they are told from others; and what is made of them.
TABLES = [
    ("| message bytes |", "SHA-256: the proved one", r" +(\d+)", 3, digests),
    ("| campaign | ours |", "Whole campaigns:", r"((?:admitted|only|interpreted)[a-z ,]*?)", 3, campaigns),
    ("| table | ours |", "Whole campaigns:", r"(form of the full table)", 3, forms),
    ("| call | ours |", "Arrivals at a controller", r"([a-z][a-z0-9 ]*?) +\d+", 3, arrivals),
    ("| pair |", "The join of two tables", r"(\d+ and [a-z0-9, ]*?) +(\d+)", 4, joins),
    ("| stream |", "The listing of 10,000 arrivals", r"([a-z ]*?)", 3, listings),
    ("| call | microseconds |", "A full table:", r"(gt_\w+), ([a-z0-9 ]*?)", 3, calls),
    ("| campaign | blocks held |", "An arrival as the table fills", r" +(\d+) +(0|11) +(\d+) +(\d+)", 4, growth),
    ("| batch |", "After the 64th block", r" +(\d+)", 3, batches),
    ("| refused | input |", "The listing of a full table", r" +([\d,]+)", 4, full_listings),
]


def with_table(page, first_line, lines):
    """The page with these rows below the first two lines of the table, as many as there were."""
    before, found, after = page.partition(f"\n{first_line}")
    head, rule, *rest = (found + after).lstrip("\n").split("\n")
    old = next(i for i, line in enumerate(rest) if not line.startswith("|"))
    if not found or old != len(lines):
        raise ValueError(f"the table {first_line} has {old} rows, and {len(lines)} were measured")
    written = [re.sub(" +[|]", " |", f"| {' | '.join(line)} |") for line in lines]
    return "\n".join([before, head, rule, *written, *rest[old:]])


def main(paths):
    if not paths:
        sys.exit(__doc__)
    outputs = [Path(path).read_text(encoding="utf-8") for path in paths]
    page = PAGE.read_text(encoding="utf-8")
    for first_line, section, label, figures, made in TABLES:
        page = with_table(page, first_line, made([rows(output, section, label, figures) for output in outputs]))
    PAGE.write_text(page, encoding="utf-8")


if __name__ == "__main__":
    main(sys.argv[1:])
