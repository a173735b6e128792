#!/usr/bin/env python3
"""Makes the harness's runs that docs/BENCHMARKS.md names, and writes what came of them into the page's tables.

    bench/harness_tables.py    from the root, after `make harness`; takes some minutes

A run is a line that is a command and nothing else. The table below it has a line of the run's output in each row: its words, and how
often that came. The text around the tables is written by people.
"""

import re
import subprocess
import sys
from pathlib import Path

PAGE = Path(__file__).resolve().parents[1] / "docs" / "BENCHMARKS.md"
# A command, what stands between it and its table, the two lines above the rows, and the rows.
RUN = re.compile(r"^`(target/harness/release/harness [^`]+)`\n([^`|]*?)(\|.*\n\|[-|]+\n)((?:\|.*\n)+)", re.MULTILINE)


def counts(output):
    """How often each thing came that an output names."""
    lines = re.findall(r"^ *(\S.*?) +(\d+)(?: calls.*| times)?$", output, re.MULTILINE)
    return {re.sub(" +", " ", words): int(times) for words, times in lines}


def runs(page):
    """Each command of the page, and the words in the rows of its table."""
    return [(command, re.findall(r"^\| (.*?) \|", rows, re.MULTILINE)) for command, _, _, rows in RUN.findall(page)]


def filled(page, output_of):
    """The page with the tables of all its runs written anew; `output_of` gives the output of a command."""
    def written(run):
        command, between, head, rows = run.groups()
        came = counts(output_of(command))
        new = re.sub(r"^\| (.*?) \|.*$", lambda row: f"| {row[1]} | {came[row[1]]:,} |", rows, flags=re.MULTILINE)
        return f"`{command}`\n{between}{head}{new}"
    return RUN.sub(written, page)


def output_of(command):
    print(command, flush=True)
    return subprocess.run(command.split(), stdout=subprocess.PIPE, check=True, text=True).stdout


def main():
    PAGE.write_text(filled(PAGE.read_text(encoding="utf-8"), output_of), encoding="utf-8")


if __name__ == "__main__":
    sys.exit(main())
