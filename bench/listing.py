#!/usr/bin/env python3
"""The listing program against that of the baseline, on streams of arrivals; then ours alone, on streams that go on and on
after the table is full.

    listing.py FOLDER CHILD OURS C

Both programs run as children on the same file, in turn, and their CPU time is taken. CHILD runs ours where its memory is taken
too. Where the outputs differ, or an arrival at a full table gets another answer than 11, it ends with status 1; it judges no
speed. The streams and outputs are written to FOLDER.
"""

import os
import statistics
import sys
from collections import Counter
from pathlib import Path

import streams

REPETITIONS = 21
STREAMS = {"soon full": streams.soon_full, "slowly filled": streams.slowly_filled, "no arrivals": streams.no_arrivals}
FLOODS = [10000, 100000, 1000000]  # arrivals after the table is full
FLOOD_REPETITIONS = 5


def usage_of(command, stream, output):
    """Runs a command and gives what the system counted of it."""
    files = [(os.POSIX_SPAWN_OPEN, 0, stream, os.O_RDONLY, 0),
             (os.POSIX_SPAWN_OPEN, 1, output, os.O_WRONLY | os.O_CREAT | os.O_TRUNC, 0o644)]
    child = os.posix_spawn(command[0], command, os.environ, file_actions=files)
    _, status, usage = os.wait4(child, 0)
    if status != 0:
        sys.exit(f"{command[-1]}: status {status} on {stream}")
    return usage


def seconds_of(program, stream, output):
    """Runs a program and gives its CPU seconds, user and system."""
    usage = usage_of([program], stream, output)
    return usage.ru_utime + usage.ru_stime


def lines_of(program, stream, folder):
    """What a program writes for a stream."""
    output = folder / "written.lines"
    seconds_of(program, stream, output)
    return output.read_text(encoding="ascii")


def common_lines(programs, stream, folder):
    """What both programs write for a stream."""
    ours, other = (lines_of(program, stream, folder) for program in programs)
    if other != ours:
        sys.exit(f"ours and C write different lines for {stream}")
    return ours


def refusals_of(lines):
    """How many lines have which refusal; a delivery's has 0."""
    return Counter(int(line.split()[-1]) for line in lines.splitlines()[1:])


def content_of(lines):
    """The same in words."""
    counts = refusals_of(lines)
    deliveries = counts.pop(0, 0)
    refusals = ", ".join(f"{count:,} with {number}" for number, count in sorted(counts.items()))
    return f"{deliveries} deliveries; refused: {refusals or 'none'}"


def measured(programs, stream, folder):
    """Seconds of each program in each repetition."""
    output = folder / "timed.lines"
    return [[seconds_of(program, stream, output) for program in programs] for _ in range(REPETITIONS)]


def row_of(title, rows):
    milliseconds = [1000 * statistics.median(column) for column in zip(*rows)]
    ratio = statistics.median(in_c / ours for ours, in_c in rows)
    return f"{title:16}" + "".join(f"{value:10.2f}" for value in (*milliseconds, ratio))


def compare(folder, programs):
    """Ours against C."""
    print(f"The listing of {streams.ARRIVALS:,} arrivals: the proved program (ours) against that in C.")
    print(f"CPU time of each program as a child, user and system: medians of {REPETITIONS} repetitions, both in turn,")
    print("after a run of each whose outputs are compared. Input and output are files; the input was read before, the output")
    print("is cut to nothing before each run. The last column is C's time over ours, the median of the repetitions' ratios:")
    print("above 1 ours is the faster one.")
    print()
    print(f"{'stream':16}{'ours ms':>10}{'C ms':>10}{'C/ours':>10}")
    contents = []
    for title, make in STREAMS.items():
        stream = folder / f"{title.replace(' ', '_')}.bin"
        stream.write_bytes(make())
        lines = common_lines(programs, stream, folder)
        contents.append(f"{title}: {stream.stat().st_size:,} bytes; {content_of(lines)}")
        print(row_of(title, measured(programs, stream, folder)), flush=True)
    print()
    print("\n".join(contents))


def taken_by(child, program, stream, folder):
    """CPU seconds and peak KiB of a program."""
    figures = folder / "figures"
    usage_of([child, figures, program], stream, folder / "timed.lines")
    seconds, peak = figures.read_text(encoding="ascii").split()
    return float(seconds), int(peak)


def expect_refused(program, stream, refused, folder):
    """Those arrivals get 11, and all others are taken."""
    counts = refusals_of(lines_of(program, stream, folder))
    del counts[0]
    if counts != {11: refused}:
        sys.exit(f"refusals for {stream}: {dict(counts)}")


def flood(folder, child, program):
    """Ours on streams that go on after the table is full."""
    print("The listing of a full table: 64 blocks fill it, and then so many come, of 8 bytes each, that get 11. Our program alone:")
    print(f"its CPU time, the median of {FLOOD_REPETITIONS} repetitions after a run whose lines are looked at, and the most memory")
    print("that was resident in any of them.")
    print()
    print(f"{'refused':>10}{'input bytes':>14}{'ours ms':>10}{'us each':>10}{'peak KiB':>10}")
    for refused in FLOODS:
        stream = folder / f"flooded_{refused}.bin"
        stream.write_bytes(streams.flooded(refused))
        expect_refused(program, stream, refused, folder)
        seconds, peaks = zip(*(taken_by(child, program, stream, folder) for _ in range(FLOOD_REPETITIONS)))
        median = statistics.median(seconds)
        size = stream.stat().st_size
        print(f"{refused:10,}{size:14,}{1e3 * median:10.2f}{1e6 * median / refused:10.2f}{max(peaks):10,}", flush=True)


def main(folder, child, ours, in_c):
    folder = Path(folder)
    folder.mkdir(parents=True, exist_ok=True)
    compare(folder, [ours, in_c])
    print()
    flood(folder, child, ours)


if __name__ == "__main__":
    main(*sys.argv[1:])
