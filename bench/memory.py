#!/usr/bin/env python3
"""What the core's calls take of the device's memory, and whether it fits: exit status 1 if it doesn't. Then what a controller of
four campaigns takes, and what a join of two tables takes, for which there is no limit.

    memory.py DEVICE CONTROLLER JOIN STACK

DEVICE is a file in which the device's calls are linked by themselves, CONTROLLER the same for a controller's calls, JOIN for
the join, STACK the program that measures how deep they go.
"""

import re
import subprocess
import sys
from pathlib import Path

sys.path.append(str(Path(__file__).resolve().parents[1] / "tools"))
import headers

CONSTANTS = headers.constants()
LIMIT = 65536  # bytes that the device has for everything


def output_of(*command):
    return subprocess.run(command, stdout=subprocess.PIPE, check=True, text=True).stdout


def sections(linked):
    """The sections that are loaded, with their sizes: those that have an address."""
    rows = re.findall(r"^(\S+) +(\d+) +([1-9]\d*)$", output_of("size", "-A", linked), re.MULTILINE)
    return {name: int(size) for name, size, _ in rows if int(size) > 0}


def functions(linked):
    """The functions that are linked, with their sizes."""
    rows = re.findall(r"^[0-9a-f]+ ([0-9a-f]+) [Tt] (.+)$", output_of("nm", "-S", linked), re.MULTILINE)
    return [(name, int(size, 16)) for size, name in rows]


def calls(linked):
    """Those of the functions that the headers declare."""
    declared = set(re.findall(r"^\w+ (gt_\w+)\(", headers.TEXT, re.MULTILINE))
    return sorted(name for name, _ in functions(linked) if name in declared)


def depths(stack):
    """The deepest stack of each call and of none, and over how many inputs."""
    rows = re.findall(r"^(\w+) +(\d+) +(\d+)$", output_of(stack), re.MULTILINE)
    return {name: (int(depth), int(inputs)) for name, inputs, depth in rows}


def line(what, count, how=""):
    print(f"{what:28}{count:8,}  {how}".rstrip())


def verdict(total, bound):
    return f"met, {bound - total:,} to spare" if total <= bound else f"not met, {total - bound:,} over"


def state_sum(title, linked, measured, lent):
    """Writes what calls take: their code, what is lent to them, as (what, bytes, how), and their stack. Gives the sum."""
    parts = sections(linked)
    deepest = max(calls(linked), key=lambda name: measured[name])
    rows = [("code and constants", sum(parts.values()), ", ".join(f"{name} {size:,}" for name, size in parts.items())), *lent,
            ("deepest stack", measured[deepest][0], f"of {deepest}")]
    total = sum(count for _, count, _ in rows)

    print(title)
    print()
    for row in rows:
        line(*row)
    line("sum", total)
    return total


def state_depths(names, measured):
    for name in names:
        line(f"  {name}", measured[name][0], f"{measured[name][1]} inputs")


def state_device(device, measured):
    """Gives the sum."""
    helpers = [(name, size) for name, size in functions(device) if name.startswith(("mem", "bcmp"))]
    lent = [("table", CONSTANTS["GT_TABLE_BYTES"], "GT_TABLE_BYTES"),
            ("records", 2 * CONSTANTS["GT_RECORDS_NUMBERS"], "GT_RECORDS_NUMBERS of 2 bytes"),
            ("one block", CONSTANTS["GT_MAX_BLOCK_BYTES"], "GT_MAX_BLOCK_BYTES")]

    total = state_sum("Memory of the core's calls, in bytes", device, measured, lent)
    line("limit", LIMIT, verdict(total, LIMIT))
    print()
    print("Code and constants: these calls are linked by themselves, without what they don't reach (--gc-sections), and all")
    print("sections that would be loaded are added up (size -A), gaps between functions included. In place of a C library's,")
    print(f"the smallest memory functions are linked: {', '.join(f'{name} {size}' for name, size in helpers)}.")
    print("Stack: each call on a painted stack, from the frame of its caller's caller on, refusals among the inputs; calling")
    print(f"nothing gives {measured['nothing'][0]}, which ending the thread takes.")
    state_depths(calls(device), measured)
    return total


def state_controller(controller, device, measured):
    campaigns = CONSTANTS["GT_CAMPAIGNS"]
    added = [name for name in calls(controller) if name not in calls(device)]
    lent = [("tables", campaigns * CONSTANTS["GT_TABLE_BYTES"], f"{campaigns} of GT_TABLE_BYTES"),
            ("records", campaigns * 2 * CONSTANTS["GT_RECORDS_NUMBERS"], f"{campaigns} of GT_RECORDS_NUMBERS of 2 bytes"),
            ("shelf", CONSTANTS["GT_SHELF_BYTES"], "GT_SHELF_BYTES"),
            ("one block", CONSTANTS["GT_MAX_BLOCK_BYTES"], "GT_MAX_BLOCK_BYTES"),
            ("outcomes", 8 * CONSTANTS["GT_OUTCOMES_NUMBERS"], "GT_OUTCOMES_NUMBERS of 8 bytes")]

    state_sum(f"Memory of a controller of {campaigns} campaigns, in bytes: there is no limit", controller, measured, lent)
    print()
    print("Linked and measured in the same way, with two calls more:")
    state_depths(added, measured)


def state_join(join, measured):
    lent = [("tables", 2 * CONSTANTS["GT_TABLE_BYTES"], "2 of GT_TABLE_BYTES"),
            ("records", 3 * 2 * CONSTANTS["GT_RECORDS_NUMBERS"], "3 of GT_RECORDS_NUMBERS of 2 bytes")]

    state_sum("Memory of a join of two tables, in bytes: there is no limit", join, measured, lent)
    print()
    print("Linked and measured in the same way, by itself:")
    state_depths(calls(join), measured)


def main(device, controller, join, stack):
    measured = depths(stack)
    total = state_device(device, measured)
    print()
    state_controller(controller, device, measured)
    print()
    state_join(join, measured)
    return 0 if total <= LIMIT else f"memory: {total - LIMIT:,} bytes over the limit of {LIMIT:,}"


if __name__ == "__main__":
    sys.exit(main(*sys.argv[1:]))
