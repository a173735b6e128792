#!/usr/bin/env python3
"""Lists the functions that ask something of their arguments: those whose contract has a `requires`, by crate and file.

The functions that other crates can call stand apart: they are `pub`, in the crate's first file or in a module of it that is
`pub`, or methods of a type that the first file hands on. Every function that is not listed takes whatever it is given.
"""

import re
import sys
from collections import namedtuple
from pathlib import Path

ROOT = Path(__file__).resolve().parents[1]
CRATES = ROOT / "crates"

# A function by its crate, its file, the type whose method it is (none: empty) and its name; whether other crates and C can call it; and whether it
# has a `requires`.
Function = namedtuple("Function", "crate file owner name is_public is_for_c asks")


def in_sight_of_others(crate):
    """The files of a crate whose `pub` functions other crates can call, and the functions and types that its first file hands on."""
    first = crate / "src" / "lib.rt"
    text = first.read_text(encoding="utf-8") if first.exists() else ""  # a program has none
    modules = re.findall(r"^pub mod (\w+);$", text, re.MULTILINE)
    return {first.name, *(f"{name}.rt" for name in modules)}, set(re.findall(r"^pub use \w+::(\w+);$", text, re.MULTILINE))


def functions_of(path):
    """The functions of a file in their order. A contract's clauses stand on lines of their own, below the function's name, and may have names
    themselves."""
    files, handed_on = in_sight_of_others(path.parents[1])
    found, owner = [], ""
    for line in path.read_text(encoding="utf-8").splitlines():
        block = re.match(r"impl(?:<[^{]*?>)? (?:[^{]+ for )?(\w+)|\}", line)
        if block:
            owner = block.group(1) or ""
        begun = re.match(r'\s*((?:pub(?:\(crate\))? |extern "C" )*)fn (\w+)', line)
        if begun:
            words, name = begun.groups()
            is_public = "pub " in words and (path.name in files or bool({owner, name} & handed_on))
            found.append(Function(path.parents[1].name, path.name, owner, name, is_public, "extern" in words, False))
        elif re.match(r"\s+requires (\* )?(\w+ )?\{", line):
            found[-1] = found[-1]._replace(asks=True)
    return found


def functions():
    """Every function of every crate, by crate and file."""
    return [function for path in sorted(CRATES.glob("*/src/*.rt")) for function in functions_of(path)]


def asking():
    """Those with a `requires`."""
    return [function for function in functions() if function.asks]


def main():
    found = asking()
    print("| crate | file | for the crate alone | for other crates too |\n|---|---|---|---|")
    for crate, file in dict.fromkeys((function.crate, function.file) for function in found):
        here = [function for function in found if (function.crate, function.file) == (crate, file)]
        inner, public = (", ".join(f"`{f.owner}::{f.name}`" if f.owner else f"`{f.name}`" for f in here if f.is_public is kind) for kind in (False, True))
        print(f"| {crate} | `{file}` | {inner} | {public} |")
    public = sum(function.is_public for function in found)
    print(f"\n{len(found)} of {len(functions())} functions have a `requires`; other crates can call {public} of them")


if __name__ == "__main__":
    sys.exit(main())
