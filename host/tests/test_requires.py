"""No call that document 01 or 02 names, and no function that C can call, asks anything of its arguments (tools/requires.py)."""

import re

import requires
from programs import ROOT, expect

NAMED = ["setup::lawful", "sha256::digest", "block::read_block", "table::fresh", "table::fresh_in", "table::in_form",
         "admission::admit", "broadcast::receive", "interpret::interpret", "watch::forks", "watch::ancestors", "build::build",
         "run::replay", "retire::retire", "take_back::take_back", "shelf::in_form", "campaigns::arrive", "join::join",
         "report::step", "report::gather"]


def test_no_named_call_has_a_requires():
    calls = {f"{function.crate}::{function.name}": function for function in requires.functions() if function.is_public}
    for name in NAMED:
        expect(name in calls, f"{name}: no such call")
        expect(not calls[name].asks, name)


def test_no_function_for_c_has_a_requires():
    for_c = [function for function in requires.functions() if function.is_for_c]
    headers = "".join((ROOT / "host" / name).read_text(encoding="ascii") for name in ("giangotum.h", "giangotum_core.h"))
    declared = re.findall(r"^\w+ (gt_\w+)\(", headers, re.MULTILINE)
    expect(sorted(function.name for function in for_c) == sorted(declared), f"{for_c}")
    asking = [function.name for function in for_c if function.asks]
    expect(not asking, f"{asking}")


def test_every_requires_is_found():
    # The clauses counted by themselves: a function may have several, but has one at least.
    for path in sorted((ROOT / "crates").glob("*/src/*.rt")):
        clauses = len(re.findall(r"\brequires (?:\* )?(?:\w+ )?\{", path.read_text(encoding="utf-8")))
        listed = sum(function.asks for function in requires.functions_of(path))
        expect((listed > 0) == (clauses > 0) and listed <= clauses, f"{path}: {clauses} clauses, {listed} functions")
