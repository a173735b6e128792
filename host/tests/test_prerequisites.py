"""tools/prerequisites.sh: each target of the Makefile asks for the commands that it uses and for no other, and the README says so."""

import re
import shutil
import tempfile
from pathlib import Path

from programs import ROOT, expect, make, run

SCRIPT = str(ROOT / "tools" / "prerequisites.sh")
TARGETS = ["demo", "check", "host", "install", "test", "test-programs", "harness", "fuzz", "bench", "memory", "figures"]
ALL = ["rt", "gcc", "make", "cargo", "python3", "nm", "size", "g++", "groff", "valgrind"]
FOR_TESTS = ["cargo", "g++", "groff", "valgrind"]


def missing(targets, path):
    """The commands that are named as missing where only these folders are looked through. Only then is the exit status 1."""
    ended = run([SCRIPT, *targets], env={"PATH": path})
    said = ended.stderr.decode().splitlines()
    named = [re.fullmatch(r"missing command: (\S+) \(.+\)", line) for line in said]
    expect(all(named) and not ended.stdout and ended.returncode == (1 if said else 0), f"{ended}")
    return [line[1] for line in named]


def without(commands):
    """A folder that has every other command of ours; it is removed with the answer."""
    folder = tempfile.TemporaryDirectory()
    for name in set(ALL) - set(commands):
        (Path(folder.name) / name).symlink_to(shutil.which(name))
    return folder


def test_what_only_the_tests_use_is_asked_for_there_alone():
    wanted = {"test": FOR_TESTS, **dict.fromkeys(["test-programs", "harness", "fuzz"], ["cargo"])}
    with without(FOR_TESTS) as path:
        for target in TARGETS:
            found = missing([target], path)
            expect(found == wanted.get(target, []), f"{target}: {found}")


def test_each_command_is_named_where_it_alone_is_missing():
    for command in ALL:
        with without([command]) as path:
            expect(missing(["test"], path) == [command], command)
            expect(missing([], path) == [command], f"{command}, without a target")


def test_several_targets_ask_for_what_each_needs():
    with without(ALL) as path:
        for targets in [["bench", "memory"], ["memory", "bench"], ["clean", "memory", "harness"]]:
            each = {command for target in targets for command in missing([target], path)}
            expect(set(missing(targets, path)) == each, f"{targets}")
        expect(missing(["target/host/dome"], path) == missing(["host"], path), "a file")


def test_make_asks_first_and_for_its_goals():
    for goals in [[], ["prerequisites"], ["bench", "memory"], *([target] for target in TARGETS)]:
        ended = make("-n", *goals)  # only shown, not run
        first = ended.stdout.decode().splitlines()[0].split()
        words = [] if goals == ["prerequisites"] else goals or ["demo"]
        expect(ended.returncode == 0 and first == ["tools/prerequisites.sh", *words], f"{goals}: {first}")


def test_the_readme_says_which_targets_need_each_command():
    page = (ROOT / "README.md").read_text(encoding="utf-8")
    table = page.split("## What you need")[1].split("\n## ")[0]
    rows = re.findall(r"^\| (`[^|]*) \| [^|]* \| ([^|]*) \|$", table, re.MULTILINE)
    said = {command: targets for commands, targets in rows for command in re.findall(r"`([\w+]+)`", commands)}
    expect(sorted(said) == sorted(ALL), f"{sorted(said)}")
    with without(ALL) as path:
        for command in ALL:
            needing = [target for target in TARGETS if command in missing([target], path)]
            named = re.findall(r"`make ([\w-]+)`", said[command])
            wanted = [] if needing == TARGETS else needing
            expect(sorted(named) == sorted(wanted) and (said[command] == "all") == (not wanted), f"{command}: {said[command]}")
