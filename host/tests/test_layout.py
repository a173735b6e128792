"""tools/layout.sh: a wrong layout is found in each language, and a missing command is said and is no failure."""

import re
import shutil
import tempfile
from pathlib import Path

from programs import ROOT, expect, run

COMMANDS = {"Rattle": "rt", "C": "clang-format-14", "Rust": "cargo-fmt", "shell": "shellcheck"}
# For each language a file, and a last line that is not in the layout.
SPOILED = {"Rattle": ("crates/base/src/lib.rt", "pub   fn spoiled() {}\n"), "C": ("host/dome.c", "int   spoiled;\n"),
           "Rust": ("host/harness/src/main.rs", "fn   spoiled() {}\n"), "shell": ("tools/install.sh", "echo $spoiled\n")}


def checked(folder, **environment):
    """The exit status for the sources in a folder, and what is said of each language."""
    ended = run([str(folder / "tools" / "layout.sh")], **environment)
    return ended.returncode, dict(re.findall(r"^layout of (\w+): (.+)$", ended.stdout.decode(), re.MULTILINE))


def not_checked(language):
    return f"not checked, no {COMMANDS[language]} on this machine"


def test_a_missing_command_is_said_and_is_no_failure():
    with tempfile.TemporaryDirectory() as path:
        status, said = checked(ROOT, env={"PATH": path})
    expect(status == 0 and said == {language: not_checked(language) for language in COMMANDS}, f"{status}: {said}")


def test_a_wrong_layout_is_found():
    here = {language for language, command in COMMANDS.items() if shutil.which(command)}
    with tempfile.TemporaryDirectory() as folder:
        copy = Path(folder) / "copy"
        shutil.copytree(ROOT, copy, ignore=shutil.ignore_patterns("target", "out", ".git"))
        for language, (file, line) in SPOILED.items():
            text = (copy / file).read_text(encoding="utf-8")
            (copy / file).write_text(text + line, encoding="utf-8")
            status, said = checked(copy)
            (copy / file).write_text(text, encoding="utf-8")
            wanted = {other: not_checked(other) if other not in here else "wrong" if other == language else "ok"
                      for other in COMMANDS}
            expect(said == wanted and status == int(language in here), f"{file}: {status}, {said}")
