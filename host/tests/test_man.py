"""The man pages: groff has nothing to complain of, and they show what the programs do."""

import os
import re
import tempfile
from pathlib import Path

from listing_cases import NAMES
from programs import LISTING, ROOT, expect, expect_same_lines, output_of, run

MAN = ROOT / "host" / "man"
PAGES = ["giangotum-listing", "giangotum-dome"]
SECTIONS = ["NAME", "SYNOPSIS", "DESCRIPTION", "EXIT STATUS", "SEE ALSO"]
# Every warning is asked for. The output has no bold, no underlining and no colour.
RENDER = ["groff", "-man", "-Tutf8", "-ww", "-P-c", "-P-b", "-P-u", "-P-o"]


def source(name):
    return (MAN / f"{name}.1").read_text(encoding="ascii")


def rendered(name):
    """The page as it is shown. A warning is a complaint on standard error, and so a failure."""
    ended = run(RENDER, source(name).encode())
    expect(ended.returncode == 0 and not ended.stderr, f"{name}: {ended.stderr.decode()}")
    return ended.stdout.decode("utf-8")


def test_every_page_is_looked_at():
    stored = {path.name for path in MAN.iterdir()}
    expect(stored == {f"{name}.1" for name in PAGES}, f"{sorted(stored)}")


def test_sections():
    for name in PAGES:
        text = rendered(name)
        for title in SECTIONS:
            expect(re.search(rf"^{title}\n +\S", text, re.MULTILINE), f"{name}: {title}")
        expect(re.search(rf"^NAME\n +{name} ", text, re.MULTILINE), f"{name}: another name")


def test_columns_and_refusals():
    text = rendered("giangotum-listing")
    expect(re.search(rf"^ +{NAMES}$", text, re.MULTILINE), "the line of names")
    described = re.findall(r"^\.TP.*\n\.B (\w+)$", source("giangotum-listing"), re.MULTILINE)
    expect(described == [*NAMES.split(), "1", "3", "4", "5", "6", "18", "7", "8", "9", "10", "11"], f"{described}")
    for word in described:
        expect(re.search(rf"^ +{word}\b", text, re.MULTILINE), word)


def test_examples():
    paragraphs = re.split(r"\n\s*\n", rendered("giangotum-listing"))
    examples = [[line.strip() for line in paragraph.splitlines()] for paragraph in paragraphs if re.match(r"\s*\$ ", paragraph)]
    expect(len(examples) == 2, f"{examples}")
    with tempfile.TemporaryDirectory() as folder:
        (Path(folder) / "giangotum-listing").symlink_to(LISTING)
        (Path(folder) / "examples").symlink_to(ROOT / "examples")
        path = f"PATH={folder}{os.pathsep}{os.environ['PATH']}"
        for lines in examples:
            commands = [line[2:] for line in lines if line.startswith("$ ")]
            wanted = [line for line in lines if not line.startswith("$ ")]
            wrote = output_of(["env", "-C", folder, path, "sh", "-c", "\n".join(commands)])
            expect_same_lines(wrote, "".join(line + "\n" for line in wanted))
