"""What the documents quote and draw is what the sources say."""

import re

import figures
import pictures
import trace_page
from programs import ROOT, expect, expect_same_lines
from test_examples import EXPECTED, LISTINGS


def test_the_theorems_are_quoted_word_for_word():
    page = (ROOT / "docs" / "AGREEMENT.md").read_text(encoding="utf-8")
    crates = ROOT / "crates"
    stated = [*sorted((crates / "agreement" / "specs").glob("*.antt")), *sorted((crates / "arrival" / "specs").glob("*.antt")),
              crates / "run" / "specs" / "Promises.antt", crates / "report" / "specs" / "Lines.antt",
              crates / "controller" / "specs" / "Promises.antt", crates / "joined" / "specs" / "Promises.antt"]
    sources = [path.read_text(encoding="utf-8") for path in stated]
    quoted = re.findall(r"```antt\n(.*?)```", page, re.DOTALL)
    expect(len(quoted) == 22, f"{len(quoted)} quotations")
    for text in quoted:
        expect(any(text in source for source in sources), text)


def test_the_examples_are_shown_as_they_are_stored():
    page = (ROOT / "README.md").read_text(encoding="utf-8")
    for command, shown in [("target/bin/listing < examples/four_sites.campaign", LISTINGS["four_sites"]),
                           ("target/host/dome < examples/arrivals.bin", EXPECTED)]:
        expect(f"```\n$ {command}\n{shown}```\n" in page, command)


def test_the_example_in_c_is_quoted_word_for_word():
    page = (ROOT / "README.md").read_text(encoding="utf-8")
    source = (ROOT / "examples" / "one_site.c").read_text(encoding="ascii")
    section = re.search(r"^`examples/one_site\.c` is a whole program.*?^A controller that follows", page, re.MULTILINE | re.DOTALL)
    quoted = re.findall(r"```c\n(.*?)```", section[0], re.DOTALL)
    expect(len(quoted) == 3, f"{len(quoted)} quotations")
    for text in quoted:
        expect(f"\n{text}" in source, text)


def numbers_of(page, title):
    """The numbers in the first column of the table with this title."""
    section = (ROOT / page).read_text(encoding="utf-8").split(title)[1].split("\n\n")[0]
    return [int(number) for number in re.findall(r"^\| (\d+) \|", section, re.MULTILINE)]


def test_every_refusal_has_a_cause_and_an_advice():
    numbers = [*range(1, 22), 23, 24, 25, *range(29, 34)]
    expect(numbers_of("README.md", "| number | cause | what to do |") == numbers, "README.md")
    expect(numbers_of("docs/FORMATS.md", "| number | cause | value |") == numbers, "docs/FORMATS.md")


def test_every_name_of_the_trace_exists():
    page = trace_page.TRACE.read_text(encoding="utf-8")
    unknown = trace_page.unknown(page)
    expect(not unknown, "\n".join(unknown))


def test_a_wrong_name_in_the_trace_is_found():
    page = trace_page.TRACE.read_text(encoding="utf-8")
    for right, wrong in [("`any_owners`", "`all_owners`"), ("`owner_four`", "`owner_five`"), ("`core_calls.c`", "`care_calls.c`"),
                         ("`setup/specs/Setup.antt`", "`setup/specs/Setups.antt`"), ("`owners_below`", "`owners_above`"),
                         ("`setup::lawful`", "`setup::lawless`"), ("`ShapedBlock::read`", "`ShapedBlock::reads`"),
                         ("`Refusal::value`", "`Refusals::value`"), ("`StarredCases`", "`Starred`"), ("`rest`", "`remainder`")]:
        expect(right in page, right)
        unknown = trace_page.unknown(page.replace(right, wrong))
        expect(any(wrong.strip("`") in line for line in unknown), f"{wrong}: {unknown}")


def test_every_file_that_a_document_names_exists():
    stored = [f"/{path.relative_to(ROOT)}" for path in ROOT.rglob("*.*") if "target" not in path.parts]
    gone = {"PORT.md": {"proofs/LetElse.antt"}}  # that page tells of the files as they stood after the port
    for page in [ROOT / "README.md", ROOT / "CONTRIBUTING.md", *sorted((ROOT / "docs").glob("*.md"))]:
        named = set(re.findall(r"`([\w./-]+\.(?:antt|rt|rs|md|py|c|h|sh|txt))`", page.read_text(encoding="utf-8")))
        missing = sorted(name for name in named - gone.get(page.name, set()) if not any(path.endswith(f"/{name}") for path in stored))
        expect(not missing, f"{page.name}: {missing}")


def test_every_edit_stands_in_the_trace():
    missing = trace_page.stored_edits() - trace_page.named_edits(trace_page.TRACE.read_text(encoding="utf-8"))
    expect(not missing, f"{sorted(missing)}")


def test_the_figures_are_those_of_the_tree():
    values = figures.figures()
    for name, sentence in figures.SENTENCES:
        page = (ROOT / name).read_text(encoding="utf-8")
        expect_same_lines(page, figures.corrected(page, sentence, values))
        other = figures.corrected(page, sentence, dict.fromkeys(values, "0"))
        expect(figures.corrected(other, sentence, values) == page != other, sentence)


def test_the_pictures_are_stored_as_they_are_drawn():
    stored = {path.name: path.read_text(encoding="utf-8") for path in (ROOT / "docs").glob("*.svg")}
    drawn = pictures.drawn()
    expect(set(stored) == set(drawn), f"{sorted(stored)}")
    for name, picture in drawn.items():
        expect_same_lines(stored[name], picture)


def test_the_pictures_are_shown():
    page = (ROOT / "README.md").read_text(encoding="utf-8")
    for name in pictures.drawn():
        expect(re.search(rf"^!\[[^\]]+\]\(docs/{re.escape(name)}\)$", page, re.MULTILINE), name)


def test_the_picture_of_the_layers_has_every_crate():
    listed = (ROOT / "crates.txt").read_text(encoding="utf-8")
    for other in [listed + "another: base\n", listed.replace("\nvectors:", "\n#")]:
        try:
            pictures.layers(other)
        except ValueError:
            continue
        raise AssertionError("a list of other crates is drawn")
