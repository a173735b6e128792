"""The stored examples: their bytes, their lines, and the program between them. `make test-programs` compiles those in C."""

import tempfile
from pathlib import Path

import make_arrivals
import make_campaigns
from programs import ROOT, dome, expect, expect_same_lines, listing, output_of, program, run
from reference import text_of

EXAMPLES = ROOT / "examples"
ARRIVALS = (EXAMPLES / "arrivals.bin").read_bytes()
CAMPAIGNS = {name: (EXAMPLES / f"{name}.campaign").read_bytes() for name in make_campaigns.CAMPAIGNS}
LISTINGS = {name: (EXAMPLES / f"{name}.listing").read_text(encoding="ascii") for name in make_campaigns.CAMPAIGNS}
WRONG_CAMPAIGN_FILES = [str(EXAMPLES / f"{name}.campaign") for name in ("four_sites", "another_night")]


def stored_lines(name):
    return (EXAMPLES / f"{name}.expected").read_text(encoding="ascii")


EXPECTED = stored_lines("arrivals")


def expect_stored_lines(name, *arguments, under=()):
    """An example writes the lines that are stored for it; `under` stands before its name."""
    expect_same_lines(output_of([*under, program(name), *arguments]), stored_lines(name))


def test_dome_writes_the_stored_lines():
    expect_same_lines(dome(ARRIVALS), EXPECTED)


def test_the_reference_writes_the_stored_lines():
    expect_same_lines(text_of(ARRIVALS), EXPECTED)


def one_site(stream, under=()):
    """What the example of one site writes, and the arrival that it leaves in its file; `under` stands before its name."""
    with tempfile.TemporaryDirectory() as folder:
        file = Path(folder) / "next.arrival"
        return output_of([*under, program("one_site"), str(file)], stream), file.read_bytes()


def test_one_site_writes_the_stored_lines():
    expect_same_lines(one_site(CAMPAIGNS["four_sites"])[0], stored_lines("one_site"))


def test_the_block_of_one_site_is_taken_by_the_others():
    # The listing has a line more only where the last arrival is refused: at first it isn't, and the second time it is held.
    _, arrived = one_site(CAMPAIGNS["four_sites"])
    expect_same_lines(listing(CAMPAIGNS["four_sites"] + arrived), LISTINGS["four_sites"])
    expect_same_lines(listing(CAMPAIGNS["four_sites"] + 2 * arrived), LISTINGS["four_sites"] + "19 - - - - - 8\n")


def test_one_site_says_what_it_cannot_do():
    inputs = {b"": "the input has no setup, or can't be read", CAMPAIGNS["unlawful"]: "the setup is refused with 1",
              CAMPAIGNS["chain"]: "building is refused with 4",  # it has one site
              CAMPAIGNS["four_sites"][:-1]: "the input ends within an arrival, or can't be read",
              CAMPAIGNS["four_sites"] + b"\0": "the input ends within an arrival, or can't be read"}
    with tempfile.TemporaryDirectory() as folder:
        ends = [(run([program("one_site"), f"{folder}/next"], stream), said) for stream, said in inputs.items()]
        ends.append((run([program("one_site")]), "name the file that our next block is written to"))
        ends.append((run([program("one_site"), folder], CAMPAIGNS["four_sites"]), "the file for our block can't be written"))
        for ended, said in ends:
            expect(ended.returncode == 1 and ended.stderr.decode() == f"one_site: {said}\n", f"{ended}")
        expect(not list(Path(folder).iterdir()), "a file is written although the input is refused")


def test_two_campaigns_writes_the_stored_lines():
    expect_stored_lines("two_campaigns")


def test_two_controllers_writes_the_stored_lines():
    expect_stored_lines("two_controllers")


def test_long_campaign_writes_the_stored_lines():
    expect_stored_lines("long_campaign")


def test_wrong_campaign_writes_the_stored_lines():
    expect_stored_lines("wrong_campaign", *WRONG_CAMPAIGN_FILES)


def test_the_stored_arrivals_are_the_described_ones():
    expect(b"".join(make_arrivals.arrivals()) == ARRIVALS, "examples/make_arrivals.py makes other bytes")


def test_the_stored_listings_are_written():
    for name, stream in CAMPAIGNS.items():
        expect_same_lines(listing(stream), LISTINGS[name])


def test_the_stored_campaigns_are_the_described_ones():
    for name, stream in make_campaigns.CAMPAIGNS.items():
        expect(stream() == CAMPAIGNS[name], f"examples/make_campaigns.py makes other bytes for {name}")


def test_no_campaign_is_left_over():
    for ending in ["campaign", "listing"]:
        stored = {path.stem for path in EXAMPLES.glob(f"*.{ending}")}
        expect(stored == set(CAMPAIGNS), f"*.{ending}: {sorted(stored)}")
