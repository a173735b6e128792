"""The harness: the library, and the listing program, against an implementation of its own of documents 01 and 02, on seeded
input."""

import re

from programs import DOME, HARNESS, LISTING, expect, output_of, run

CASES = 10_000
STREAMS = 1_500
GROUPS = 4_000
SHELVES = 4_000
JOINS = 4_000
RETIRINGS = 4_000
TAKINGS_BACK = 10_000
LONG = 4
FEWEST_MUTANTS = 1_490
# 1 is no answer of admission: it is for a setup.
ANSWERS = {"gt_admit": {0, *range(2, 12), 18}, "gt_interpret": {0, 2, 12, 13, 14, 15}, "gt_retire": {0, 2, 12, 13, 29},
           "gt_take_back": {0, 2, 32, 33}, "gt_forks": {0, 2}, "gt_ancestors": {0, 2, 13},
           "gt_build": {0, 2, 3, 4, 6, 16, 17, 18, 30}, "gt_arrive": {0, *range(2, 12), *range(17, 22)},
           "gt_join": {0, 2, 12, 23, 24, 25, 31}}
# What else must have been met: else the comparison shows little.
MET = ["campaigns with a slot delivered at both sites", "up to f forked: two numbers sent, one delivered",
       "blocks interpreted at both sites", "tables watched with f forked sites", "tables watched with f + 1 forked sites",
       "tables watched with forks of sequence 0 alone", "tables watched with forks below the greatest alone",
       "places with 63 ancestors", "blocks built for a site without a held block", "blocks built with nothing of others left",
       "blocks built with one fewer left than fit", "blocks built with as many left as fit",
       "blocks built with one more left than fit", "blocks built of the greatest length", "blocks built on a full table",
       "blocks built into an output of their length", "blocks built into a longer output", "outputs too short by one byte",
       "sites forked below their greatest number alone", "built blocks admitted", "built blocks refused with 8",
       "built blocks refused with 11", "groups with the premises met at some site", "met with forked sites held there",
       "takings back by sites that never retire"]
# How often groups must have met the premises of arrival: else little is shown of the promise.
FEWEST_MET = {"groups with the premises met at some site": 3_000, "met with forked sites held there": 1_200,
              "met with just n - f full sites": 1_500}
# What arrivals with a shelf must have met. That a campaign holds more than 10 places is never all that is wrong with a shelf:
# there are too few left then for the others.
SHELVED = ["shelves in form", "shelves not in form", "shelves with each bit flipped in turn",
           *(f"broken alone: {rule}" for rule in (
               "the buffer has a shelf's length", "the count is up to 16", "entries from the count on are zero",
               "a waiting block fits its entry", "the reader accepts each waiting block", "behind a block there are zeros",
               "campaigns are up to 3", "no campaign has the same bytes waiting twice",
               "the free places cover what the campaigns lack of their 2")),
           *(f"arrivals that let in {blocks} waiting" for blocks in range(1, 11)),
           *(f"waiting blocks dropped with {number}" for number in (4, 8, 10, 11)),
           "arrivals that let some in and dropped others", "waiting blocks of the greatest length let in",
           "arrivals that needed two passes or more", "arrivals that needed five passes or more",
           "arrivals that needed ten passes", "full shelves", "shelves with a campaign at 10",
           "shelves with the same bytes for two campaigns", "9 for a campaign that holds fewer than 2",
           "9 for the last place that others leave", "9 with a full table", "19 for a campaign at 10", "19 for what others lack",
           "20 where no place is left", "20 with a full shelf"]
# How often campaigns must have been made once more alone: else little is shown of their independence.
FEWEST_ALONE = {"campaigns replayed alone": 2_000, "campaigns replayed alone that got 19": 700,
                "campaigns replayed alone with waiting blocks ended": 800, "campaigns replayed alone that retired": 120,
                "campaigns replayed alone that took back": 400, "blocks let in from the shelf taken back": 1_000,
                "arrivals taken back with all that they let in": 400}
# What joins must have met.
JOINED = [*(f"joins of {sides}" for sides in (
              "overlapping sides", "a right inside the left", "a left inside the right", "equal sides",
              "sides with nothing in common", "an empty left", "an empty right", "two empty sides", "two full sides")),
          "joins to 63 blocks", "joins to 64 blocks", "25 for 65 blocks", "25 for 66 blocks or more, two sides not full",
          *(f"joins with a block interpreted at {sides}" for sides in (
              "the left alone", "the right alone", "both sides", "neither side")),
          "joins with a new block whose references move", "joins with other parts at the two sides",
          "23 for n alone", "23 for one owner alone",
          *(f"24 for {what}" for what in (
              "the site alone", "the sequence number alone", "one request alone", "a reference more at the left",
              "a reference more at the right", "as many other references", "several blocks")),
          "24 where the result would be too great",
          *(f"{number} for {buffer} {length} by one" for length in ("short", "long") for number, buffer in (
              (2, "a left"), (2, "a right"), (12, "left records"), (12, "right records"), (12, "a third buffer")))]
# How often joined sites must have gone on beside one that got all blocks: else little is shown of their agreement.
FEWEST_GONE_ON = {"joined sites that went on": 1_000, "joined sites that went on and delivered": 250}
# What retirings must have met.
RETIRED = [*(f"29 for {cause}, alone" for cause in (
               "a place 0 that isn't interpreted", "an open block that refers to place 0", "no later interpreted block")),
           *(f"29 with {what}" for what in (
               "a later block that isn't interpreted", "a twin and no later block", "later blocks of other sites")),
           "12 for records to retire short by one", "12 for records to retire long by one",
           "13 for an empty table that has retired something",
           *(f"retirings {which}" for which in (
               "of a full table", "that leave one block", "of a block that others refer to", "of a block that is a parent",
               "with an open block held", "by a table that has retired before")),
           "campaigns with more than 64 blocks at a site"]
# How often blocks must have come again, and two sites have retired at different times: else little is shown of the ledgers.
FEWEST_RETIRED = {"blocks that have left admitted again": 5_000, "blocks that have left refused with 9": 5_000,
                  "blocks refused with 9 for one that has left": 5_000, "blocks admitted that refer to one that came again": 3_000,
                  "blocks that have left interpreted again": 5_000, "campaigns with retirings at both sites": 1_000,
                  "campaigns with other numbers of retirings": 1_000, "campaigns with retirings and a delivery at both": 300,
                  "campaigns with retirings and 1 to f forked sites": 300, "campaigns with a forked site that no watch names": 100}
# How often such campaigns must have taken blocks back: else little is shown of which blocks count.
FEWEST_TAKEN_BACK = {"admissions taken back straight away": 5_000, "blocks taken back after other calls": 5_000,
                     "blocks admitted again after they were taken back": 5_000,
                     "blocks that came again after a retiring taken back": 400,
                     "blocks taken back that would have been a fork": 3_000, "campaigns with takings back at both sites": 600,
                     "campaigns with takings back and a delivery at both": 180,
                     "campaigns with takings back and retirings at both": 400,
                     "campaigns with a fork only in blocks taken back": 600,
                     "campaigns with f exceeded only by blocks taken back": 400,
                     "campaigns with a fork that one site took back": 30}
# What single takings back must have met, and how many were put into lists beside their admissions.
TAKEN_BACK = ["2 for a table without a block to take back", "2 for a table whose last place is interpreted",
              "32 for a table that has retired nothing", "32 for an empty table that has retired something",
              "33 for a single block", "33 for a full table", "33 with an open block below the last",
              *(f"takings back {which}" for which in (
                  "from a full table", "that leave no block", "with an interpreted place below",
                  "of a block that could be interpreted", "from a table that has retired something")),
              "tables of several blocks taken back down to empty"]
FEWEST_PUT_IN = {"admissions put into lists with their takings back": 5_000,
                 "blocks put into lists that admit them next": 1_000}
# The same of listings. Their tables are in form, so that no arrival is answered 2.
LISTED = [*(f"arrivals answered {number}" for number in (0, *range(3, 12), 18)),
          "listings of no bytes", "listings of a short setup", "listings of an unlawful setup", "listings without an arrival",
          "listings with deliveries in several slots", "listings with deliveries at several sites",
          "listings with deliveries in both branches of a fork", "listings with a full table",
          "listings with more than 256 arrivals", "listings of more than 65,536 bytes", "listings cut in a length",
          "listings cut before a verdict", "listings cut in a block", "listings cut in an over-long arrival",
          "arrivals answered 8 with a full table", "arrivals over-long", "arrivals of 0 to 4 bytes",
          "arrivals of the greatest length not answered 3", "deliveries after another in the same block"]
SITE_COUNTS = {"1", "4", "7", "10", "13", "16"}


def last_line(text):
    return text.splitlines()[-1]


def expect_met(text, names, fewest=1):
    counts = dict(re.findall(r"^ *(\S.*?) +(\d+)$", text, re.MULTILINE))
    for name in names:
        expect(int(counts.get(name, "0")) >= fewest, f"{name}: fewer than {fewest}\n{text}")


def expect_met_often(text, fewest_met):
    for name, fewest in fewest_met.items():
        expect_met(text, [name], fewest)


def site_counts(text, what):
    """For which n something was met, if only once."""
    return set(re.findall(rf"^  n (\d+): {what} +[1-9]\d*$", text, re.MULTILINE))


def expect_answered(text, call):
    times = re.findall(rf"^{call} answered +(\d+) +(\d+) times$", text, re.MULTILINE)
    met = {int(answer) for answer, count in times if int(count) > 0}
    expect(met == ANSWERS[call], f"answers of {call} that were met: {sorted(met)}\n{text}")


def without_difference(cases, *words):
    """What a run of so many cases says, which finds no difference."""
    text = output_of([HARNESS, *words, "--seed", "1", "--cases", str(cases)])
    expect(last_line(text) == f"{cases} cases, 0 differences", text)
    return text


def test_no_difference():
    text = without_difference(CASES)
    for call in ANSWERS:
        expect_answered(text, call)
    expect_met(text, MET)


def test_listing_program():
    text = without_difference(STREAMS, "--listing", LISTING)
    expect_met(text, LISTED)
    expect(site_counts(text, r"with a delivery of \d+") == SITE_COUNTS, text)


def test_promise_of_arrival():
    """Where its premises are met, the promise is kept; and they are met often, for every n. With n 1 no site may fork."""
    text = without_difference(GROUPS, "--kind", "groups")
    expect_met_often(text, FEWEST_MET)
    expect(site_counts(text, r"met of \d+") == SITE_COUNTS, text)
    expect(site_counts(text, "met with forked sites held there") == SITE_COUNTS - {"1"}, text)


def expect_no_difference(kind, cases, call, met, fewest_met):
    """Cases of one kind find none, in every answer of its call and in all that they must meet, some of it so often."""
    text = without_difference(cases, "--kind", kind)
    expect_answered(text, call)
    expect_met(text, met)
    expect_met_often(text, fewest_met)


def test_shelves():
    """Four campaigns with a shelf, shelves that no calls reach, and damaged ones."""
    expect_no_difference("shelves", SHELVES, "gt_arrive", SHELVED, FEWEST_ALONE)


def test_joins():
    """Two controllers whose tables and records calls reached, and others, some with something wrong."""
    expect_no_difference("joins", JOINS, "gt_join", JOINED, FEWEST_GONE_ON)


def test_retirings():
    """Two sites that retire at different times and take back, each beside a ledger of every block ever admitted, and single
    retirings."""
    expect_no_difference("retirings", RETIRINGS, "gt_retire", RETIRED, {**FEWEST_RETIRED, **FEWEST_TAKEN_BACK})


def test_takings_back():
    """Single ones, and lists that leave the same with admissions put in, each taken back straight away."""
    expect_no_difference("takings-back", TAKINGS_BACK, "gt_take_back", TAKEN_BACK, FEWEST_PUT_IN)


def test_long_campaigns():
    """Of 10,000 blocks each, in 64 places: no call is refused, and each owner's first request is delivered at every site."""
    text = without_difference(LONG, "--kind", "long")
    expect_met_often(text, {"blocks of long campaigns": LONG * 10_000, "retirings in long campaigns with a full table": 10_000,
                            "takings back in long campaigns": 4_000})


def test_the_last_sequence_number():
    """A site alone builds up to 65,535, and then gets 30."""
    text = without_difference(1, "--kind", "last")
    expect_met(text, ["sites that came to 65,535 and then got 30"])


def test_another_program_is_found():
    """By a case that finds it alone too."""
    command = [HARNESS, "--listing", DOME, "--seed", "2"]
    ended = run([*command, "--cases", "10"])
    found = re.search(r"^seed 2, case (\d+), kind listings: listing: line 0 is .*$", ended.stdout.decode(), re.MULTILINE)
    expect(ended.returncode == 1 and found, ended.stdout)
    alone = run([*command, "--only", found[1]])
    expect(alone.returncode == 1 and found[0] in alone.stdout.decode(), alone.stdout)


def test_each_mutant_is_found():
    text = output_of([HARNESS, "--self-test"])
    counts = re.fullmatch(r"(\d+) mutants found, 0 survived", last_line(text))
    expect(counts and int(counts[1]) >= FEWEST_MUTANTS, text)


def test_bad_arguments():
    for arguments in [["--cases", "x"], ["--cases", "0"], ["--cases"], ["--unknown"], ["--listing"], ["--listing", "none"],
                      ["--listing", LISTING, "--kind", "setups"], ["--listing", LISTING, "--self-test"]]:
        ended = run([HARNESS, *arguments])
        expect(ended.returncode == 2 and ended.stderr and not ended.stdout,
               f"{arguments}: exit status {ended.returncode}, said: {ended.stderr!r}")
