"""bench/tables.py and bench/harness_tables.py: the figures of each run come to their place in the page."""

import harness_tables
from programs import HARNESS, LISTING, expect, output_of
from tables import compared, rows, with_table

OUTPUT = """target/host/bench_a
Times of a:
call        ours us       C us     C/ours
one            9.50       12.00       1.20
target/host/bench_b
Times of b:
one            1.50      100.4       2.00
"""
PAGE = "# Page\n\n| other | C |\n|---|---|\n| one | 7 |\n\n| call | ours |\n|---|---|\n| one | old |\n\nText.\n"


def test_rows_are_those_of_their_section():
    expect(rows(OUTPUT, "Times of a", "([a-z]+)", 3) == [("one", "9.50", "12.00", "1.20")], "a")
    expect(rows(OUTPUT, "Times of b", "([a-z]+)", 3) == [("one", "1.50", "100.4", "2.00")], "b")


def test_the_last_run_is_shown_and_the_range_is_over_all():
    runs = [[("one", "1.50", "100.4", "2.00")], [("one", "9.50", "12.00", "1.20")]]
    expect(compared(runs, lambda i, row: row[0]) == [["one", "9.50 us", "12.0 us", "1.20", "1.20 to 2.00"]], "compared")


def test_a_table_is_replaced_and_nothing_else():
    page = with_table(PAGE, "| call |", [["one", "new", ""]])
    expect(page == PAGE.replace("| one | old |", "| one | new | |"), page)
    try:
        with_table(PAGE, "| call |", [["one", "new"], ["two", "new"]])
    except ValueError:
        return
    raise AssertionError("a table of another number of rows is written")


RUNS = """Text.

`target/harness/release/harness --kind one`

Text.

| what came | times |
|---|---|
| gt_a answered 9 | 1 |
| two in words | 1 |

`target/harness/release/harness --seed 1`
| what came | times |
|---|---|
| gt_a | 1 |

Text.
"""
OUTPUTS = {"target/harness/release/harness --kind one": "gt_a answered  9     1234 times\n  two in words             5\nthree    6\n",
           "target/harness/release/harness --seed 1": "gt_a      7 calls of 8 in all\n"}


def test_the_harness_fills_the_table_of_each_run():
    wanted = RUNS.replace("| gt_a answered 9 | 1 |", "| gt_a answered 9 | 1,234 |").replace("words | 1 |", "words | 5 |")
    wanted = wanted.replace("| gt_a | 1 |", "| gt_a | 7 |")
    expect(harness_tables.filled(RUNS, OUTPUTS.get) == wanted, harness_tables.filled(RUNS, OUTPUTS.get))


def test_the_harness_has_each_line_that_the_page_shows():
    runs = harness_tables.runs(harness_tables.PAGE.read_text(encoding="utf-8"))
    expect(len(runs) == 12, f"{len(runs)} runs")
    for command, shown in runs:
        listing = ["--listing", LISTING] if "--listing" in command else []
        came = harness_tables.counts(output_of([HARNESS, *listing, "--cases", "1"]))
        expect(shown and all(words in came for words in shown), f"{command}: {sorted(set(shown) - set(came))}")
