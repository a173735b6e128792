"""valgrind sees no error and no leak in the programs, whatever they read."""

import random

import bad_inputs
import generate
from programs import DOME, VALGRIND, digests, dome, expect, expect_same_lines, output_of, program, run
from reference import text_of
from test_examples import ARRIVALS, CAMPAIGNS, WRONG_CAMPAIGN_FILES, expect_stored_lines, one_site, stored_lines


def expect_clean(stream):
    expect_same_lines(dome(stream, under=VALGRIND), text_of(stream))


def test_example():
    expect_clean(ARRIVALS)


def test_bad_inputs():
    # One stream: a cut arrival takes what follows for its own bytes, which is bad input too.
    expect_clean(b"".join(case.stream for case in bad_inputs.CASES))


def test_random_arrivals():
    rng = random.Random(5)
    stream = generate.stream_of(generate.damaged(rng) for _ in range(500))
    stream += generate.stream_of(generate.lawful(rng) for _ in range(500))
    expect_clean(stream + generate.over_long(rng) + generate.over_long(rng)[:1000])


def test_calls():
    output_of([*VALGRIND, program("calls")])


def test_core_calls():
    output_of([*VALGRIND, program("core_calls")])


def test_record_calls():
    output_of([*VALGRIND, program("record_calls")])


def test_process_calls():
    output_of([*VALGRIND, program("process_calls")])


def test_watch_calls():
    output_of([*VALGRIND, program("watch_calls")])


def test_shelf_calls():
    output_of([*VALGRIND, program("shelf_calls")])


def test_join_calls():
    output_of([*VALGRIND, program("join_calls")])


def test_retire_calls():
    output_of([*VALGRIND, program("retire_calls")])


def test_take_back_calls():
    output_of([*VALGRIND, program("take_back_calls")])


def test_one_site():
    expect_same_lines(one_site(CAMPAIGNS["four_sites"], under=VALGRIND)[0], stored_lines("one_site"))


def test_two_campaigns():
    expect_stored_lines("two_campaigns", under=VALGRIND)


def test_two_controllers():
    expect_stored_lines("two_controllers", under=VALGRIND)


def test_long_campaign():
    expect_stored_lines("long_campaign", under=VALGRIND)


def test_wrong_campaign():
    expect_stored_lines("wrong_campaign", *WRONG_CAMPAIGN_FILES, under=VALGRIND)


def test_digests():
    messages = [bytes(length) for length in range(200)]
    expect(digests(messages, under=VALGRIND) == digests(messages), "other digests under valgrind")


def test_dome_takes_no_dynamic_memory():
    ended = run(["valgrind", DOME], ARRIVALS)
    said = ended.stderr.decode()
    expect(ended.returncode == 0 and ended.stdout.decode() == text_of(ARRIVALS), said)
    expect("total heap usage: 0 allocs" in said, said)
