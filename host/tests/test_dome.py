"""dome's framing and its streams: cut and over-long arrivals, and what happens when a stream fails."""

import random
import select
import subprocess

import bad_inputs
import generate
from campaign import MAX_BLOCK_BYTES, dome_arrival as arrival
from programs import DOME, LONGEST_RUN, dome, expect, expect_same_lines, run
from reference import text_of
from test_examples import ARRIVALS

SHORTEST = arrival(bytes(5))


def expect_as_reference(stream):
    expect_same_lines(dome(stream), text_of(stream))


def expect_failure(ended, message):
    said = ended.stderr.decode()
    expect(ended.returncode == 1 and said == message + "\n", f"exit status {ended.returncode}, said: {said!r}")


# ---- Framing

def test_empty_input_has_no_line():
    expect(dome(b"") == "", "a line for no arrival")


def test_bad_inputs():
    for case in bad_inputs.CASES:
        wrote = dome(case.stream)
        expect(wrote == case.text, f"{case.name}: wrote\n{wrote}")


def test_the_reference_agrees_on_bad_inputs():
    for case in bad_inputs.CASES:
        expect(text_of(case.stream) == case.text, case.name)


def test_the_example_cut_anywhere():
    for end in range(len(ARRIVALS)):
        expect_as_reference(ARRIVALS[:end])


def test_over_long_lengths():
    rng = random.Random(6)
    longest = MAX_BLOCK_BYTES
    for length in [longest + 1, longest + 2, 2 * longest, 2 * longest + 1, 32768, 65535]:
        whole = generate.over_long(rng, length)
        expect_as_reference(whole + SHORTEST)
        for end in [2, 3, longest, longest + 2, len(whole) - 1]:
            expect(dome(whole[:end]) == "- refusal 3\n", f"length {length}, {end} bytes there")


def test_random_streams():
    rng = random.Random(7)
    for _ in range(500):
        expect_as_reference(generate.random_stream(rng))


def test_random_bytes():
    rng = random.Random(8)
    for _ in range(200):
        expect_as_reference(rng.randbytes(rng.randint(0, 4000)))


# ---- Streams

def test_a_line_is_there_before_the_next_arrival():
    with subprocess.Popen([DOME], stdin=subprocess.PIPE, stdout=subprocess.PIPE) as process:
        for _ in range(3):
            process.stdin.write(SHORTEST)
            process.stdin.flush()
            expect(select.select([process.stdout], [], [], LONGEST_RUN)[0], "no line")
            expect(process.stdout.readline() == text_of(SHORTEST).encode(), "another line")
        process.stdin.close()
        expect(process.wait(LONGEST_RUN) == 0, f"exit status {process.returncode}")


def test_output_that_is_full():
    with open("/dev/full", "wb") as full:
        expect_failure(run([DOME], SHORTEST, stdout=full), "giangotum-dome: cannot write standard output")


def test_output_that_is_closed():
    expect_failure(run(["sh", "-c", '"$0" >&-', DOME], SHORTEST), "giangotum-dome: cannot write standard output")


def test_output_whose_reader_went_away():
    process = subprocess.Popen([DOME], stdin=subprocess.PIPE, stdout=subprocess.PIPE, stderr=subprocess.PIPE)
    process.stdout.close()
    process.stdin.write(SHORTEST)
    process.stdin.close()
    with process.stderr as stderr:
        said = stderr.read()
    status = process.wait(LONGEST_RUN)
    expect_failure(subprocess.CompletedProcess([DOME], status, b"", said), "giangotum-dome: cannot write standard output")


def test_input_that_is_closed():
    expect_failure(run(["sh", "-c", '"$0" <&-', DOME]), "giangotum-dome: cannot read standard input")


def test_input_that_is_a_directory():
    ended = run(["sh", "-c", '"$0" <.', DOME])
    expect_failure(ended, "giangotum-dome: cannot read standard input")
    expect(ended.stdout == b"", "a line for no arrival")
