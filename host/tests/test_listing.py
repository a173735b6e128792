"""The listing program: document 01's example, the cases of listing_cases.py, its streams, when its lines come, and its memory."""

import fcntl
import os
import re
import resource
import select
import subprocess
import tempfile
import termios
import time
from pathlib import Path

import listing_cases
from campaign import MAX_BLOCK_BYTES, MAX_REFERENCES, MAX_REQUESTS, REFERENCE_BYTES, arrival, block, setup
from listing_cases import FIRST, FOUR_SITES, text_of
from make_campaigns import chain
from programs import LISTING, LONGEST_RUN, VALGRIND, expect, expect_same_lines, listing, run
from test_examples import CAMPAIGNS, LISTINGS

DOCUMENT_01 = b"""arrival place site seq slot number refusal
3 3 0 3 0 7 0
4 - - - - - 8
"""
REFUSED = arrival(b"")  # with 3
LONG_STREAM = FOUR_SITES + 1000 * REFUSED  # whose listing is written in several pieces


def refused(number, refusal=3):
    return f"{number} - - - - - {refusal}"


def expect_each(cases):
    for case in cases:
        try:
            expect_same_lines(listing(case.stream), text_of(case.lines))
        except AssertionError as error:
            raise AssertionError(f"{case.name}: {error}") from None


# ---- What is listed

def test_document_01s_example():
    ended = run([LISTING], chain())
    expect((ended.returncode, ended.stdout, ended.stderr) == (0, DOCUMENT_01, b""), f"{ended}")


def test_setups():
    expect_each(listing_cases.SETUPS)


def test_numbers_of_sites():
    for sites in [*range(20), 32, 64, 127, 128, 255]:
        lawful = sites in [1, 4, 7, 10, 13, 16]
        wanted = [refused(0)] if lawful else ["- - - - - - 1"]
        expect(listing(setup(sites, [0] * 8) + REFUSED) == text_of(wanted), f"{sites} sites")


def test_shapes():
    expect_each(listing_cases.SHAPES)


def test_refusals():
    expect_each(listing_cases.REFUSALS)


def test_order_of_refusals():
    expect_each(listing_cases.ORDER)


def test_full_table():
    expect_each(listing_cases.FULL_TABLE)


def test_cuts():
    expect_each(listing_cases.CUTS)


def test_deliveries():
    expect_each(listing_cases.DELIVERIES)


def test_the_example_cut_anywhere():
    # Where each arrival of the example begins, and the last one ends.
    starts = [9, 20, 60, 100, 140, 151]
    stream = chain()
    expect(len(stream) == starts[-1], f"{len(stream)} bytes")
    lines_of_arrivals = [[], [], [], ["3 3 0 3 0 7 0"], ["4 - - - - - 8"]]
    for end in range(9, len(stream) + 1):
        whole = sum(start <= end for start in starts) - 1
        lines = sum(lines_of_arrivals[:whole], []) + ([] if end in starts else [refused(whole)])
        expect(listing(stream[:end]) == text_of(lines), f"the first {end} bytes")


def test_arrival_numbers_of_five_digits():
    # More than a number of 16 bits counts.
    count = 66_000
    expect_same_lines(listing(FOUR_SITES + count * REFUSED), text_of(map(refused, range(count))))


# ---- Streams

def expect_ended(ended, status, said):
    expect((ended.returncode, ended.stderr) == (status, said), f"exit status {ended.returncode}, said: {ended.stderr!r}")


def test_input_from_a_file():
    with tempfile.TemporaryFile() as file:
        file.write(chain())
        file.seek(0)
        ended = run([LISTING], stdin=file)
    expect_ended(ended, 0, b"")
    expect(ended.stdout == DOCUMENT_01, ended.stdout)


def byte_by_byte(stream):
    """Runs the program on a pipe that gives it one byte at a time, however many it asks for."""
    reading, writing = os.pipe2(os.O_DIRECT | os.O_CLOEXEC)  # a read ends where a write ended
    with subprocess.Popen([LISTING], stdin=reading, stdout=subprocess.PIPE, stderr=subprocess.PIPE) as process:
        os.close(reading)
        for byte in stream:
            os.write(writing, bytes([byte]))
        os.close(writing)
        wrote, said = process.communicate(timeout=LONGEST_RUN)
    expect((process.returncode, said) == (0, b""), f"exit status {process.returncode}, said: {said!r}")
    return wrote.decode("ascii")


def test_input_that_comes_byte_by_byte():
    for name in ["chain", "four_sites", "refusals"]:
        expect_same_lines(byte_by_byte(CAMPAIGNS[name]), LISTINGS[name])


def test_an_over_long_arrival_byte_by_byte():
    stream = FOUR_SITES + arrival(bytes(5000)) + 2 * arrival(FIRST)
    expect_same_lines(byte_by_byte(stream), text_of([refused(0), refused(2, 8)]))


def expect_failed_write(ended):
    """Nothing but the one message is said, be it once or for each piece."""
    said = ended.stderr.splitlines()
    expect(ended.returncode == 0 and set(said) == {b"giangotum-listing: writing failed"},
           f"exit status {ended.returncode}, said: {said}")


def test_output_that_is_full():
    for stream in [chain(), LONG_STREAM]:
        with open("/dev/full", "wb") as full:
            ended = run([LISTING], stream, stdout=full)
        expect_failed_write(ended)


def test_output_that_is_closed():
    expect_failed_write(run(["sh", "-c", '"$0" >&-', LISTING], chain()))


def without_reader(stream, **options):
    """Runs the program on a file, and an output that nobody reads."""
    reading, writing = os.pipe()
    os.close(reading)
    with tempfile.TemporaryFile() as file, open(writing, "wb") as output:
        file.write(stream)
        file.seek(0)
        return run([LISTING], stdin=file, stdout=output, **options)


def test_output_whose_reader_went_away():
    # A program of this kit ignores the signal that ends other filters, so this is a failed write like any other.
    for stream in [chain(), LONG_STREAM]:
        expect_failed_write(without_reader(stream))


def test_output_whose_reader_went_away_and_no_signal():
    # Python's children ignore the signal unless it is restored.
    for stream in [chain(), LONG_STREAM]:
        ended = without_reader(stream, restore_signals=False)
        expect_failed_write(ended)


def test_the_status_that_a_shell_sees_where_the_reader_went_away():
    reading, writing = os.pipe()
    os.close(reading)
    with open(writing, "wb") as output:
        ended = run(["bash", "-c", '"$0"; echo $? >&2', LISTING], chain(), stdout=output)
    expect_ended(ended, 0, b"giangotum-listing: writing failed\n0\n")


def test_output_that_gets_full():
    # A file that may have no more than 4,096 bytes, as on a disk that has no more left: the listing is cut within a line.
    limit = 4096
    whole = listing(LONG_STREAM).encode("ascii")
    with tempfile.TemporaryFile() as file:
        ended = run([LISTING], LONG_STREAM, stdout=file, restore_signals=False,  # with SIGXFSZ ignored, as Python does
                    preexec_fn=lambda: resource.setrlimit(resource.RLIMIT_FSIZE, (limit, limit)))
        file.seek(0)
        wrote = file.read()
    expect_failed_write(ended)
    expect(wrote == whole[:limit] and not wrote.endswith(b"\n"), f"{len(wrote)} bytes of {len(whole)}")


def test_input_without_an_end_and_an_output_that_fails():
    command = r'''{ printf '\1\0\0\0\0\0\0\0\0'; cat /dev/zero; } | "$0" >/dev/full'''
    expect_failed_write(run(["sh", "-c", command, LISTING]))


def test_input_that_is_closed():
    ended = run(["sh", "-c", '"$0" <&-', LISTING])
    expect_ended(ended, 0, b"giangotum-listing: reading failed\n")


def test_input_that_is_a_directory():
    ended = run(["sh", "-c", '"$0" <.', LISTING])
    expect_ended(ended, 0, b"giangotum-listing: reading failed\n")


def test_input_that_fails_in_the_middle():
    # A read from an empty pipe that doesn't block fails. The arrival that has begun isn't cut, and has no line.
    reading, writing = os.pipe()
    os.set_blocking(reading, False)
    os.write(writing, FOUR_SITES + REFUSED + arrival(FIRST)[:4])
    ended = run([LISTING], stdin=reading)
    os.close(reading)
    os.close(writing)
    expect_ended(ended, 0, b"giangotum-listing: reading failed\n")
    expect(ended.stdout.decode("ascii") == text_of([refused(0)]), ended.stdout)


# ---- Lines at once, and few calls of the system

class Live:
    """The program on an input that is sent bit by bit, whose lines are seen as they come."""

    def __init__(self):
        self.process = subprocess.Popen([LISTING], stdin=subprocess.PIPE, stdout=subprocess.PIPE, bufsize=0)
        self.seen = b""

    def __enter__(self):
        return self

    def __exit__(self, *_):
        self.process.kill()
        self.process.stdin.close()
        self.process.stdout.close()
        self.process.wait()

    def send(self, data):
        self.process.stdin.write(data)

    def line(self):
        """The next line, without a byte more of the input."""
        while b"\n" not in self.seen:
            expect(select.select([self.process.stdout], [], [], LONGEST_RUN)[0], f"no line, only {self.seen!r}")
            came = os.read(self.process.stdout.fileno(), 65536)
            expect(came, f"the output ended after {self.seen!r}")
            self.seen += came
        line, self.seen = self.seen.split(b"\n", 1)
        return line.decode("ascii")

    def expect_lines(self, lines):
        for wanted in lines:
            got = self.line()
            expect(got == wanted, f"got {got}, wanted {wanted}")

    def expect_silent(self):
        """For a moment no line comes: none that would have come with the bytes sent so far."""
        expect(not self.seen and not select.select([self.process.stdout], [], [], 0.05)[0], "a line came too soon")

    def expect_end(self, lines=()):
        """These lines come with the input's end, and no more."""
        self.process.stdin.close()
        self.expect_lines(lines)
        rest = self.seen + self.process.stdout.read()
        expect((rest, self.process.wait(LONGEST_RUN)) == (b"", 0), f"{rest!r}, exit status {self.process.returncode}")


NAMES, *_ = LISTINGS["chain"].splitlines()


def arrivals_of(stream):
    """The whole arrivals behind the setup, as they stand in a stream, and what the end cuts."""
    found, at = [], 9
    while at < len(stream):
        end = at + 3 + int.from_bytes(stream[at:at + 2], "big")
        if end > len(stream):
            break
        found.append(stream[at:end])
        at = end
    return found, stream[at:]


def test_each_line_comes_before_more_is_sent():
    for name in ["chain", "four_sites", "refusals"]:
        stream, lines = CAMPAIGNS[name], LISTINGS[name].splitlines()[1:]
        with Live() as live:
            live.send(stream[:9])
            live.expect_lines([NAMES])
            whole, cut = arrivals_of(stream)
            for number, data in enumerate(whole):
                live.send(data)
                live.expect_lines(line for line in lines if line.startswith(f"{number} "))
            live.send(cut)
            live.expect_end(line for line in lines if line.startswith(f"{len(whole)} "))


def test_a_refused_setup_is_told_at_once():
    with Live() as live:
        live.send(setup(5, [0] * 8))
        live.expect_lines([NAMES, "- - - - - - 1"])
        live.expect_end()


def test_a_line_comes_with_the_last_byte_of_its_arrival():
    with Live() as live:
        live.send(FOUR_SITES)
        live.expect_lines([NAMES])
        for number, data in enumerate([REFUSED, arrival(bytes(4)), arrival(FIRST, verdict=0), arrival(bytes(MAX_BLOCK_BYTES))]):
            for byte in data[:-1]:
                live.send(bytes([byte]))
            live.expect_silent()
            live.send(data[-1:])
            live.expect_lines([refused(number, 5 if number == 2 else 3)])
        live.expect_end()


def in_parts(stream, size):
    """Runs the program on a pipe that gives it parts of so many bytes, each only once it has read what came before."""
    reading, writing = os.pipe()
    with subprocess.Popen([LISTING], stdin=reading, stdout=subprocess.PIPE) as process:
        os.close(reading)
        for at in range(0, len(stream), size):
            os.write(writing, stream[at:at + size])
            wait_until_read(writing)
        os.close(writing)
        wrote, _ = process.communicate(timeout=LONGEST_RUN)
    expect(process.returncode == 0, f"exit status {process.returncode}")
    return wrote.decode("ascii")


def wait_until_read(pipe):
    """Waits until nothing is left in a pipe."""
    limit = time.monotonic() + LONGEST_RUN
    while any(fcntl.ioctl(pipe, termios.FIONREAD, bytes(4))):
        expect(time.monotonic() < limit, "the input is not read")
        os.sched_yield()


def test_parts_of_every_size_at_the_buffers_border():
    references = [bytes([i] * REFERENCE_BYTES) for i in range(MAX_REFERENCES)]
    longest = arrival(block(1, 0, references, [(i, 1) for i in range(MAX_REQUESTS)]))
    stream = CAMPAIGNS["four_sites"] + 6 * longest + arrival(bytes(9000)) + 700 * REFUSED + 5 * longest + REFUSED + longest[:-1]
    text = listing(stream)
    expect(len(text) > 2 * 4096, f"a listing of {len(text)} bytes")
    for size in [1, 2, 3, MAX_BLOCK_BYTES, MAX_BLOCK_BYTES + 1, MAX_BLOCK_BYTES + 2, 4095, 4096, 4097]:
        try:
            expect_same_lines(in_parts(stream, size), text)
        except AssertionError as error:
            raise AssertionError(f"parts of {size} bytes: {error}") from None


def calls_of(stream):
    """How many calls of the system the program makes on a file: those that read, and those that write."""
    with tempfile.TemporaryFile() as file:
        file.write(stream)
        file.seek(0)
        with subprocess.Popen([LISTING], stdin=file, stdout=subprocess.DEVNULL) as process:
            os.waitid(os.P_PID, process.pid, os.WEXITED | os.WNOWAIT)
            counts = Path(f"/proc/{process.pid}/io").read_text(encoding="ascii")
    return [int(re.search(rf"^{name}: (\d+)$", counts, re.MULTILINE)[1]) for name in ("syscr", "syscw")]


def test_a_long_file_takes_few_calls():
    # A read asks for what the buffer has room for: all but a part that is shorter than what is wanted, which is at most
    # a verdict and the longest block.
    stream, _ = every_kind(1000)
    reads, writes = (long - short for long, short in zip(calls_of(stream), calls_of(b"")))
    most = len(stream) // (4096 - MAX_BLOCK_BYTES) + 1
    expect(reads <= most, f"{reads} reads of {len(stream)} bytes")
    expect(writes <= 2 * most, f"{writes} writes for {reads} reads")


# ---- Memory

def every_kind(times):
    """Arrivals of every kind on a table that gets full, over and over, and their lines."""
    kinds = [(arrival(bytes(4)), 3), (arrival(bytes(2 * MAX_BLOCK_BYTES)), 3), (arrival(block(4, 0)), 4), (arrival(FIRST, verdict=0), 5),
             (arrival(block(1, 0, requests=[(8, 1)])), 6), (arrival(block(1, 0, requests=[(1, 1), (1, 2)])), 18),
             (arrival(block(1, 0, [bytes(32)] * 2)), 7), (arrival(FIRST), 8), (arrival(block(1, 0, [bytes(32)])), 9),
             (arrival(block(1, 1)), 10), (arrival(block(1, 0)), 11)]
    stream = listing_cases.FULL + times * b"".join(data for data, _ in kinds)
    lines = [refused(64 + at, kinds[at % len(kinds)][1]) for at in range(times * len(kinds))]
    return stream, text_of(lines)


def test_no_memory_error_and_no_dynamic_memory_in_the_examples():
    for name, stream in CAMPAIGNS.items():
        ended = run(["valgrind", LISTING], stream)
        said = ended.stderr.decode()
        expect(ended.returncode == 0 and ended.stdout.decode("ascii") == LISTINGS[name], f"{name}: {said}")
        expect("total heap usage: 0 allocs" in said and "ERROR SUMMARY: 0 errors" in said, f"{name}: {said}")


def test_no_memory_error_in_thousands_of_arrivals():
    stream, text = every_kind(200)
    expect_same_lines(listing(stream, under=VALGRIND), text)


def most_memory(process):
    """The most memory that a running process has had."""
    return re.search(r"^VmPeak:.*$", Path(f"/proc/{process.pid}/status").read_text(), re.MULTILINE)[0]


def test_memory_does_not_grow():
    stream, _ = every_kind(3000)
    with subprocess.Popen([LISTING], stdin=subprocess.PIPE, stdout=subprocess.DEVNULL, bufsize=0) as process:
        # A pipe holds less than this, so the table is full and every kind was met.
        process.stdin.write(stream[:200_000])
        before = most_memory(process)
        process.stdin.write(stream[200_000:])
        after = most_memory(process)
        process.stdin.close()
        expect(process.wait(LONGEST_RUN) == 0, f"exit status {process.returncode}")
    expect(before == after, f"{before} at first, {after} at last")
