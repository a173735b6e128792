"""Runs the programs under test, and compares what they write."""

import os
import subprocess
from pathlib import Path

ROOT = Path(__file__).resolve().parents[2]
BUILT = ROOT / "target" / "host"
DOME = str(BUILT / "dome")
LISTING = str(ROOT / "target" / "bin" / "listing")
HARNESS = str(ROOT / "target" / "harness" / "release" / "harness")
VALGRIND_ERROR = 99
VALGRIND = ["valgrind", "--quiet", f"--error-exitcode={VALGRIND_ERROR}", "--leak-check=full"]
LONGEST_RUN = 120  # seconds, so that a program that hangs is a failed test


def expect(holds, message):
    """Unlike assert, stays when Python optimises."""
    if not holds:
        raise AssertionError(message)


def expect_same_lines(got, wanted):
    """The first different line is what a reader wants to see."""
    got_lines, wanted_lines = got.splitlines(), wanted.splitlines()
    for at, (one, other) in enumerate(zip(got_lines, wanted_lines)):
        expect(one == other, f"line {at}:\n  got    {one}\n  wanted {other}")
    expect(len(got_lines) == len(wanted_lines), f"{len(got_lines)} lines, wanted {len(wanted_lines)}")
    expect(got == wanted, "the lines end differently")


def run(command, data=b"", **streams):
    """Runs a command on standard input `data`, or on the streams given."""
    given = streams if "stdin" in streams else {"input": data, **streams}
    streams = {"stdout": subprocess.PIPE, "stderr": subprocess.PIPE, **given}
    return subprocess.run(command, timeout=LONGEST_RUN, check=False, **streams)


def output_of(command, data=b""):
    """What a command writes that must end well and say nothing on standard error."""
    ended = run(command, data)
    complaint = ended.stderr.decode(errors="replace")
    expect(ended.returncode == 0 and not complaint, f"{command[0]}: exit status {ended.returncode}\n{complaint}")
    return ended.stdout.decode("ascii")


def make(*words, unset=()):
    """Runs make in the repository. Flags of a make around this one aren't meant for it, nor are these variables."""
    environment = {name: value for name, value in os.environ.items() if name not in ("MAKEFLAGS", "MFLAGS", *unset)}
    return run(["make", "-C", str(ROOT), "--no-print-directory", *words], env=environment)


def program(name):
    """The path of a test program or an example."""
    return str(BUILT / name)


def expect_all_ok(name):
    """Runs a test program that writes a line for each of its checks."""
    ended = run([program(name)])
    lines = ended.stdout.decode("ascii").splitlines()
    failed = [line for line in lines if not line.endswith(": ok")]
    expect(lines and not failed and ended.returncode == 0,
           f"exit status {ended.returncode}, {len(lines)} checks, failed: {failed}")


def dome(stream, under=()):
    """The control program's output for a stream of arrivals; `under` stands before its name."""
    return output_of([*under, DOME], stream)


def listing(stream, under=()):
    """The listing of a campaign; `under` stands before the program's name."""
    return output_of([*under, LISTING], stream)


def digests(messages, under=()):
    """The library's digest of each message, in hexadecimal digits."""
    frames = b"".join(len(message).to_bytes(4, "big") + message for message in messages)
    return output_of([*under, program("digests")], frames).splitlines()
