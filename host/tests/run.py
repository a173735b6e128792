#!/usr/bin/env python3
"""Runs every function test_* of every file test_*.py beside this one, on the programs that `make test-programs` built.

Writes a line for each test and, as its last line, 'N passed, M failed'; exit status 1 if a test failed. A test fails by
an exception of any kind, and the rest go on.
"""

import importlib
import sys
import time
import traceback
from pathlib import Path

HERE = Path(__file__).resolve().parent
sys.dont_write_bytecode = True
sys.path[:0] = [str(HERE), *(str(HERE.parents[1] / name) for name in ("examples", "tools", "docs", "bench"))]

FAULTS = (Exception, SystemExit)


def failing(error):
    """A test that fails with this error."""
    def test():
        raise error
    return test


def tests_of(name):
    """The tests of a file by name, in their order. A file that can't be loaded or has none is one test that fails."""
    try:
        items = vars(importlib.import_module(name)).items()
        found = [(f"{name}.{key}", item) for key, item in items if key.startswith("test_") and callable(item)]
    except FAULTS as error:
        return [(name, failing(error))]
    return found or [(name, failing(LookupError("no test in this file")))]


def passes(name, test):
    """Runs a test and writes its line."""
    began = time.monotonic()
    try:
        test()
    except FAULTS:
        print(f"FAILED {name}\n{traceback.format_exc()}", flush=True)
        return False
    print(f"ok     {name} ({time.monotonic() - began:.1f} s)", flush=True)
    return True


def main():
    files = sorted(HERE.glob("test_*.py"))
    results = [passes(name, test) for path in files for name, test in tests_of(path.stem)]
    failed = results.count(False)
    print(f"{len(results) - failed} passed, {failed} failed")
    return 1 if failed or not results else 0


if __name__ == "__main__":
    sys.exit(main())
