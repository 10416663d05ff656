#!/usr/bin/env python3
"""Runs the tests that are run and not proved, after `rt ci` has built the programs.

usage: python3 tests/run.py [WORD..]    all tests, or those whose names hold one of these words

A line for each test, then 'N passed, M failed'; the exit status is 1 where any failed or none was run.
"""
import pathlib
import sys

sys.path.insert(0, str(pathlib.Path(__file__).resolve().parent))
sys.dont_write_bytecode = True

import accuracy_page  # noqa: E402
import c_side  # noqa: E402
import comparing  # noqa: E402
import documents  # noqa: E402
import pages  # noqa: E402
import programs  # noqa: E402
import repository  # noqa: E402
import rust_side  # noqa: E402
import twins  # noqa: E402

PARTS = [programs, repository, documents, pages, c_side, rust_side, twins, comparing, accuracy_page]


def main():
    words = sys.argv[1:] or [""]
    passed = failed = 0
    for name, test in [test for part in PARTS for test in part.tests()]:
        if not any(word in name for word in words):
            continue
        try:
            why = test()
        except Exception as error:  # a test that cannot be run has failed
            why = f"{type(error).__name__}: {error}"
        why = why and " | ".join(why.split("\n"))
        passed += why is None
        failed += why is not None
        print(f"ok    {name}" if why is None else f"FAIL  {name}: {why}", flush=True)
    print(f"{passed} passed, {failed} failed")
    sys.exit(1 if failed or not passed else 0)


if __name__ == "__main__":
    main()
