"""Runs the tests, and says how many rows they looked at, and which were skipped, and why:

    python3 -m tests [--but NAME ..]

It is run in library/. The tests of a file that is named, such as test_wheel, are left out."""

from __future__ import annotations

import argparse
import pathlib
import sys
import unittest
from typing import Any


class Counted(unittest.TextTestResult):
    """A result that counts the rows, which are subtests."""

    rows = 0

    def addSubTest(self, test: unittest.TestCase, subtest: unittest.TestCase, err: Any) -> None:
        super().addSubTest(test, subtest, err)
        Counted.rows += 1


def main() -> int:
    parser = argparse.ArgumentParser(prog="python3 -m tests")
    parser.add_argument("--but", nargs="+", default=[], metavar="NAME")
    left_out = parser.parse_args().but
    names = sorted(it.stem for it in pathlib.Path(__file__).parent.glob("test_*.py"))
    if unknown := sorted(set(left_out) - set(names)):
        parser.error(f"there are no tests {unknown[0]}")
    suite = unittest.defaultTestLoader.loadTestsFromNames([f"tests.{it}" for it in names if it not in left_out])
    result = unittest.TextTestRunner(resultclass=Counted).run(suite)
    for case, why in result.skipped:
        print(f"skipped: {case}: {why}")
    print(f"{result.testsRun} tests, which looked at {Counted.rows} rows")
    return 0 if result.wasSuccessful() else 1


sys.exit(main())
