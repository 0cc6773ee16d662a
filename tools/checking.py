#!/usr/bin/env python3
"""What the self-tests of the tools share: checks that are counted, so that a self-test with none fails."""

import argparse


class Checks:
    """Compares what is found with what is wanted, and counts how often."""

    def __init__(self):
        self.count = 0

    def same(self, found, wanted, of=""):
        """`found` is `wanted`; `of` says what was looked at."""
        self.count += 1
        if found != wanted:
            raise AssertionError(f"{of}: {found!r}, not {wanted!r}" if of else f"{found!r}, not {wanted!r}")

    def holds(self, fact, of):
        """The fact is true."""
        self.same(bool(fact), True, of)

    def raises(self, error, call, *arguments):
        """The call ends with an error of this type; the result is that error."""
        self.count += 1
        try:
            given = call(*arguments)
        except error as raised:
            return raised
        raise AssertionError(f"{call.__name__}{arguments!r}: {given!r}, and no {error.__name__}")


def run_selftest(selftest):
    """Runs a self-test, and says how many checks it made."""
    checks = Checks()
    selftest(checks)
    if checks.count == 0:
        raise SystemExit("selftest: nothing was checked")
    print(f"selftest: {checks.count} checks hold")


def only_selftest(description, selftest):
    """The command line of a module that other tools import, which by itself has a self-test only."""
    parser = argparse.ArgumentParser(
        description=description, formatter_class=argparse.RawDescriptionHelpFormatter
    )
    parser.add_argument("--selftest", action="store_true", required=True)
    parser.parse_args()
    run_selftest(selftest)


def selftest(checks):
    """Each check lets the right pass and stops the wrong."""
    checks.same(1 + 1, 2)
    checks.holds(2 > 1, "an order")
    found = Checks()
    wrong = checks.raises(AssertionError, found.same, 1, 2, "a number")
    checks.same(str(wrong), "a number: 1, not 2")
    checks.raises(AssertionError, found.holds, False, "a fact")
    checks.raises(AssertionError, found.raises, ValueError, int, "1")
    checks.same(str(found.raises(ValueError, int, "x"))[:7], "invalid")
    checks.same(found.count, 4)
    checks.raises(SystemExit, run_selftest, lambda empty: None)


if __name__ == "__main__":
    only_selftest(__doc__, selftest)
