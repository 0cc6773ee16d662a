#!/usr/bin/env python3
"""Prints the tables of docs/GATE.md, from the log of a whole run of .ci/run.

  .ci/run >gate.log 2>&1; gate_table.py gate.log
  gate_table.py --selftest

In the log a line of `rt ci` ends with the seconds since `rt ci` began, as `rt: nets proved [21 s]`, and each other part
of the gate with what it took, as `gate: .ci/slips took 48 s`. Of a crate the first table has when it was proved, how
many must-fail edits it has, and how long these took, from when the first was tried until those of another crate were
begun or all was done. What an earlier run had done already is called kept.
"""

import argparse
import re
import sys
from pathlib import Path

from checking import run_selftest

TIMED = re.compile(r"rt: (.*) \[(\d+) s\]")
PART = re.compile(r"gate: (\S.*\S) took (\d+) s")
PROVED = re.compile(r"(\w+) proved")
TESTS = re.compile(r"(\w+): its tests are proved")
KEPT = re.compile(r"(\w+) is kept: .*")
TRYING = re.compile(r"(\w+): trying its must-fail edits \(\d+\)")
TRIED = re.compile(r"must-fail (\w+)/\S+: .*")
OLD = re.compile(r"\w+: \d+ of its \d+ must-fail edits were tried by an earlier run.*")
FAILED = re.compile(r"FAILED: .*|.* NOT PROVED.*|.*: NOT (REFUSED|TRIED).*")
OK = re.compile(r"ok;.*")


class BadLog(Exception):
    """A log that is not of a whole run that passed."""


class Log:
    """What a log says."""

    def __init__(self, text):
        self.parts = []
        self.proved = {}
        self.tests = {}
        self.begun = {}
        self.edits = {}
        self.all_done = None
        self.has_ended = False
        for line in text.splitlines():
            timed, part = TIMED.fullmatch(line), PART.fullmatch(line)
            if timed:
                self._hear(timed[1], int(timed[2]))
            elif part:
                self.parts.append((part[1], int(part[2])))
            elif line.startswith("rt: "):
                raise BadLog(f"no seconds at the end of: {line}")
        if not self.has_ended:
            raise BadLog("no line rt: ok")

    def _hear(self, said, at):
        if FAILED.fullmatch(said):
            raise BadLog(said)
        if found := PROVED.fullmatch(said):
            self.proved[found[1]] = clock(at)
        elif found := KEPT.fullmatch(said):
            self.proved[found[1]] = "kept"
        elif found := TESTS.fullmatch(said):
            self.tests[found[1]] = at
        elif found := TRYING.fullmatch(said):
            self.begun[found[1]] = at
        elif found := TRIED.fullmatch(said):
            self.edits[found[1]] = self.edits.get(found[1], 0) + 1
            self._note_done(at)
        elif OLD.fullmatch(said):
            self._note_done(at)
        elif OK.fullmatch(said):
            self.has_ended = True
            self._note_done(at)

    def _note_done(self, at):
        # what edits came to is told when all proofs and edits are done
        if self.all_done is None:
            self.all_done = at

    def took(self, crate):
        """How long a crate's edits took."""
        if crate not in self.begun:
            return "kept" if crate in self.edits else ""
        order = [*self.begun, None]
        after = order[order.index(crate) + 1]
        return f"{self.begun.get(after, self.all_done) - self.begun[crate]} s"

    def rows(self):
        """The rows of the first table."""
        for crate, at in self.proved.items():
            tests = f"; its tests {clock(self.tests[crate])}" if crate in self.tests else ""
            yield f"`{crate}`", at + tests, str(self.edits.get(crate, 0)), self.took(crate)


def clock(seconds):
    """Minutes and seconds."""
    return f"{seconds // 60}:{seconds % 60:02}"


def duration(seconds):
    """A time in words."""
    return f"{seconds // 60} min {seconds % 60} s" if seconds >= 60 else f"{seconds} s"


def table_of(head, rows):
    """A Markdown table."""
    lines = ["| " + " | ".join(head) + " |", "|---" * len(head) + "|"]
    lines += ["|" + "|".join(f" {cell} " if cell else " " for cell in row) + "|" for row in rows]
    return "\n".join(lines) + "\n"


def tables(text):
    """The tables of a log."""
    log = Log(text)
    rows = [(f"`{name}`", duration(seconds)) for name, seconds in log.parts]
    rows.append(("in all", duration(sum(seconds for _, seconds in log.parts))))
    crates = table_of(("Crate", "Proved at", "Edits", "They took"), log.rows())
    return crates + "\n" + table_of(("Part of the gate", "Took"), rows)


# ---- the self-test --------------------------------------------------------------------------------------------

LOG = """slips: each is stopped by the compiler
gate: .ci/slips took 48 s
== nets
fn nets::level::Level::get: proved
logic=proved functions=14 sum=dac8208d650f15bf
rt: nets proved [21 s]
rt: nets: trying its must-fail edits (3) [21 s]
rt: little_endian is kept: an earlier run on this machine proved the same files over the same libraries [22 s]
== radius
rt: radius proved [65 s]
rt: audit proved [92 s]
rt: audit: trying its must-fail edits (2) [97 s]
== kit_tests
rt: kit_tests proved [415 s]
== kit_tests: its tests
rt: kit_tests: its tests are proved [752 s]
rt: must-fail nets/digits.edit: refused, as it must be: src/level.rt:9:1: error: it is not proved [800 s]
rt: must-fail nets/index.edit: refused, as it must be [800 s]
rt: must-fail nets/text.edit: BAD EDIT: no line of it is read [800 s]
rt: little_endian: 1 of its 1 must-fail edits were tried by an earlier run on this machine [800 s]
rt: must-fail little_endian/high_byte.edit: refused, as it must be [800 s]
rt: must-fail audit/longest.edit: refused, as it must be [800 s]
rt: must-fail audit/empty.edit: refused, as it must be [800 s]
rt: netaudit: the program wrote what it must [801 s]
rt: ok; handles allowed: none; must-fail edits: 5 refused, 1 bad; the others are kept [830 s]
10 passed, 0 failed
gate: rt ci took 831 s
gate: .ci/jobs took 9 s
10 passed, 0 failed
"""
TABLES = """| Crate | Proved at | Edits | They took |
|---|---|---|---|
| `nets` | 0:21 | 3 | 76 s |
| `little_endian` | kept | 1 | kept |
| `radius` | 1:05 | 0 | |
| `audit` | 1:32 | 2 | 703 s |
| `kit_tests` | 6:55; its tests 12:32 | 0 | |

| Part of the gate | Took |
|---|---|
| `.ci/slips` | 48 s |
| `rt ci` | 13 min 51 s |
| `.ci/jobs` | 9 s |
| in all | 14 min 48 s |
"""


def selftest(checks):
    """The tables of a short log, and logs that are refused."""
    checks.same(tables(LOG), TABLES)
    for old, new in (
        ("rt: ok;", "rt: ko;"),
        (" [92 s]", ""),
        ("audit proved", "audit NOT PROVED"),
        ("index.edit: refused", "index.edit: NOT REFUSED"),
        ("index.edit: refused", "index.edit: NOT TRIED"),
        ("rt: ok;", "rt: FAILED: nets [830 s]\nrt: ok;"),
    ):
        checks.holds(old in LOG, f"{old} is in the log")
        checks.raises(BadLog, tables, LOG.replace(old, new, 1))
    checks.raises(BadLog, tables, "")


def main():
    """Prints the tables."""
    parser = argparse.ArgumentParser(
        description=__doc__, formatter_class=argparse.RawDescriptionHelpFormatter
    )
    parser.add_argument("log", metavar="LOG", type=Path, nargs="?")
    parser.add_argument("--selftest", action="store_true")
    asked = parser.parse_args()
    if asked.selftest:
        run_selftest(selftest)
    elif asked.log is None:
        parser.error("LOG is needed")
    else:
        try:
            print(tables(asked.log.read_text(encoding="utf-8", errors="backslashreplace")), end="")
        except BadLog as error:
            sys.exit(f"gate_table: {error}")


if __name__ == "__main__":
    main()
