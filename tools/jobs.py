#!/usr/bin/env python3
"""Jobs for testing `netreport`, each with its text by docs/JOBS.md.

  jobs.py --answer FILE        prints the text of any job
  jobs.py --samples DIRECTORY  writes edges.cases, good.cases and damaged.cases, as samples/jobs has them
  jobs.py --selftest           makes the samples anew and compares them, and reads each case and each sample job

A case is a line: the job's bytes in hexadecimal, a colon, and the text with \\n for each line feed.
"""

import argparse
from pathlib import Path

from checking import run_selftest
from job_edges import EDGES
from job_reader import report
from random_jobs import random_cases

SAMPLES = Path(__file__).resolve().parent.parent / "samples" / "jobs"


def case_line(file, text):
    """A case as a line."""
    return file.hex(" ").upper() + ":" + text.replace("\n", "\\n") + "\n"


def stored_cases(path):
    """The jobs and texts of a file of cases."""
    for line in path.read_text().splitlines():
        file, text = line.split(":")
        yield bytes.fromhex(file), text.replace("\\n", "\n")


def sample_files():
    """The names and texts of the sample files."""
    good, damaged = random_cases()
    groups = {"edges": EDGES, "good": good.items(), "damaged": damaged.items()}
    return {f"{name}.cases": "".join(case_line(*case) for case in cases) for name, cases in groups.items()}


def selftest(checks):
    """The samples are made anew to the byte, and each stored case has its text."""
    checks.same(case_line(b"\x0c\0", "a\nb\n"), "0C 00:a\\nb\\n\n")
    made = sample_files()
    checks.same(sorted(path.name for path in SAMPLES.iterdir()), sorted(made), "the names in samples/jobs")
    for name, text in made.items():
        checks.holds((SAMPLES / name).read_bytes() == text.encode(), f"{name} is made anew as it is")
        for file, wanted in stored_cases(SAMPLES / name):
            checks.same(report(file), wanted, f"{name}, {file[:99].hex(' ')}")
    for path in sorted(SAMPLES.parent.glob("*.job")):
        checks.same(report(path.read_bytes()), path.with_suffix(".expected").read_text(), path.name)


def main():
    """Prints a text, or writes the samples."""
    parser = argparse.ArgumentParser(
        description=__doc__, formatter_class=argparse.RawDescriptionHelpFormatter
    )
    what = parser.add_mutually_exclusive_group(required=True)
    what.add_argument("--answer", metavar="FILE", type=Path)
    what.add_argument("--samples", metavar="DIRECTORY", type=Path)
    what.add_argument("--selftest", action="store_true")
    asked = parser.parse_args()
    if asked.selftest:
        run_selftest(selftest)
    elif asked.answer:
        print(report(asked.answer.read_bytes()), end="")
    else:
        for name, text in sample_files().items():
            (asked.samples / name).write_text(text)


if __name__ == "__main__":
    main()
