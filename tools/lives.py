#!/usr/bin/env python3
"""Long random lives of a survey with their expected answers, for testing `gauge`.

  lives.py SEED LINES NAME     writes NAME.lives and NAME.expected, with the options
           --plan KIND, --map KIND   of these kinds, in place of drawn ones
           --struck                  the same life with what was refused or given up struck out
           --long                    with a line of 65,534 bytes and one of 65,537
  lives.py --answer FILE       prints the expected answers of any life
  lives.py --samples DIRECTORY writes the sample lives, as samples/lives has them
  lives.py --selftest          makes the samples anew and compares them, and reads each life
"""

import argparse
from pathlib import Path
from typing import NamedTuple

from checking import run_selftest
from life_reader import has_struck_answers, lines_of, live
from meaning import MAP_KINDS, PLAN_KINDS
from random_lives import LifeMaker

SAMPLES = Path(__file__).resolve().parent.parent / "samples" / "lives"


class Sample(NamedTuple):
    """How a life is made."""

    name: str
    seed: int
    lines: int
    plan: str | None
    map: str | None
    is_long: bool = False

    def make(self):
        """The life; its struck life has its answers."""
        life = LifeMaker(self.seed, self.plan, self.map).make(self.lines, self.is_long)
        if not has_struck_answers(life):
            raise SystemExit(f"{self.name}: the struck life has other answers")
        return life


SAMPLE_LIVES = (
    Sample("1-hammersley-boxes", 101, 3000, "hammersley", "boxes"),
    Sample("2-sobol-steps", 102, 3000, "sobol", "steps"),
    Sample("3-points-cells", 48, 900, "points", "cells"),
    Sample("4-points-boxes", 104, 1200, "points", "boxes"),
    Sample("5-sobol-cells-long", 105, 1200, "sobol", "cells", True),
    Sample("6-points-steps", 106, 400, "points", "steps"),
)


def text_of(lines):
    """Lines as a text."""
    return "".join(line + "\n" for line in lines)


def whole_files(name, life):
    """The two files of a life, by their names."""
    return {f"{name}.lives": text_of(life.lines), f"{name}.expected": text_of(life.answers)}


def struck_files(name, life):
    """The two files of its struck life."""
    lines, answers = zip(*life.struck())
    return {f"{name}.lives": text_of(lines), f"{name}.expected": text_of(answers)}


def sample_files():
    """The names and texts of the sample files."""
    files = {}
    for sample in SAMPLE_LIVES:
        life = sample.make()
        files |= whole_files(sample.name, life) | struck_files(f"{sample.name}-struck", life)
    return files


def selftest(checks):
    """The samples are made anew to the byte, and each stored life has its answers."""
    made = sample_files()
    checks.same(sorted(path.name for path in SAMPLES.iterdir()), sorted(made), "the names in samples/lives")
    for name, text in made.items():
        checks.holds((SAMPLES / name).read_bytes() == text.encode(), f"{name} is made anew as it is")
        if name.endswith(".lives"):
            wanted = (SAMPLES / name).with_suffix(".expected").read_text()
            checks.same(text_of(live(lines_of(text.encode())).answers), wanted, name)


def write(directory, files):
    """Writes files into a directory."""
    for name, text in files.items():
        (directory / name).write_text(text)


def main():
    """Writes a life or the samples, or prints answers."""
    parser = argparse.ArgumentParser(
        description=__doc__, formatter_class=argparse.RawDescriptionHelpFormatter
    )
    parser.add_argument("seed", metavar="SEED", type=int, nargs="?")
    parser.add_argument("lines", metavar="LINES", type=int, nargs="?")
    parser.add_argument("name", metavar="NAME", type=Path, nargs="?")
    parser.add_argument("--plan", choices=PLAN_KINDS)
    parser.add_argument("--map", choices=MAP_KINDS)
    parser.add_argument("--struck", action="store_true")
    parser.add_argument("--long", action="store_true")
    parser.add_argument("--answer", metavar="FILE", type=Path)
    parser.add_argument("--samples", metavar="DIRECTORY", type=Path)
    parser.add_argument("--selftest", action="store_true")
    asked = parser.parse_args()
    if asked.selftest:
        run_selftest(selftest)
    elif asked.answer:
        print(text_of(live(lines_of(asked.answer.read_bytes())).answers), end="")
    elif asked.samples:
        write(asked.samples, sample_files())
    elif asked.name:
        sample = Sample(asked.name.name, asked.seed, asked.lines, asked.plan, asked.map, asked.long)
        files = struck_files if asked.struck else whole_files
        write(asked.name.parent, files(sample.name, sample.make()))
    else:
        parser.error("SEED LINES NAME are needed")


if __name__ == "__main__":
    main()
