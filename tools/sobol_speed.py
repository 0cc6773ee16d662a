#!/usr/bin/env python3
"""What one place of a Sobol plan takes, against C for the same work and GSL's generator (docs/SPEED.md).

  sobol_speed.py                    the program that `rt run` left in crates/sobol_speed/out
  sobol_speed.py --programs DIR     that in a folder instead
  sobol_speed.py --before DIR       also an older one
  sobol_speed.py --times N          also nanoseconds, the best of N runs
  sobol_speed.py --sum LEVEL BITS COUNT   prints what the programs have to print
  sobol_speed.py --selftest         tries the C programs on a few levels

It needs valgrind, and gcc or clang or both. GSL's column is left out where there is no gsl-config. The self-test
tries no C programs where there is no compiler.
"""

import argparse
import os
import resource
import shutil
import subprocess
import sys
import tempfile
from functools import cache
from itertools import product
from pathlib import Path
from statistics import median

from checking import run_selftest
from meaning import TOP_LEVEL, formula_points
from speed import FLAGS, HERE, TOP, compilers, instructions, table_of

NAME = "sobol_speed"
SOURCE = HERE / "speed" / "sobol.c"
GSL = "GSL, in order"
WAYS = {"plain C": [], "C, ending early": ["-DENDS_EARLY"], "C, a table": ["-DTABLE"], GSL: ["-DGSL"]}
# the levels, and how many bits the indexes have
DRAWN = [(level, level) for level in (4, 8, 12)] + [(level, 2) for level in (4, 8, 12)]
COUNTED = 2**16
TIMED = 2**20


# ---- what is printed ------------------------------------------------------------------------------------------


def with_place(total, place):
    """The sum with one place more."""
    x, y = place
    return (total * 69069 + x * 65536 + y) % 2**32


@cache
def sum_of_places(level, bits, count):
    """The sum over the places of a level at so many indexes, each of so many bits."""
    points = formula_points("sobol", level)
    state = total = 0
    for _ in range(count):
        state = (state * 1664525 + 1013904223) % 2**32
        total = with_place(total, points[state >> (32 - bits)])
    return total


@cache
def sum_in_order(count):
    """The sum over so many points of GSL's generator: those of level 12 in the order of the Gray code, without the
    first, again and again."""
    points = formula_points("sobol", TOP_LEVEL)
    total = 0
    for n in range(count):
        index = n % (len(points) - 1) + 1
        total = with_place(total, points[index ^ index >> 1])
    return total


def text_of(column, drawn, count):
    """What a program has to print."""
    return f"{sum_in_order(count) if column == GSL else sum_of_places(*drawn, count)}\n"


# ---- the programs ---------------------------------------------------------------------------------------------


def ways():
    """What the compilers are told for each way that can be had here."""
    found = dict(WAYS)
    if shutil.which("gsl-config"):
        told = subprocess.run(["gsl-config", "--cflags", "--libs"], capture_output=True, text=True, check=True)
        found[GSL] = found[GSL] + told.stdout.split()
    else:
        del found[GSL]
    return found


def compiled(directory):
    """The paths of the builds of each way."""
    builds = {column: [] for column in ways()}
    for compiler, (column, words) in product(compilers(), ways().items()):
        path = directory / "".join((compiler, *WAYS[column]))
        subprocess.run([compiler, *FLAGS, "-o", path, SOURCE, *words], check=True)
        builds[column].append(path)
    return builds


def found_program(directory):
    """The path of the program of the kit, in a folder or where `rt run` left it."""
    path = (directory or TOP / "crates" / NAME / "out") / NAME
    if not os.access(path, os.X_OK):
        sys.exit(f"sobol_speed.py: no program {path}")
    return [path]


def command(build, drawn, count):
    """A build with its words."""
    return [build, *map(str, (*drawn, count))]


def seconds(words):
    """How long a program has the processor, and what it prints."""
    start = resource.getrusage(resource.RUSAGE_CHILDREN)
    ran = subprocess.run(words, capture_output=True, text=True, check=True)
    end = resource.getrusage(resource.RUSAGE_CHILDREN)
    return end.ru_utime - start.ru_utime + end.ru_stime - start.ru_stime, ran.stdout


def printed(build, told, text):
    """A program has printed what it has to."""
    if told != text:
        sys.exit(f"sobol_speed.py: {build}:\n{told}and not\n{text}")


# ---- the tables -----------------------------------------------------------------------------------------------


def name_of(drawn):
    """The name of a row."""
    level, bits = drawn
    return f"level {level}, " + ("any index" if bits == level else f"index below {2**bits}")


def count_table(columns):
    """The instructions of a place, of the best build of each column."""

    def per_place(column, build, drawn):
        count, told = instructions(command(build, drawn, COUNTED), os.devnull)
        printed(build, told, text_of(column, drawn, COUNTED))
        return (count - instructions(command(build, drawn, 0), os.devnull)[0]) / COUNTED

    def row(drawn):
        best = [min(per_place(column, build, drawn) for build in builds) for column, builds in columns.items()]
        return [name_of(drawn), *(f"{count:.1f}" for count in best)]

    return table_of(["instructions of a place", *columns], [row(drawn) for drawn in DRAWN])


def time_table(columns, times):
    """The nanoseconds of a place, and how far the runs are from the best. In each round every program runs once on
    every row, so that what else goes on comes to all."""
    programs = [(column, build) for column, builds in columns.items() for build in builds]
    runs = {(drawn, *program): [] for drawn in DRAWN for program in programs}
    for _ in range(times):
        for (drawn, column, build), pairs in runs.items():
            many, told = seconds(command(build, drawn, TIMED))
            printed(build, told, text_of(column, drawn, TIMED))
            pairs.append((many, seconds(command(build, drawn, 0))[0]))
    spread = []
    taken = {(drawn, column): [] for drawn in DRAWN for column in columns}
    for (drawn, column, _), pairs in runs.items():
        many, none = zip(*pairs)
        taken[drawn, column].append(min(many) - min(none))
        spread += [each / min(many) - 1 for each in many]
    rows = [
        [name_of(drawn), *(f"{1e9 * min(taken[drawn, column]) / TIMED:.1f}" for column in columns)] for drawn in DRAWN
    ]
    table = table_of(["nanoseconds of a place", *columns], rows)
    return f"{table}\nHalf of the runs took at most {100 * median(spread):.0f}% more than the best of their program.\n"


def measure(program, before, times):
    """Counts, and prints the tables."""
    with tempfile.TemporaryDirectory() as room:
        columns = {"kit": program, **compiled(Path(room))}
        if before:
            columns = {"before": before, **columns}
        print(count_table(columns), end="")
        if times:
            print("\n" + time_table(columns, times), end="")


# ---- the self-test --------------------------------------------------------------------------------------------


def selftest(checks):
    """A sum worked out by hand, that of the crate's own run, and the C programs on a few levels."""
    # the states are 0x3C6EF35F, 0x47502932 and 0xD1CCF6E9, which draw the indexes 0, 1 and 3 of level 2
    checks.same([sum_of_places(2, 2, count) for count in range(4)], [0, 0, 0x80008000, 0xC6E6C000])
    checks.same((sum_of_places(0, 0, 9), sum_in_order(0), sum_in_order(1)), (0, 0, 0x80008000))
    crate = TOP / "crates" / NAME
    checks.same(f"{sum_of_places(*map(int, (crate / 'args').read_text().split()))}\n", (crate / "stdout").read_text())
    if not compilers():
        print("selftest: no compiler is here, so the C programs are not tried")
        return
    with tempfile.TemporaryDirectory() as room:
        for column, builds in compiled(Path(room)).items():
            for build, drawn, count in product(builds, [(0, 0), (1, 0), *DRAWN], (0, 1, 5000)):
                words = command(build, drawn, count)
                checks.same(seconds(words)[1], text_of(column, drawn, count), f"{column}, {words[1:]}")


def main():
    """Prints the tables."""
    parser = argparse.ArgumentParser(
        description=__doc__, formatter_class=argparse.RawDescriptionHelpFormatter
    )
    for name in ("--programs", "--before"):
        parser.add_argument(name, metavar="DIR", type=Path)
    parser.add_argument("--times", metavar="N", type=int, default=0)
    parser.add_argument("--sum", metavar=("LEVEL", "BITS", "COUNT"), type=int, nargs=3)
    parser.add_argument("--selftest", action="store_true")
    asked = parser.parse_args()
    if asked.selftest:
        run_selftest(selftest)
        return
    if asked.sum:
        print(sum_of_places(*asked.sum))
        return
    if not shutil.which("valgrind"):
        sys.exit("sobol_speed.py: valgrind is not here")
    if not compilers():
        sys.exit("sobol_speed.py: neither gcc nor clang is here")
    before = found_program(asked.before) if asked.before else None
    measure(found_program(asked.programs), before, asked.times)


if __name__ == "__main__":
    main()
