#!/usr/bin/env python3
"""How many machine instructions netreport and netaudit take, against C for the same work (docs/SPEED.md).

  speed.py                    the programs that `rt run` left in crates/NAME/out
  speed.py --programs DIR     those in a folder instead
  speed.py --before DIR       also older ones, and how many times quicker the others are
  speed.py --times N          also wall times, the best of N runs
  speed.py --jobs DIR         also writes the jobs and the list into a folder
  speed.py --selftest         tries the C programs on the cases of samples/jobs

It needs valgrind, and gcc or clang or both. The self-test tries no C programs where there is no compiler.
"""

import argparse
import os
import re
import shutil
import subprocess
import sys
import tempfile
import time
from itertools import product
from pathlib import Path
from random import Random
from typing import NamedTuple

from checking import run_selftest
from job_bytes import boxes, cells, job, layers, places, points, steps
from job_reader import read_places, report
from jobs import SAMPLES, stored_cases
from meaning import audit, formula_points, intervals

HERE = Path(__file__).resolve().parent
TOP = HERE.parent
LEVEL = 12
MANY, ONE = "Hammersley, 32 boxes", "Hammersley, 1 box"
SOURCES = {"netreport": HERE / "speed" / "report.c", "netaudit": HERE / "speed" / "audit.c"}
COMPILERS = ("gcc", "clang")
FLAGS = ("-O3", "-march=x86-64-v2", "-std=c11")


class Input(NamedTuple):
    """A program, and the bytes that it reads."""

    program: str
    data: bytes


class InputFile(NamedTuple):
    """A program, the file that it reads, and what it has to print."""

    program: str
    path: Path
    text: str


# ---- the inputs -----------------------------------------------------------------------------------------------


def inputs():
    """The inputs, by their names. They are the same in every run."""
    r = Random(12)

    def signed(top):
        return r.choice((-1, 1)) * r.randint(1, top)

    def side():
        size = r.choice((1, 100, 2000, 20000, 40000))
        start = r.randint(1, 65535 - size)
        return start, start + size

    def axis():
        return [(signed(8), r.randint(1, 65536)) for _ in range(16)]

    listed = formula_points("sobol", LEVEL)
    moved = layers(0x1234, 0xFEDC, r.getrandbits(64), r.getrandbits(64), 1)
    one = boxes((1000, 50000, 2000, 60000, 500))
    many = boxes(*((*side(), *side(), signed(127)) for _ in range(32)))

    def hammersley(coats):
        return Input("netreport", job(bytes((0, LEVEL)), moved, coats))

    return {
        "a list of 4,096 places, 1 box": Input("netreport", job(points(LEVEL, *listed), moved, one)),
        "Sobol, 1 box": Input("netreport", job(bytes((1, LEVEL)), moved, one)),
        MANY: hammersley(many),
        ONE: hammersley(one),
        "Hammersley, 16 and 16 steps": hammersley(steps(axis(), axis())),
        "Hammersley, cells": hammersley(cells([r.randint(-60, 60) for _ in range(64)])),
        "netaudit, 4,096 places": Input("netaudit", places(*listed)),
    }


def list_text(data):
    """What netaudit says of a list that has the length of a level."""
    listed = read_places(data)
    level = len(listed).bit_length() - 1
    net = f"places {len(listed)}\nlevel {level}\nintervals {intervals(level)}\nnet"
    return (audit(listed) or net) + "\n"


def input_files(directory):
    """Writes the inputs into a folder."""
    files = {}
    for n, (name, (program, data)) in enumerate(inputs().items()):
        path = directory / f"{n}-{re.sub('[^0-9a-zA-Z]+', '-', name)}"
        path.write_bytes(data)
        files[name] = InputFile(program, path, (report if program == "netreport" else list_text)(data))
    return files


# ---- the programs ---------------------------------------------------------------------------------------------


def compilers():
    """The compilers that are here."""
    return [compiler for compiler in COMPILERS if shutil.which(compiler)]


def compiled(directory):
    """Of each program the paths of its builds in plain C, and of those with short cuts."""
    plain, short = ({name: [] for name in SOURCES} for _ in range(2))
    ways = product(compilers(), ([], ["-DSHORT_CUTS"]), ([], ["-DBRANCHES"]), SOURCES)
    for compiler, cuts, branches, name in ways:
        if branches and name == "netaudit":
            continue
        path = directory / "-".join((name, compiler, *cuts, *branches))
        subprocess.run([compiler, *FLAGS, *cuts, *branches, "-o", path, SOURCES[name]], check=True)
        (short if cuts else plain)[name].append(path)
    return plain, short


def found_programs(directory):
    """The path of each program of the kit, in a folder or where `rt run` left it."""
    builds = {name: [(directory or TOP / "crates" / name / "out") / name] for name in SOURCES}
    for [path] in builds.values():
        if not os.access(path, os.X_OK):
            sys.exit(f"speed.py: no program {path}")
    return builds


def run(command, path):
    """Runs a program on an input, which may be one that it refuses."""
    with open(path, "rb") as stdin:
        return subprocess.run(command, stdin=stdin, capture_output=True, env={"PATH": os.environ["PATH"]}, check=False)


def instructions(command, path):
    """How many instructions a program takes on an input, and what it prints."""
    counter = ["valgrind", "--tool=cachegrind", "--cache-sim=no", "--cachegrind-out-file=/dev/null"]
    ran = run([*counter, *command], path)
    refs = re.search(rb"I +refs: +([\d,]+)", ran.stderr)
    if not refs:
        sys.exit(f"speed.py: valgrind counts nothing of {command[0]}:\n{ran.stderr.decode(errors='replace')}")
    count = refs[1]
    return int(count.replace(b",", b"")), ran.stdout.decode()


def seconds(program, path):
    """How long a program takes on an input."""
    start = time.perf_counter()
    run([program], path)
    return time.perf_counter() - start


class Measured:
    """The instructions of a program's builds on each input, without those of the same build on no input."""

    def __init__(self, builds, files):
        self.counts = {}
        self.best = {}
        for name, (program, path, text) in files.items():
            for build in builds[program]:
                count, told = instructions([build], path)
                if told != text:
                    sys.exit(f"speed.py: {build} on {name}:\n{told}and not\n{text}")
                self.counts[build, name] = count - self.of_no_input(build)
            self.best[name] = min(builds[program], key=lambda build, name=name: self.counts[build, name])

    def of_no_input(self, build):
        """The instructions of a build on no input, counted once."""
        if (build, None) not in self.counts:
            self.counts[build, None] = instructions([build], os.devnull)[0]
        return self.counts[build, None]

    def count(self, name):
        """Those of the best build on an input."""
        return self.counts[self.best[name], name]

    def coat(self):
        """What one box more costs at one place."""
        builds = {build for build, name in self.counts if name == MANY}
        return min(self.counts[build, MANY] - self.counts[build, ONE] for build in builds) / (31 * 2**LEVEL)


# ---- the tables -----------------------------------------------------------------------------------------------


def table_of(head, rows):
    """A Markdown table, with its first column at the left and the others at the right."""
    widths = [max(len(row[at]) for row in (head, *rows)) for at in range(len(head))]
    rule = ["-" * widths[0]] + ["-" * (width - 1) + ":" for width in widths[1:]]

    def line(row):
        padded = [cell.rjust(width) if at else cell.ljust(width) for at, (cell, width) in enumerate(zip(row, widths))]
        return "| " + " | ".join(padded) + " |\n"

    return "".join(map(line, (head, rule, *rows)))


def count_table(measured, names):
    """The instructions of each column on each input."""
    has_before = "before" in measured

    def row(name, figures, shown):
        ratio = f"{figures['kit'] / figures['plain C']:.2f}"
        quicker = [f"{figures['before'] / figures['kit']:.2f}"] if has_before else []
        return [name, *(shown(figures[column]) for column in measured), ratio, *quicker]

    rows = [row(name, {column: it.count(name) for column, it in measured.items()}, "{:,}".format) for name in names]
    coats = {column: it.coat() for column, it in measured.items()}
    rows.append(row("one box more, at each place", coats, "{:.1f}".format))
    return table_of(["instructions", *measured, "kit / plain C"] + ["times quicker"] * has_before, rows)


def time_table(measured, files, times):
    """The best wall times: one run of each program after another, so that what else goes on comes to all."""

    def row(name, path):
        rounds = [[seconds(it.best[name], path) for it in measured.values()] for _ in range(times)]
        return [name, *(f"{1000 * min(column):.2f}" for column in zip(*rounds))]

    rows = [row(name, path) for name, (_, path, _) in files.items()]
    return table_of(["milliseconds of a whole run", *measured], rows)


def measure(programs, before, times, kept):
    """Counts, and prints the tables."""
    with tempfile.TemporaryDirectory() as room:
        files = input_files(kept or Path(room))
        plain, short = compiled(Path(room))
        columns = {"kit": programs, "plain C": plain, "C, short cuts": short}
        if before:
            columns = {"before": before, **columns}
        measured = {column: Measured(builds, files) for column, builds in columns.items()}
        print(count_table(measured, files), end="")
        if times:
            print("\n" + time_table(measured, files, times), end="")


# ---- the self-test --------------------------------------------------------------------------------------------


def selftest(checks):
    """The C programs give each stored job and list its text, and each input of the tables."""
    checks.same(table_of(["a", "bc"], [["def", "1"]]), "| a   | bc |\n| --- | -: |\n| def |  1 |\n")
    checks.same(list_text(bytes(4)), "places 1\nlevel 0\nintervals 1\nnet\n")
    with tempfile.TemporaryDirectory() as room:
        tried = stored_inputs()
        for program, path, text in input_files(Path(room)).values():
            checks.holds("refused" not in text, f"{path.name} is accepted")
            tried[program].append((path.read_bytes(), text))
        if not compilers():
            print("selftest: no compiler is here, so the C programs are not tried")
            return
        for builds in compiled(Path(room)):
            for program, cases in tried.items():
                for build, (data, text) in product(builds[program], cases):
                    ran = subprocess.run([build], input=data, capture_output=True, check=False)
                    told = ran.returncode, ran.stdout.decode()
                    checks.same(told, (status_of(program, text), text), f"{build.name}, {data[:99].hex(' ')}")


def status_of(program, text):
    """The status of a program that printed a text: netaudit's tells whether the list is a net."""
    return 1 if program == "netaudit" and text.startswith("refused") else 0


def stored_inputs():
    """Of each program the inputs that samples/ has, with what it has to print."""
    jobs = [case for path in sorted(SAMPLES.glob("*.cases")) for case in stored_cases(path)]
    lists = [
        (path.read_bytes(), path.with_suffix(".expected").read_text())
        for path in sorted((TOP / "samples").glob("*.points"))
    ]
    lists += [(bytes(17), "refused 12 place 17\n"), (bytes(16385), "refused 12 more than 16384 bytes\n")]
    return {"netreport": jobs, "netaudit": lists}


def main():
    """Prints the tables."""
    parser = argparse.ArgumentParser(
        description=__doc__, formatter_class=argparse.RawDescriptionHelpFormatter
    )
    for name in ("--programs", "--before", "--jobs"):
        parser.add_argument(name, metavar="DIR", type=Path)
    parser.add_argument("--times", metavar="N", type=int, default=0)
    parser.add_argument("--selftest", action="store_true")
    asked = parser.parse_args()
    if asked.selftest:
        run_selftest(selftest)
        return
    if not shutil.which("valgrind"):
        sys.exit("speed.py: valgrind is not here")
    if not compilers():
        sys.exit("speed.py: neither gcc nor clang is here")
    if asked.jobs:
        asked.jobs.mkdir(parents=True, exist_ok=True)
    before = found_programs(asked.before) if asked.before else None
    measure(found_programs(asked.programs), before, asked.times, asked.jobs)


if __name__ == "__main__":
    main()
