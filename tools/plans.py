#!/usr/bin/env python3
"""What `netplan` has to print of a plan, by the meaning of plans, layers and maps and not by the program.

  plans.py PLAN.. [--csv] [--rounds] [--coat JOB]  prints the places, each with its rounds if they are wanted and with
                                                   its coat if a job is given
  plans.py PLAN.. --bytes                          prints them in bytes
  plans.py PLAN.. --figures JOB                    prints the level, the sum and the radius, with all places taken
  plans.py --selftest

PLAN is `hammersley M`, `sobol M`, `points FILE` or `job FILE`, and then, each if it is wanted, `shift S T`,
`scramble V W` and `swap`. What is wrong is told on standard error as the program tells it, with its status.
"""

import argparse
import sys
import tempfile
from pathlib import Path

from checking import run_selftest
from job_bytes import EXAMPLE, job, layers, places
from job_reader import Refused, read_places
from meaning import TOP_LEVEL, radius, rounds
from words import NoFile, Unread, exactly, listed, plan_below, read_file, read_layers, recipe_at, split_layers

LONGEST_LIST = 4 * 2**TOP_LEVEL


class Faulty(Exception):
    """A plan that is refused."""


# ---- plans ----------------------------------------------------------------------------------------------------


def plan_of(words):
    """The plan that words say, and the kind of plan below its layers."""
    below, layer_words = split_layers(words)
    moves = read_layers(layer_words)
    if below[:1] == ["points"]:
        lowest = plan = list_at(exactly(below, 2)[1], moves)
    elif below[:1] == ["job"]:
        lowest = recipe_at(exactly(below, 2)[1]).plan
        plan = listed(lowest.places(), moves)
    else:
        lowest = plan = plan_below(below, moves)
    fault = plan.fault()
    if fault:
        raise Faulty(fault)
    return plan, lowest.kind


def list_at(path, moves):
    """The point list of the bytes of a file, four for a place."""
    data = read_file(path, LONGEST_LIST)
    if len(data) > LONGEST_LIST:
        raise Faulty(f"refused 12 more than {LONGEST_LIST} bytes")
    if len(data) % 4 != 0:
        raise Faulty(f"refused 12 place {len(data)}")
    return listed(read_places(data), moves)


# ---- forms ----------------------------------------------------------------------------------------------------


def columns_of(plan, has_rounds, coats):
    """The columns of a list by their names: the places, their rounds if they are wanted, and their coats if there is a
    map."""
    places = plan.places()
    columns = {"x": [x for x, y in places], "y": [y for x, y in places]}
    if has_rounds:
        columns["rounds"] = [rounds(index) for index in range(len(places))]
    if coats is not None:
        columns["coat"] = coats.coats(places)
    return columns


def as_lines(columns):
    """A place a line."""
    return "".join(" ".join(map(str, row)) + "\n" for row in zip(*columns.values()))


def as_csv(columns):
    """Comma-separated, with a head line."""
    return "".join(",".join(map(str, row)) + "\n" for row in (columns, *zip(*columns.values())))


def figures(plan, coats):
    """The level, the sum and the radius, with all places taken."""
    total = sum(coats.coats(plan.places()))
    return f"level {plan.level}\nsum {total}\nradius {radius(plan.level, coats.weight(), 2**plan.level)}\n"


def printed(asked):
    """What is asked for, in bytes."""
    plan, kind = plan_of(asked.plan)
    if asked.rounds and kind != "sobol":
        raise Faulty("the plan counts no rounds")
    if asked.figures:
        return figures(plan, recipe_at(asked.figures).map).encode()
    if asked.bytes:
        return places(*plan.places())
    columns = columns_of(plan, asked.rounds, recipe_at(asked.coat).map if asked.coat else None)
    return (as_csv(columns) if asked.csv else as_lines(columns)).encode()


# ---- the command line -----------------------------------------------------------------------------------------


def command_line():
    """The words and options."""
    parser = argparse.ArgumentParser(
        description=__doc__, formatter_class=argparse.RawDescriptionHelpFormatter
    )
    parser.add_argument("plan", metavar="PLAN", nargs="*")
    form = parser.add_mutually_exclusive_group()
    form.add_argument("--csv", action="store_true")
    form.add_argument("--bytes", action="store_true")
    form.add_argument("--figures", metavar="JOB")
    parser.add_argument("--rounds", action="store_true")
    parser.add_argument("--coat", metavar="JOB")
    parser.add_argument("--selftest", action="store_true")
    return parser


def answer(arguments):
    """What is printed, what is told on standard error, and the status."""
    asked = command_line().parse_args(arguments)
    try:
        return printed(asked), "", 0
    except Unread as error:
        return b"", f"netplan: {error}\n", 2
    except (Faulty, NoFile, Refused) as error:
        return b"", f"netplan: {error}\n", 1


def selftest(checks):
    """Plans, layers and coats of docs/PLANS.md and docs/JOBS.md in each form, and each refusal."""

    def same(text, told, error="", status=0):
        checks.same(answer(text.split()), (told.encode(), error, status), text)

    with tempfile.TemporaryDirectory() as room:
        for name, data in {
            "net": places((0, 0), (16384, 32768), (32768, 16384), (49152, 49152)),
            "grid": places((0, 0), (0, 32768), (32768, 0), (32768, 32768)),
            "odd": bytes(17),
            "long": bytes(16388),
            "job": EXAMPLE,
            "moved.job": job(layer=layers(1, 65535, swap=1)),
            "sobol.job": job(bytes((1, 1)), layers(swap=1)),
            "bad.job": EXAMPLE[:54],
        }.items():
            Path(room, name).write_bytes(data)
        same("hammersley 2", "0 0\n16384 32768\n32768 16384\n49152 49152\n")
        same("sobol 2", "0 0\n32768 32768\n16384 49152\n49152 16384\n")
        same("sobol 0 shift 1 65535", "1 65535\n")
        same("hammersley 1 scramble 4 2 swap", "32768 16384\n0 32768\n")
        same(f"points {room}/net swap", "0 0\n32768 16384\n16384 32768\n49152 49152\n")
        same(f"job {room}/moved.job", "65535 1\n32767 16385\n49151 32769\n16383 49153\n")
        same("hammersley 1 --csv", "x,y\n0,0\n32768,32768\n")
        same(f"hammersley 2 --coat {room}/job", "0 0 3\n16384 32768 0\n32768 16384 0\n49152 49152 0\n")
        same(f"--csv --coat {room}/job hammersley 1", "x,y,coat\n0,0,3\n32768,32768,0\n")
        checks.same(answer("sobol 0 shift 1 32771 --bytes".split()), (b"\1\0\3\x80", "", 0))
        same("sobol 2 --rounds", "0 0 0\n32768 32768 1\n16384 49152 2\n49152 16384 2\n")
        same("sobol 1 shift 1 2 swap --csv --rounds", "x,y,rounds\n2,1,0\n32770,32769,1\n")
        same(f"sobol 1 --rounds --coat {room}/job", "0 0 0 3\n32768 32768 1 0\n")
        same(f"sobol 1 --csv --coat {room}/job --rounds", "x,y,rounds,coat\n0,0,0,3\n32768,32768,1,0\n")
        same(f"job {room}/sobol.job shift 1 2 --rounds", "1 2 0\n32769 32770 1\n")
        same("hammersley 2 --rounds", "", "netplan: the plan counts no rounds\n", 1)
        same(f"points {room}/net --rounds", "", "netplan: the plan counts no rounds\n", 1)
        same(f"job {room}/job --rounds --coat {room}/none", "", "netplan: the plan counts no rounds\n", 1)
        same("sobol 13 --rounds", "", "netplan: refused 4 level 13\n", 1)
        same(f"sobol 2 --rounds --coat {room}/none", "", "netplan: cannot read the file\n", 1)
        same(f"hammersley 2 --figures {room}/job", "level 2\nsum 3\nradius 9\n")
        same(f"points {room}/grid", "", "netplan: refused 13 depth 0 interval 1\n", 1)
        same(f"points {room}/odd", "", "netplan: refused 12 place 17\n", 1)
        same(f"points {room}/long", "", "netplan: refused 12 more than 16384 bytes\n", 1)
        same("sobol 13", "", "netplan: refused 4 level 13\n", 1)
        same(f"job {room}/bad.job", "", "netplan: refused 2 section 0 place 8\n", 1)
        same(f"points {room}/none", "", "netplan: cannot read the file\n", 1)
        same(f"job {room}", "", "netplan: cannot read the file\n", 1)
        for text in ("", "frob", "hammersley", "hammersley x", "sobol 2 swap shift 1 2", "points", "job a b"):
            same(text, "", "netplan: cannot read its words\n", 2)


def main():
    """Prints a plan, or runs the self-test."""
    if command_line().parse_args().selftest:
        run_selftest(selftest)
        return 0
    told, error, status = answer(sys.argv[1:])
    sys.stdout.buffer.write(told)
    sys.stderr.write(error)
    return status


if __name__ == "__main__":
    sys.exit(main())
