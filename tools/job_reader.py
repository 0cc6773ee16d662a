#!/usr/bin/env python3
"""A reading of job files, and the texts of their reports, by docs/JOBS.md."""

from typing import NamedTuple

from checking import only_selftest
from job_bytes import EXAMPLE, cells, job, layers, places, points
from meaning import MOST_BOXES, MOST_STEPS, PLAN_KINDS, TOP_LEVEL
from meaning import Layers, Map, Plan, audit, depth_cost, intervals

SHORTEST_JOB, LONGEST_JOB = 12, 65535
PAIRS = (0, 4, 8)
REPORT_WORDS = ("level", "points", "taken", "sum", "radius", "audit")


class Refused(Exception):
    """The first fault of a job: its number, its section, its byte, and what follows these."""

    def __init__(self, number, section, place, more=""):
        super().__init__(f"refused {number} section {section} place {place}{more}")


class Recipe(NamedTuple):
    """What a job carries: a plan with its layers, and a map."""

    plan: Plan
    map: Map


# ---- sections -------------------------------------------------------------------------------------------------


def number_at(data, at, size, signed=False):
    """The number of so many bytes from a byte on."""
    return int.from_bytes(data[at : at + size], "little", signed=signed)


def read_places(data):
    """The places that bytes lay down, four bytes each."""
    return [(number_at(data, at, 2), number_at(data, at + 2, 2)) for at in range(0, len(data), 4)]


def read_directory(file):
    """Of each section its first byte in the file, and its bytes."""
    if not SHORTEST_JOB <= len(file) <= LONGEST_JOB:
        raise Refused(1, 0, 0)
    sections, end = [], SHORTEST_JOB
    for pair in PAIRS:
        offset, length = number_at(file, pair, 2), number_at(file, pair + 2, 2)
        if offset < end or offset + length > len(file):
            raise Refused(2, 0, pair)
        end = offset + length
        sections.append((offset, file[offset:end]))
    return sections


def read_plan(at, data):
    """The kind, the level and the points of the plan section that begins at byte `at` of the file.

    There are no points but for a point list.
    """
    if len(data) == 0 or data[0] > 2:
        raise Refused(3, 1, at)
    if len(data) < 2 or data[1] > TOP_LEVEL:
        raise Refused(4, 1, at + 1)
    kind, level = PLAN_KINDS[data[0]], data[1]
    if len(data) != (2 + 4 * 2**level if kind == "points" else 2):
        raise Refused(5, 1, at + 2)
    if kind != "points":
        return kind, level, None
    found = read_places(data[2:])
    fault = audit(found)
    if fault:
        raise Refused(13, 1, at + 2, fault.removeprefix("refused 13"))
    return kind, level, found


def read_layers(at, data):
    """The layers of a layer section."""
    if len(data) != 21 or data[0] > 1:
        raise Refused(6, 2, at)
    shift = number_at(data, 1, 2), number_at(data, 3, 2)
    words = number_at(data, 5, 8), number_at(data, 13, 8)
    return Layers(shift, words, data[0] == 1)


def read_box(data, at):
    """A row of boxes: its four bounds and its weight."""
    return [number_at(data, at + k, 4) for k in (0, 4, 8, 12)] + [number_at(data, at + 16, 2, True)]


def read_step(data, at):
    """A step: its value, and its bound, which lies first."""
    return number_at(data, at + 4, 2, True), number_at(data, at, 4)


def read_map(at, data):
    """The map of a map section."""
    kind, size = data[0] if data else None, len(data)
    if kind == 0 and size >= 2 and data[1] <= MOST_BOXES and size == 2 + 18 * data[1]:
        first, step = 2, 18
        found = Map("boxes", [read_box(data, row) for row in range(first, size, step)])
    elif kind == 1 and size >= 3 and max(data[1:3]) <= MOST_STEPS and size == 3 + 6 * sum(data[1:3]):
        first, step = 3, 6
        rows = [read_step(data, row) for row in range(first, size, step)]
        found = Map("steps", (rows[: data[1]], rows[data[1] :]))
    elif kind == 2 and size == 129:
        first, step = 1, 2
        found = Map("cells", [number_at(data, cell, 2, True) for cell in range(first, size, step)])
    else:
        raise Refused(7, 3, at)
    fault = found.fault()
    if fault == "refused 9":
        raise Refused(9, 3, at)
    if fault:
        row = int(fault.removeprefix("refused 8 row "))
        raise Refused(8, 3, at + first + step * row)
    return found


# ---- jobs -----------------------------------------------------------------------------------------------------


def read_job(file):
    """The recipe of a job, or `Refused` with its first fault."""
    (plan_at, plan), (layers_at, moves), (map_at, coats) = read_directory(file)
    kind, level, found = read_plan(plan_at, plan)
    layered = Plan(kind, level, found, read_layers(layers_at, moves))
    return Recipe(layered, read_map(map_at, coats))


def figures_of(recipe):
    """The six numbers of a report, with all places taken."""
    plan, coats = recipe
    count, total = len(plan.places()), sum(coats.coats(plan.places()))
    return plan.level, count, count, total, depth_cost(plan.level, coats.weight()), intervals(plan.level)


def text_of(told):
    """Six numbers as the six lines, a refusal as its line."""
    if isinstance(told, str):
        return told + "\n"
    return "".join(f"{word} {figure}\n" for word, figure in zip(REPORT_WORDS, told, strict=True))


def report(file):
    """The text of a job."""
    try:
        recipe = read_job(file)
    except Refused as refused:
        return text_of(str(refused))
    return text_of(figures_of(recipe))


def selftest(checks):
    """The example of docs/JOBS.md and what is said beside it; job_edges.py has the edges of each rule."""
    checks.same(report(EXAMPLE), "level 2\npoints 4\ntaken 4\nsum 3\nradius 9\naudit 12\n")
    square = points(2, (0, 0), (0, 32768), (32768, 0), (32768, 32768))
    checks.same(square.hex(), "0202" + "00000000" + "00000080" + "00800000" + "00800080")
    checks.same(report(job(square)), "refused 13 section 1 place 14 depth 0 interval 1\n")
    checks.same(report(job(b"\2\0\1\0\3\x80")), "level 0\npoints 1\ntaken 1\nsum 0\nradius 3\naudit 1\n")
    checks.same(read_places(places((1, 32771), (65535, 0))), [(1, 32771), (65535, 0)])
    checks.same((number_at(b"\xfe\xff", 0, 2), number_at(b"\xfe\xff", 0, 2, True)), (65534, -2))
    checks.same(report(EXAMPLE[:11]), "refused 1 section 0 place 0\n")
    checks.same(report(EXAMPLE + bytes(65481)), "refused 1 section 0 place 0\n")
    checks.same(report(EXAMPLE + bytes(65480)), report(EXAMPLE))
    longest = report(job(b"\1\x0c", coats=cells([-16384] * 64)))
    checks.same(longest.split("\n")[3], "sum -67108864")
    checks.same(len(longest), 72, "the longest text")
    plan, coats = read_job(job(b"\0\0", layers(1, 65535, swap=1)))
    checks.same((plan.places(), coats.weight()), ([(65535, 1)], 3))


if __name__ == "__main__":
    only_selftest(__doc__, selftest)
