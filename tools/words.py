#!/usr/bin/env python3
"""A reading of plans and maps in words, by the commands of docs/GAUGE.md."""

import re

from checking import only_selftest
from job_reader import LONGEST_JOB, read_job
from meaning import FORMULAS, MAP_KINDS, Layers, Map, Plan

LAYER_NAMES = ("shift", "scramble", "swap")


class Unread(Exception):
    """Words that say nothing."""

    def __init__(self):
        super().__init__("cannot read its words")


class NoFile(Exception):
    """A file that cannot be opened or read."""

    def __init__(self):
        super().__init__("cannot read the file")


# ---- words ----------------------------------------------------------------------------------------------------


def number(word, bits, signed=False):
    """A decimal number of so many bits."""
    if not re.fullmatch("-?[0-9]+" if signed else "[0-9]+", word):
        raise Unread
    digits = word.removeprefix("-").lstrip("0")
    if len(digits) > 20:
        raise Unread
    found = int(digits or "0") * (-1 if word.startswith("-") else 1)
    least, most = (-(2 ** (bits - 1)), 2 ** (bits - 1) - 1) if signed else (0, 2**bits - 1)
    if not least <= found <= most:
        raise Unread
    return found


def exactly(words, count):
    """The words, if there are so many."""
    if len(words) != count:
        raise Unread
    return words


def rows_of(words, size):
    """The words, so many in a row."""
    if len(words) % size != 0:
        raise Unread
    return [words[at : at + size] for at in range(0, len(words), size)]


# ---- files ----------------------------------------------------------------------------------------------------


def read_file(path, most):
    """What a file has, up to one byte more than the most."""
    try:
        with open(path, "rb") as file:
            return file.read(most + 1)
    except OSError as error:
        raise NoFile from error


def recipe_at(path):
    """The recipe of the job file at a path."""
    return read_job(read_file(path, LONGEST_JOB))


# ---- plans ----------------------------------------------------------------------------------------------------


def read_plan(words):
    """The plan that words say, good or not; that of a job file has the layers of the job."""
    if words[:1] == ["job"]:
        return recipe_at(exactly(words, 2)[1]).plan
    below, layers = split_layers(words)
    return plan_below(below, read_layers(layers))


def split_layers(words):
    """The words before the first layer's name, and those from there."""
    at = next((at for at, word in enumerate(words) if word in LAYER_NAMES), len(words))
    return words[:at], words[at:]


def plan_below(words, layers):
    """The plan of a formula or of a list, with layers."""
    if not words:
        raise Unread
    kind, rest = words[0], words[1:]
    if kind in FORMULAS:
        return Plan(kind, number(exactly(rest, 1)[0], 32), None, layers)
    if kind == "points":
        return listed([(number(x, 16), number(y, 16)) for x, y in rows_of(rest, 2)], layers)
    raise Unread


def listed(points, layers):
    """The plan of a list, of the level of its length, rounded down, where that is no level's."""
    return Plan("points", max(len(points).bit_length() - 1, 0), points, layers)


def read_layers(words):
    """Layers, each if it is wanted, in their order, and no word after them."""
    shift, scramble = (0, 0), (0, 0)
    if words[:1] == ["shift"]:
        shift, words = tuple(number(word, 16) for word in exactly(words[1:3], 2)), words[3:]
    if words[:1] == ["scramble"]:
        scramble, words = tuple(number(word, 64) for word in exactly(words[1:3], 2)), words[3:]
    swap = words == ["swap"]
    if words and not swap:
        raise Unread
    return Layers(shift, scramble, swap)


# ---- maps -----------------------------------------------------------------------------------------------------


def read_map(words):
    """The map that words say, good or not."""
    if words[:1] == ["job"]:
        return recipe_at(exactly(words, 2)[1]).map
    if not words or words[0] not in MAP_KINDS:
        raise Unread
    kind, rest = words[0], words[1:]
    if kind == "boxes":
        return Map(kind, [read_box(row) for row in rows_of(rest, 5)])
    if kind == "steps":
        return Map(kind, read_sides(rest))
    return Map(kind, [number(word, 16, True) for word in exactly(rest, 64)])


def read_box(words):
    """A row of boxes."""
    return [number(word, 32) for word in words[:4]] + [number(words[4], 16, True)]


def read_sides(words):
    """The steps for x, the word `and`, and those for y."""
    if words.count("and") != 1:
        raise Unread
    at = words.index("and")
    sides = words[:at], words[at + 1 :]
    return tuple([(number(g, 16, True), number(u, 32)) for g, u in rows_of(side, 2)] for side in sides)


# ---- the self-test --------------------------------------------------------------------------------------------


def selftest(checks):
    """What can be read and what cannot."""
    checks.same((number("007", 16), number("65535", 16), number("-0", 16, True)), (7, 65535, 0))
    checks.same((number("-32768", 16, True), number("32767", 16, True)), (-32768, 32767))
    checks.same((number("0" * 9999 + "5", 32), number(str(2**64 - 1), 64)), (5, 2**64 - 1))
    for word in ("65536", "-1", "+1", "", "1.0", "0x1", "٣", "9" * 9999):
        checks.raises(Unread, number, word, 16)
    for word in ("32768", "-32769", "--1", "-"):
        checks.raises(Unread, number, word, 16, True)
    plan = read_plan("hammersley 2 shift 1 65535 scramble 4 2 swap".split())
    checks.same((plan.kind, plan.level, plan.fault()), ("hammersley", 2, None))
    checks.same((plan.layers.shift, plan.layers.words, plan.layers.swap), ((1, 65535), (4, 2), True))
    checks.same(read_plan("hammersley 0 shift 1 65535".split()).places(), [(1, 65535)])
    checks.same(read_plan("points 1 2 3 4 swap".split()).places(), [(2, 1), (4, 3)])
    checks.same(read_plan(["points"]).fault(), "refused 12 place 0")
    checks.same(read_plan("sobol 4294967295".split()).fault(), "refused 4 level 4294967295")
    for text in (
        "",
        "hammersley",
        "hammersley 1 2",
        "sobol -1",
        "niederreiter 1",
        "points 1",
        "points 1 65536",
        "sobol 1 swap shift 1 2",
        "sobol 1 shift 1",
        "sobol 1 swap swap",
        "shift 1 2",
        "job",
        "job a b",
    ):
        checks.raises(Unread, read_plan, text.split())
    checks.raises(NoFile, read_plan, ["job", "/"])
    checks.same(read_map("boxes 0 32768 0 32768 3".split()).terms(), [(3, 32768, 32768)])
    checks.same(read_map("steps 2 2 and 5 32772".split()).rows, ([(2, 2)], [(5, 32772)]))
    checks.same(read_map("steps and".split()).rows, ([], []))
    checks.same(read_map(["cells"] + ["-7"] * 64).weight(), 7)
    for text in (
        "",
        "boxes 1",
        "boxes 0 1 0 1 32768",
        "boxes 0 -1 0 1 1",
        "steps",
        "steps 1 and",
        "steps and and",
        "cells 1",
    ):
        checks.raises(Unread, read_map, text.split())
    checks.raises(NoFile, read_map, ["job", "/"])


if __name__ == "__main__":
    only_selftest(__doc__, selftest)
