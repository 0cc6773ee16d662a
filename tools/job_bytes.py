#!/usr/bin/env python3
"""The bytes of jobs, section by section, as docs/JOBS.md lays them down. What is handed over can be at fault."""

from checking import only_selftest
from meaning import PLAN_KINDS


def le(size, *numbers):
    """Numbers of so many bytes each, lowest byte first; those below zero in two's complement."""
    return b"".join((number % 256**size).to_bytes(size, "little") for number in numbers)


def places(*pairs):
    """Places one after another."""
    return b"".join(le(2, x, y) for x, y in pairs)


def points(level, *pairs):
    """A plan section: a point list."""
    return bytes([2, level]) + places(*pairs)


def layers(s=0, t=0, x_word=0, y_word=0, swap=0):
    """A layer section."""
    return bytes([swap]) + le(2, s, t) + le(8, x_word, y_word)


def boxes(*rows):
    """A map section: rows of x0, x1, y0, y1 and w."""
    return bytes([0, len(rows)]) + b"".join(le(4, *row[:4]) + le(2, row[4]) for row in rows)


def steps(xs, ys):
    """A map section: pairs of a value and a bound, for x and for y."""
    rows = b"".join(le(4, bound) + le(2, value) for value, bound in [*xs, *ys])
    return bytes([1, len(xs), len(ys)]) + rows


def cells(values):
    """A map section: values of cells."""
    return b"\2" + le(2, *values)


# The sections of samples/example.job.
PLAN = b"\0\2"
LAYERS = layers()
MAP = boxes((0, 32768, 0, 32768, 3))


def job(plan=PLAN, layer=LAYERS, coats=MAP, gaps=(0, 0, 0), rest=b"", fill=b"\xff"):
    """A job: its sections one after another, each with a gap before it, and bytes after the last."""
    directory, body = b"", b""
    for gap, section in zip(gaps, (plan, layer, coats)):
        body += fill * gap
        directory += le(2, 12 + len(body), len(section))
        body += section
    return directory + body + rest


# samples/example.job: the plan from byte 12 to 13, the layers from 14 to 34, the map from 35 to 54.
EXAMPLE = job()


def sections_of(plan, coats):
    """The three sections of a Plan with its layers and of a Map."""
    if plan.kind == "points":
        plan_section = points(plan.level, *plan.points)
    else:
        plan_section = bytes([PLAN_KINDS.index(plan.kind), plan.level])
    layer_section = layers(*plan.layers.shift, *plan.layers.words, plan.layers.swap)
    if coats.kind == "boxes":
        map_section = boxes(*coats.rows)
    elif coats.kind == "steps":
        map_section = steps(*coats.rows)
    else:
        map_section = cells(coats.rows)
    return [plan_section, layer_section, map_section]


def selftest(checks):
    """The example of docs/JOBS.md, and a section of each kind, byte by byte."""
    by_hand = "0C 00 02 00 0E 00 15 00 23 00 14 00  00 02" + " 00" * 21
    by_hand += " 00 01 00 00 00 00 00 80 00 00 00 00 00 00 00 80 00 00 03 00"
    checks.same(EXAMPLE, bytes.fromhex(by_hand))
    checks.same(len(EXAMPLE), 55)
    checks.same(le(2, -2, 258).hex(" "), "fe ff 02 01")
    checks.same(places((1, 32771)).hex(" "), "01 00 03 80")
    checks.same(points(0, (1, 32771)).hex(" "), "02 00 01 00 03 80")
    checks.same(layers(1, 65535, 2, 2**63, 1).hex(), "01" + "0100" + "ffff" + "02" + "00" * 14 + "80")
    checks.same(steps([(-1, 65536)], [(2, 3)]).hex(" "), "01 01 01 00 00 01 00 ff ff 03 00 00 00 02 00")
    checks.same(cells([-1] * 64), b"\2" + b"\xff" * 128)
    with_gaps = job(b"\0\1", b"L", b"M", (1, 0, 2), b"!")
    checks.same(with_gaps.hex(" "), "0d 00 02 00 0f 00 01 00 12 00 01 00 ff 00 01 4c ff ff 4d 21")


if __name__ == "__main__":
    only_selftest(__doc__, selftest)
