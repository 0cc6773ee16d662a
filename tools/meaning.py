#!/usr/bin/env python3
"""What plans, layers, maps, the audit and the radius mean.

It reads docs/PLANS.md, docs/MAPS.md, docs/AUDIT.md and docs/RADIUS.md, and not the code of the crates: each
definition stands here as its page has it. Whatever the programs are compared with rests on this file.
"""

from functools import cache
from math import comb
from random import Random

from checking import only_selftest

PLAN_KINDS = ("hammersley", "sobol", "points")
MAP_KINDS = ("boxes", "steps", "cells")
TOP_LEVEL = 12
PANEL_SIDE = 65536
HEAVIEST = 16384
FIRST_LIMIT = 212992
MOST_BOXES = 32
MOST_STEPS = 16
CELLS = 8
CELL_SIDE = PANEL_SIDE // CELLS


# ---- points of the formulas -----------------------------------------------------------------------------------


def digit(number, weight):
    """The binary digit of the weight 2^weight."""
    return number >> weight & 1


def hammersley(level, index):
    """The point at an index: x has its digits in order, and y in reverse order."""
    x = index << (16 - level)
    y = sum(digit(index, k) << (15 - k) for k in range(level))
    return x, y


def sobol(level, index):
    """The point at an index: x has its digits in reverse order, and y by binomial coefficients."""
    x = sum(digit(index, k) << (15 - k) for k in range(level))
    y = 0
    for k in range(level):
        bit = sum(comb(r, k) * digit(index, r) for r in range(k, level)) % 2
        y += bit << (15 - k)
    return x, y


def rounds(index):
    """The rounds in which Sobol's point is made: one for each digit up to the highest that is 1."""
    return sum(1 for k in range(TOP_LEVEL) if 2**k <= index)


FORMULAS = {"hammersley": hammersley, "sobol": sobol}


@cache
def formula_points(kind, level):
    """The points of a level in order, kept, since many plans have the same below their layers."""
    return [FORMULAS[kind](level, index) for index in range(2**level)]


# ---- layers ---------------------------------------------------------------------------------------------------


def scramble(word, x):
    """A coordinate, scrambled by a word: bit k is flipped by the word's bit of its node, for k from 0 to 5."""
    flips = 0
    for k in range(6):
        node = 2**k + (x >> (16 - k))
        flips += digit(word, node) << (15 - k)
    return x ^ flips


class Layers:
    """A shift, a scramble on that, and a swap on that if there is one."""

    def __init__(self, shift=(0, 0), words=(0, 0), swap=False):
        self.shift = shift
        self.words = words
        self.swap = swap

    def moved(self, place):
        """What the layers make of a place."""
        x, y = place
        x, y = x ^ self.shift[0], y ^ self.shift[1]
        x, y = scramble(self.words[0], x), scramble(self.words[1], y)
        return (y, x) if self.swap else (x, y)


# ---- the audit ------------------------------------------------------------------------------------------------


def audit(places):
    """None for a net, and otherwise how the list is refused; lengths are told in bytes, four for a place."""
    size = len(places)
    if size not in [2**m for m in range(TOP_LEVEL + 1)]:
        return f"refused 12 place {4 * size}"
    level = size.bit_length() - 1
    for depth in range(level + 1):
        counts = [0] * size
        for x, y in places:
            i, j = x >> (16 - depth), y >> (16 - (level - depth))
            counts[i * 2 ** (level - depth) + j] += 1
        if 0 in counts:
            return f"refused 13 depth {depth} interval {counts.index(0)}"
    return None


def intervals(level):
    """How many intervals the audit of a net examines."""
    return (level + 1) * 2**level


# ---- plans ----------------------------------------------------------------------------------------------------


class Plan:
    """A plan of one of the three kinds with its layers, or one that is refused."""

    def __init__(self, kind, level, points=None, layers=None):
        self.kind = kind
        self.level = level
        self.points = points
        self.layers = layers or Layers()
        self._places = None

    def fault(self):
        """How it is refused, or None."""
        if self.kind == "points":
            return audit(self.points)
        if self.level > TOP_LEVEL:
            return f"refused 4 level {self.level}"
        return None

    def places(self):
        """Its places in order, as the layers move them."""
        if self._places is None:
            below = self.points if self.kind == "points" else formula_points(self.kind, self.level)
            self._places = [self.layers.moved(place) for place in below]
        return self._places


# ---- maps -----------------------------------------------------------------------------------------------------


class Map:
    """A map of one of the three kinds, by its terms (w, u, v), or one that is refused.

    Its rows are a list of (x0, x1, y0, y1, w) for boxes, a pair of lists of (value, bound) for steps, and a list
    of 64 values for cells, row 0 first.
    """

    def __init__(self, kind, rows):
        self.kind = kind
        self.rows = rows

    def terms(self):
        """Its terms, in the order of the page."""
        return {"boxes": box_terms, "steps": step_terms, "cells": cell_terms}[self.kind](self.rows)

    def weight(self):
        """W, the sum of |w|."""
        return sum(abs(w) for w, u, v in self.terms())

    def coat(self, x, y):
        """The coat at a place."""
        return sum(w for w, u, v in self.terms() if x < u and y < v)

    def coats(self, places):
        """The coat at each place of a list."""
        terms = self.terms()
        return [sum(w for w, u, v in terms if x < u and y < v) for x, y in places]

    def integral(self):
        """J, the sum of w·u·v."""
        return sum(w * u * v for w, u, v in self.terms())

    def fault(self):
        """How it is refused, or None."""
        if self._has_too_many():
            return "refused 7"
        bad = [not is_good for is_good in self._are_in_bounds()]
        if True in bad:
            return f"refused 8 row {bad.index(True)}"
        if self.weight() > HEAVIEST:
            return "refused 9"
        return None

    def _has_too_many(self):
        if self.kind == "boxes":
            return len(self.rows) > MOST_BOXES
        if self.kind == "steps":
            return any(len(side) > MOST_STEPS for side in self.rows)
        return False

    def _are_in_bounds(self):
        if self.kind == "boxes":
            return [x0 < x1 <= PANEL_SIDE and y0 < y1 <= PANEL_SIDE for x0, x1, y0, y1, w in self.rows]
        if self.kind == "steps":
            return [1 <= bound <= PANEL_SIDE for side in self.rows for value, bound in side]
        return []


def box_terms(rows):
    """The signed corners of the rows, without those of a side of 0."""
    corners = []
    for x0, x1, y0, y1, w in rows:
        corners += [(w, x1, y1), (-w, x0, y1), (-w, x1, y0), (w, x0, y0)]
    return [(w, u, v) for w, u, v in corners if u and v]


def step_terms(rows):
    """The pairings of the steps for x with those for y."""
    return [(g * h, u, v) for g, u in rows[0] for h, v in rows[1]]


def cell_terms(values):
    """The mixed differences of the cells."""

    def value(r, s):
        return values[CELLS * r + s] if r < CELLS and s < CELLS else 0

    def difference(r, s):
        return value(r, s) - value(r + 1, s) - value(r, s + 1) + value(r + 1, s + 1)

    return [
        (difference(r, s), CELL_SIDE * (s + 1), CELL_SIDE * (r + 1)) for r in range(CELLS) for s in range(CELLS)
    ]


# ---- the radius -----------------------------------------------------------------------------------------------


def depth_cost(level, weight):
    """What the depths of a net cost."""
    return (level + 1) * weight


def radius(level, weight, taken):
    """How far the sum over the first places may be from the truth."""
    return depth_cost(level, weight) + max(2**level - taken, 0) * weight


def is_near(level, total, of, taken):
    """Whether a sum over the first places is within its radius of the truth of a map."""
    off = abs(total * PANEL_SIDE**2 - 2**level * of.integral())
    return off <= radius(level, of.weight(), taken) * PANEL_SIDE**2


# ---- the self-test --------------------------------------------------------------------------------------------


def test_plans(checks):
    """The worked figures of docs/PLANS.md."""
    checks.same([hammersley(2, i) for i in range(4)], [(0, 0), (16384, 32768), (32768, 16384), (49152, 49152)])
    checks.same([sobol(2, i) for i in range(4)], [(0, 0), (32768, 32768), (16384, 49152), (49152, 16384)])
    checks.same(sobol(3, 5), (40960, 8192))
    checks.same((hammersley(0, 0), sobol(0, 0)), ((0, 0), (0, 0)))
    checks.same([rounds(i) for i in (0, 1, 2, 3, 4, 5, 8, 4095)], [0, 1, 2, 2, 3, 3, 4, 12])
    checks.same((scramble(4, 0), scramble(4, 32768)), (16384, 32768))
    checks.same((scramble(1, 12345), scramble(2, 0), scramble(2**63, 63488)), (12345, 32768, 64512))
    checks.same(Layers((1, 65535)).moved((0, 0)), (1, 65535))
    checks.same(Layers((1, 65535), swap=True).moved((0, 0)), (65535, 1))
    checks.same(Layers((32768, 0), (4, 0)).moved((0, 0)), (32768, 0), "the shift comes before the scramble")
    checks.same(Layers((32768, 0), (4, 0), True).moved((0, 0)), (0, 32768), "the swap comes last")
    checks.same(Plan("sobol", 2, layers=Layers(swap=True)).places()[2], (49152, 16384))
    checks.same(Plan("points", 0, [(1, 32771)]).places(), [(1, 32771)])
    checks.same(Plan("hammersley", 13).fault(), "refused 4 level 13")
    checks.same(Plan("sobol", 12).fault(), None)


def test_audit(checks):
    """The worked figures of docs/AUDIT.md, and that every formula gives nets at every level."""
    checks.same(audit([(0, 0), (0, 32768), (32768, 0), (32768, 32768)]), "refused 13 depth 0 interval 1")
    checks.same(audit([(32768, 0), (32768, 32768)]), "refused 13 depth 1 interval 0")
    checks.same(audit([(0, 65535), (65535, 0)]), None)
    checks.same((audit([]), audit([(0, 0)] * 3)), ("refused 12 place 0", "refused 12 place 12"))
    checks.same(audit([(0, 0)] * 8192), "refused 12 place 32768")
    checks.same((intervals(0), intervals(2), intervals(12)), (1, 12, 53248))
    for level in range(TOP_LEVEL + 1):
        for kind in FORMULAS:
            checks.same(audit(Plan(kind, level).places()), None, f"{kind} {level}")


def test_maps(checks):
    """The worked figures of docs/MAPS.md."""
    two = Map("boxes", [(16384, 49152, 0, 65536, 5)])
    checks.same((two.weight(), len(two.terms())), (10, 2))
    one = Map("boxes", [(0, 32768, 0, 32768, 3)])
    checks.same((one.weight(), one.terms()), (3, [(3, 32768, 32768)]))
    checks.same(one.coats([(32767, 0), (32768, 0)]), [3, 0])
    checks.same(one.integral(), 3 * 2**30)
    steps = Map("steps", ([(2, 2), (-1, 65536)], [(5, 32772)]))
    checks.same((steps.weight(), steps.coat(1, 32771), steps.coat(2, 0), steps.coat(1, 32772)), (15, 5, -5, 0))
    even = Map("cells", [7] * 64)
    checks.same([term for term in even.terms() if term[0]], [(7, 65536, 65536)])
    lone = Map("cells", [0] * 63 + [-7])
    checks.same((lone.weight(), lone.coat(65535, 57344), lone.coat(57343, 65535)), (28, -7, 0))
    checks.same((Map("boxes", []).weight(), Map("steps", ([], [(1, 1)])).terms()), (0, []))
    checks.same(Map("boxes", [(0, 1, 0, 1, 1)] * 33).fault(), "refused 7")
    checks.same(Map("steps", ([], [(1, 1)] * 17)).fault(), "refused 7")
    checks.same(Map("boxes", [(0, 1, 0, 1, 1), (1, 1, 0, 1, 1)]).fault(), "refused 8 row 1")
    checks.same(Map("steps", ([(1, 1)], [(1, 65537)])).fault(), "refused 8 row 1")
    checks.same(Map("cells", [16385] * 64).fault(), "refused 9")
    checks.same(Map("cells", [-16384] * 64).fault(), None)


def test_coats(checks):
    """The coat by terms is the plain coat, at random places."""
    r = Random(7)
    for _ in range(200):
        x, y = r.getrandbits(16), r.getrandbits(16)
        rows = []
        for _ in range(r.randint(0, 5)):
            x0, y0 = r.randrange(65536), r.randrange(65536)
            rows.append((x0, r.randint(x0 + 1, 65536), y0, r.randint(y0 + 1, 65536), r.randint(-9, 9)))
        plain = sum(w for x0, x1, y0, y1, w in rows if x0 <= x < x1 and y0 <= y < y1)
        checks.same(Map("boxes", rows).coat(x, y), plain, f"boxes {rows} at {x} {y}")
        sides = [[(r.randint(-9, 9), r.randint(1, 65536)) for _ in range(r.randint(0, 5))] for _ in range(2)]
        plain = sum(g for g, u in sides[0] if x < u) * sum(h for h, v in sides[1] if y < v)
        checks.same(Map("steps", sides).coat(x, y), plain, f"steps {sides} at {x} {y}")
        weight = sum(abs(g) for g, u in sides[0]) * sum(abs(h) for h, v in sides[1])
        checks.same(Map("steps", sides).weight(), weight, f"steps {sides}")
        values = [r.randint(-99, 99) for _ in range(64)]
        checks.same(Map("cells", values).coat(x, y), values[y // 8192 * 8 + x // 8192], f"cells {values}")


def test_radius(checks):
    """The worked figures of docs/RADIUS.md and docs/SURVEY.md."""
    checks.same((radius(2, 3, 4), radius(2, 3, 1), radius(1, 3, 2)), (9, 18, 6))
    checks.same((depth_cost(TOP_LEVEL, HEAVIEST), radius(12, HEAVIEST, 0)), (FIRST_LIMIT, 67321856))
    one = Map("boxes", [(0, 32768, 0, 32768, 3)])
    checks.holds(is_near(2, 3, one, 4), "3 is the truth")
    checks.holds(is_near(2, 12, one, 4), "12 is off by the radius")
    checks.holds(not is_near(2, 13, one, 4), "13 is off by more")


def selftest(checks):
    """Worked figures, and random places."""
    for test in (test_plans, test_audit, test_maps, test_coats, test_radius):
        test(checks)


if __name__ == "__main__":
    only_selftest(__doc__, selftest)
