#!/usr/bin/env python3
"""Random plans and maps in words, good ones and ones that are refused.

What a seed gives must not change, since the samples are made of it: each draw stays where it is.
"""

from random import Random

from checking import only_selftest
from meaning import MAP_KINDS, MOST_BOXES, MOST_STEPS, PLAN_KINDS, audit
from words import read_map, read_plan

TOO_HIGH = (13, 14, 16, 64, 2**32 - 1)
TOO_MANY_STEPS = ((17, 1), (2, 17), (18, 18), (0, 17), (17, 0))


class Pages:
    """A source of random pages; `plan_kind` and `map_kind` are the kinds of a life, drawn if none are given."""

    def __init__(self, seed, plan_kind=None, map_kind=None):
        self.random = Random(seed)
        drawn = self.random.choice(PLAN_KINDS), self.random.choice(MAP_KINDS)
        self.plan_kind = plan_kind or drawn[0]
        self.map_kind = map_kind or drawn[1]

    def one_of(self, *weighted):
        """One of these pairs of a weight and a value, by their weights: its value."""
        weights = [weight for weight, _ in weighted]
        return self.random.choices([value for _, value in weighted], weights)[0]

    # plans

    def layers(self):
        """Layers in words, each or none, with a space ahead."""
        r, text = self.random, ""
        shifts = [0, 1, 32768, 65535, r.getrandbits(16), r.getrandbits(16)]
        scrambles = [0, 1, 2, 4, 2**64 - 1] + [r.getrandbits(64)] * 5
        if r.random() < 0.5:
            text += f" shift {r.choice(shifts)} {r.choice(shifts)}"
        if r.random() < 0.5:
            text += f" scramble {r.choice(scrambles)} {r.choice([r.choice(scrambles), r.getrandbits(64)])}"
        return text + (" swap" if r.random() < 0.4 else "")

    def level(self, kind):
        """A level, most often a low one."""
        r = self.random
        if kind == "points":
            return self.one_of(
                (15, r.randint(0, 1)),
                (75, r.randint(2, 5)),
                (10, 6),
                (0.8, r.randint(7, 9)),
                (0.3, r.randint(10, 12)),
            )
        return self.one_of((15, r.randint(0, 1)), (70, r.randint(2, 6)), (15, r.randint(7, 12)))

    def net(self, level):
        """The places of a net, now and then in any order, or with any lower bits."""
        r = self.random
        places = read_plan(f"{r.choice(PLAN_KINDS[:2])} {level}{self.layers()}".split()).places()
        if r.random() < 0.5:
            places = [(x ^ r.getrandbits(16 - level), y ^ r.getrandbits(16 - level)) for x, y in places]
        return r.sample(places, len(places)) if r.random() < 0.4 else list(places)

    def listed(self, places):
        """A point list in words, with layers."""
        return "points" + "".join(f" {x} {y}" for x, y in places) + self.layers()

    def good_plan(self, kind):
        """A plan of this kind in words."""
        level = self.level(kind)
        return self.listed(self.net(level)) if kind == "points" else f"{kind} {level}{self.layers()}"

    def bad_plan(self, kind):
        """A plan of this kind that is most often refused."""
        r = self.random
        if kind != "points":
            return f"{kind} {r.choice([*TOO_HIGH, r.randint(13, 2**32 - 1)])}{self.layers()}"
        places, how = self.net(r.randint(1, 6)), r.random()
        if how < 0.01:
            places = [(0, 0)] * r.choice([4097, 5000, 8192])
        elif how < 0.3:
            places = r.choice([[], places + places[:1], places[1:] + places[:2], places[:1] * 3])
        elif how < 0.4:
            places = [(r.getrandbits(16), r.getrandbits(16)) for _ in places]
        else:
            at = r.randrange(len(places))
            x, y = places[at]
            places[at] = r.choice([r.choice(places), (x ^ 32768, y), (x, y ^ 32768 >> r.randint(0, 5))])
        return self.listed(places)

    # maps

    def bound(self):
        """A bound of a box or a step, 0 too."""
        r = self.random
        return self.one_of(
            (2, 0),
            (2, 65536),
            (1, 1),
            (1, 65535),
            (4, 8192 * r.randint(0, 8)),
            (4, 1024 * r.randint(0, 64)),
            (6, r.randint(0, 65536)),
        )

    def side(self):
        """Two bounds, the lower first."""
        return tuple(sorted(self.random.sample([0, 65536] + [self.bound() for _ in range(4)], 2)))

    def numbers(self, top, count):
        """Signed numbers of 16 bits, at most `top` either way."""
        r, found = self.random, []
        for _ in range(count):
            number = self.one_of((4, r.randint(-top, top)), (1, top), (1, -top))
            found.append(max(-32768, min(32767, number)))
        return found

    def count(self, most):
        """How many rows, most often few."""
        r = self.random
        return self.one_of(
            (1, 0),
            (12, r.randint(1, 3)),
            (3, r.randint(1, 6)),
            (2, r.randint(0, most)),
            (0.5, most),
        )

    def rows(self, kind, top, counts=None):
        """Rows, most often within their bounds, of a W of about `top` at most; so many if counts are given."""
        if kind == "boxes":
            return self.box_rows(top, counts or self.count(MOST_BOXES))
        if kind == "steps":
            first = int(top ** self.random.random())
            p, q = counts or (self.count(MOST_STEPS), self.count(MOST_STEPS))
            return self.steps(first, p), self.steps(top // max(first, 1), q)
        return self.cell_values(top)

    def box_rows(self, top, count):
        """So many rows of boxes."""
        numbers = self.numbers(top // (4 * max(count, 1)), count)
        return [(*self.side(), *self.side(), w) for w in numbers]

    def steps(self, top, count):
        """So many steps along an axis."""
        numbers = self.numbers(top // max(count, 1), count)
        return [(g, max(1, self.bound())) for g in numbers]

    def cell_values(self, top):
        """Values of cells: all the same, rows, columns, a single one, or any."""
        r = self.random
        line, how = self.numbers(top // 16, 8), r.randrange(5)
        if how == 0:
            return self.numbers(top, 1) * 64
        if how == 1:
            return [line[i // 8] for i in range(64)]
        if how == 2:
            return [line[i % 8] for i in range(64)]
        if how == 3:
            at = r.randrange(64)
            return [0] * at + self.numbers(top // 4, 1) + [0] * (63 - at)
        return self.numbers(top // 256, 64)

    def rows_of_weight(self, kind, weight):
        """Rows whose W is exactly this."""
        r = self.random
        w = weight * r.choice([1, -1])
        other = r.choice([1, -1]), max(1, self.bound())
        if kind == "boxes":
            return [(0, 65536, 0, 65536, w)]
        return ([(w, 65536)], [other]) if kind == "steps" else [w] * 64

    def good_map(self, kind):
        """A map of this kind in words."""
        r = self.random
        while True:
            top = self.one_of((1, 0), (1, 40), (8, 16384), (8, int(2 ** r.uniform(4, 14))))
            rows = self.rows_of_weight(kind, 16384) if r.random() < 0.04 else self.rows(kind, top)
            text = map_text(kind, rows)
            found = read_map(text.split())
            if not found.fault() and (found.weight() or r.random() < 0.1):
                return text

    def bad_map(self, kind):
        """A map of this kind that is refused."""
        wanted = self.random.choice("789" if kind != "cells" else "9")
        while True:
            rows = self.bad_rows(kind, wanted)
            if wanted == "8" or self.random.random() < 0.1:
                self.spoil_bounds(kind, rows)
            text = map_text(kind, rows)
            if (read_map(text.split()).fault() or "").startswith("refused " + wanted):
                return text

    def bad_rows(self, kind, wanted):
        """Rows that may be refused with the number wanted, if that is not 8."""
        r = self.random
        if wanted == "9":
            if r.random() < 0.2:
                return self.rows_of_weight(kind, 16385)
            return self.rows(kind, r.choice([20000, 200000, 8388608, 2**38]))
        top, counts = r.choice([100, 16384, 2**38]), None
        if wanted == "7":
            counts = r.randint(33, 36) if kind == "boxes" else r.choice(TOO_MANY_STEPS)
        return self.rows(kind, top, counts)

    def spoil_bounds(self, kind, rows):
        """Puts some bounds of boxes or steps out of their range, or boxes out of their order."""
        r = self.random
        for side in {"boxes": [rows], "steps": rows}.get(kind, []):
            for at in r.sample(range(len(side)), min(len(side), r.randint(0, 2))):
                row, k = list(side[at]), r.randrange(4)
                if kind == "boxes":
                    other = row[k ^ 1]
                    row[k] = max(0, r.choice([65537, 2**32 - 1, other, other + 1 - 2 * (k % 2)]))
                else:
                    row[1] = r.choice([0, 65537, 2**32 - 1])
                side[at] = tuple(row)


def map_text(kind, rows):
    """A map in words."""
    if kind == "boxes":
        return kind + "".join(" " + " ".join(map(str, row)) for row in rows)
    if kind == "steps":
        xs, ys = (" ".join(f"{value} {bound}" for value, bound in side) for side in rows)
        return f"steps {xs} and {ys}".strip()
    return kind + " " + " ".join(map(str, rows))


def selftest(checks):
    """Good pages are good, bad maps are refused, and some bad page has each number."""
    pages, numbers = Pages(1), set()
    for n in range(300):
        for kind in PLAN_KINDS:
            if n % 3 == 0:
                checks.same(audit(read_plan(pages.good_plan(kind).split()).places()), None, f"{kind}, plan {n}")
            numbers.update((read_plan(pages.bad_plan(kind).split()).fault() or "").split()[1:2])
        for kind in MAP_KINDS:
            checks.same(read_map(pages.good_map(kind).split()).fault(), None, f"{kind}, map {n}")
            fault = read_map(pages.bad_map(kind).split()).fault()
            checks.holds(fault, f"{kind}, bad map {n}, is refused")
            numbers.add(fault.split()[1])
    checks.same(numbers, {"4", "12", "13", "7", "8", "9"}, "the numbers of bad pages")
    text = "boxes 1 2 3 4 -5 0 65536 0 65536 1"
    checks.same(map_text("boxes", read_map(text.split()).rows), text)
    checks.same(map_text("steps", ([(-1, 2)], [])), "steps -1 2 and")
    checks.same(Pages(5).good_plan("sobol"), Pages(5).good_plan("sobol"), "a seed gives one plan")


if __name__ == "__main__":
    only_selftest(__doc__, selftest)
