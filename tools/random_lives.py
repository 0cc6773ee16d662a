#!/usr/bin/env python3
"""Random lives of a survey, over all kinds of plan, layer and map, with what is refused, given up or no call.

What a seed gives must not change, since the samples are made of it: each draw stays where it is.
"""

import re

from checking import only_selftest
from life_reader import Life, Recipe, has_struck_answers, live
from meaning import FIRST_LIMIT, MAP_KINDS, PLAN_KINDS, is_near
from random_pages import Pages
from words import read_map, read_plan

REMARKS = ("# a comment", "#", "#take 1", "## commit", "# open hammersley 2")
UNKNOWN = (
    "frob",
    "TAKE 1",
    "takes 1",
    "Report",
    "opened",
    "5",
    "-",
    "take# 1",
    "hammersley 2",
    "maps",
    "commit;",
)
WORDLESS = (
    "take",
    "take 1 2",
    "take -1",
    "take x",
    "take 4294967296",
    "take 1.0",
    "take 99999999999999999999999",
    "report 1",
    "report report",
    "limit",
    "limit -5",
    "limit 18446744073709551616",
    "limit 5 5",
    "limit all",
    "commit now",
    "commit 0",
    "abandon 1",
    "begin",
    "map",
    "take 1 #",
    "report #",
)
WRONG_WORDS = ("x", "-", "--5", "1.5", "0x10", "9" * 25, "4294967296", "and", "shift", "seven", "1,")
MORE_WORDS = (
    "7",
    "swap",
    "shift 1 2",
    "swap shift 1 2",
    "scramble 1 2 shift 3 4",
    "scramble 5",
    "0 0 0",
)
EARLY = ("", "# early", "take 1", "report", "limit 5", "commit", "abandon")
# A line as long as a line can be, and one that is longer.
LONG_LINES = ("take" + " " * 65529 + "1", "take" + " " * 65532 + "1")


class LifeMaker(Pages):
    """A life that is made line by line, each with a look at where the life has come to."""

    def __init__(self, seed, plan_kind=None, map_kind=None):
        super().__init__(seed, plan_kind, map_kind)
        self.life = Life()

    def plan_page(self):
        """A good plan of the kind of the life."""
        return self.good_plan(self.plan_kind)

    def map_page(self):
        """A good map of the kind of the life."""
        return self.good_map(self.map_kind)

    def broken(self, line):
        """A page with one word too many, too few or wrong, which most often cannot be read."""
        r, words = self.random, line.split()
        at, wrong = r.randint(2, len(words)), r.choice(WRONG_WORDS)
        how = r.randrange(4)
        if how == 0 and len(words) > 2:
            del words[-1]
        elif how == 1:
            words.append(r.choice(MORE_WORDS))
        elif how == 2:
            words[at : at + 1] = [wrong]
        else:
            words.insert(at, wrong)
        return " ".join(words)

    def chatter(self):
        """A line that most often makes no call, when a recipe is open."""
        r = self.random
        page, good, bad, kind, kinds = r.choice(
            [
                ("begin ", self.good_plan, self.bad_plan, self.plan_kind, PLAN_KINDS),
                ("map ", self.good_map, self.bad_map, self.map_kind, MAP_KINDS),
            ]
        )
        return self.one_of(
            (3, ""),
            (3, r.choice(REMARKS)),
            (3, r.choice(WORDLESS)),
            (2, r.choice(UNKNOWN)),
            (1, "open " + self.plan_page()),
            (2, page + good(r.choice([other for other in kinds if other != kind]))),
            (6, page + bad(kind)),
            (3, self.broken(page + good(kind))),
        )

    def take(self):
        """A take, now and then of nothing or of too many."""
        r, left = self.random, self.life.left()
        count = self.one_of(
            (2, 0),
            (14, r.randint(1, 3)),
            (3, left),
            (2, left + 1),
            (6, r.randint(1, left // 2 + 1)),
            (1, 2**32 - 1),
            (1, r.getrandbits(32)),
        )
        return f"take {count}"

    def limit(self):
        """A limit, most often not below the depth cost of the held recipe."""
        r, now = self.random, self.life.held().cost()
        limit = self.one_of(
            (3, now),
            (2, max(now - 1, 0)),
            (0.5, now + 1),
            (0.5, 0),
            (2, FIRST_LIMIT),
            (0.3, 2**64 - 1),
            (0.5, r.getrandbits(64)),
            (9, now + int(2 ** r.uniform(10, 17.7))),
        )
        return f"limit {limit}"

    def any_call(self):
        """A call, allowed or not."""
        calls = [self.take(), "report", self.limit(), "commit", "abandon"]
        calls += ["begin " + self.plan_page(), "map " + self.map_page()]
        return self.random.choice(calls)

    def say(self, line):
        """Says a line, now and then with several spaces between its words."""
        if self.random.random() < 0.03 and len(line) < 9999:
            line = line.replace(" ", " " * self.random.randint(2, 4))
        self.life.say(line)

    def opening(self):
        """The opening, with lines before it is complete, which are answered and change nothing."""
        for name in ("open", "map"):
            while self.random.random() < 0.4:
                self.say(self.early(name))
            self.say("open " + self.plan_page() if name == "open" else "map " + self.map_page())

    def early(self, name):
        """A line ahead of a line of the opening."""
        r = self.random
        is_plan = name == "open"
        return self.one_of(
            (2, r.choice(EARLY)),
            (2, f"{name} " + (self.bad_plan(self.plan_kind) if is_plan else self.bad_map(self.map_kind))),
            (1, "begin " + self.plan_page()),
            (2, name + r.choice(["", " sobol -1" if is_plan else " boxes 1"])),
            (1, "map " + self.map_page() if is_plan else "take 0"),
        )

    def step(self):
        """A line, or a change of recipe with its lines."""
        line = self.next_line()
        if line is None:
            self.change()
        else:
            self.say(line)

    def next_line(self):
        """A line for where the life has come to, or None for a change."""
        r, stage = self.random, self.life.stage()
        if r.random() < 0.07:
            return self.chatter()
        if r.random() < 0.04:
            return self.any_call()
        if stage == "half":
            page, bad = "map " + self.map_page(), "map " + self.bad_map(self.map_kind)
            return self.one_of((8, page), (1.5, "abandon"), (1, bad))
        if stage == "full":
            return self.one_of((8, "commit"), (2, "abandon"))
        is_full = self.life.left() == 0
        if r.random() > (0.3 if is_full else 0.04):
            return self.one_of((10 if is_full else 60, self.take()), (24, "report"), (8, self.limit()))
        return None

    def change(self):
        """A change, now and then with a limit that it just meets or misses."""
        r = self.random
        plan, coats = self.plan_page(), self.map_page()
        if r.random() < 0.3:
            cost = Recipe(read_plan(plan.split()), read_map(coats.split())).cost()
            self.say(f"limit {r.choice([cost, cost, max(cost - 1, 0)])}")
        self.say("begin " + plan)
        if r.random() < 0.7:
            self.say("map " + coats)

    def make(self, count, has_long_lines=False):
        """A life of about so many lines, which may end within a change."""
        r, life = self.random, self.life
        self.opening()
        spots = sorted(r.sample(range(count), min(2, count))) if has_long_lines else []
        while len(life.lines) < count:
            if spots and len(life.lines) > spots[0]:
                life.say(LONG_LINES[2 - len(spots)])
                del spots[0]
            else:
                self.step()
        if r.random() < 0.5 and life.stage() == "survey":
            self.say("begin " + self.plan_page())
            if r.random() < 0.5:
                self.say("map " + self.map_page())
        return life


FORMS = {
    "plan",
    "opened",
    "taken N",
    "report level N taken N sum N radius N",
    "limited",
    "begun",
    "paged",
    "committed",
    "abandoned",
    "not allowed",
    "refused 21 place N",
    "refused 22 place N",
    "refused 23 place N",
    "refused 24 place N",
    "line N: unknown command",
    "line N: no recipe is open",
    "line N: a recipe is open",
    "line N: cannot read its words",
    "line N: refused 4 level N",
    "line N: refused 12 place N",
    "line N: refused 13 depth N interval N",
    "line N: refused 7",
    "line N: refused 8 row N",
    "line N: refused 9",
    "line N: another kind of plan",
    "line N: another kind of map",
}


def form_of(answer):
    """An answer without its numbers, but for that of a refusal."""
    return re.sub(r"(?<!refused )-?\b\d+", "N", answer)


def selftest(checks):
    """No report of a random life misses the true value, and its struck life has its answers."""
    forms = set()
    for seed in range(27):
        life = LifeMaker(seed, PLAN_KINDS[seed % 3], MAP_KINDS[seed // 3 % 3]).make(300)
        again = Life()
        for line in life.lines:
            if (again.say(line) or "").startswith("report"):
                level, taken, total, _ = again.report()
                checks.holds(is_near(level, total, again.held().map, taken), f"seed {seed}: {again.answers[-1]}")
        checks.same(again.answers, life.answers, f"seed {seed}")
        checks.holds(has_struck_answers(life), f"seed {seed}: the struck life has its answers")
        forms.update(map(form_of, life.answers))
    checks.same(forms, FORMS, "the forms of answers that were met")
    long = LifeMaker(3).make(50, True)
    checks.same([len(line) for line in long.lines if len(line) > 60000], [65534, 65537])
    checks.same([form_of(answer) for answer in long.answers].count("line N: more than N bytes"), 1)
    checks.same(live(long.lines).answers, long.answers)


if __name__ == "__main__":
    only_selftest(__doc__, selftest)
