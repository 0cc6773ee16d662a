#!/usr/bin/env python3
"""A reading of lives: the lines that `gauge` reads and its answers to them, by docs/GAUGE.md and docs/SURVEY.md.

A state is never kept: what a call is answered is worked out from the history of the calls before it.
"""

from typing import NamedTuple

from checking import only_selftest
from job_reader import Refused
from meaning import FIRST_LIMIT, Map, Plan, depth_cost, radius
from words import NoFile, Unread, exactly, number, read_map, read_plan

LONGEST_LINE = 65535
ENDING_LINE = 4194304
COMMANDS = ("open", "map", "take", "report", "limit", "begin", "commit", "abandon")
ALLOWED = {"survey": ("take", "report", "limit", "begin"), "half": ("map", "abandon"), "full": ("commit", "abandon")}


class Entry(NamedTuple):
    """A call that was allowed: its name, its number or its page, whether it was accepted, its line, its answer."""

    name: str
    value: int | Plan | Map | None
    is_accepted: bool
    line: str
    answer: str


class Recipe(NamedTuple):
    """A plan and a map."""

    plan: Plan
    map: Map

    def cost(self):
        """Its depth cost."""
        return depth_cost(self.plan.level, self.map.weight())


class Life:
    """Lines, their answers, and the history: the two lines of the opening and the calls that were allowed."""

    def __init__(self):
        self.lines = []
        self.answers = []
        self.history = []
        self.has_ended = False
        self._coats = None

    # what the history alone says

    def is_open(self):
        """Whether the opening is complete."""
        return len(self.history) >= 2

    def calls(self):
        """The history without the opening."""
        return self.history[2:]

    def stage(self):
        """A survey, a half change or a full change."""
        last = self.calls()[-1].name if self.calls() else None
        return {"begin": "half", "map": "full"}.get(last, "survey")

    def since(self):
        """The index in the history of the first call under the held recipe."""
        for at in range(len(self.history) - 1, 1, -1):
            if self.history[at].name == "commit" and self.history[at].is_accepted:
                return at + 1
        return 2

    def held(self):
        """The held recipe: that of the last change that was accepted, or of the opening."""
        at = self.since() - 3 if self.since() > 2 else 0
        return Recipe(self.history[at].value, self.history[at + 1].value)

    def taken(self):
        """How many places were taken under the held recipe."""
        calls = self.history[self.since() :]
        return sum(call.value for call in calls if call.name == "take" and call.is_accepted)

    def left(self):
        """How many places are left to be taken."""
        return 2 ** self.held().plan.level - self.taken()

    def limit(self):
        """The last limit that was accepted, or the first."""
        for call in reversed(self.calls()):
            if call.name == "limit" and call.is_accepted:
                return call.value
        return FIRST_LIMIT

    def total(self):
        """The coat of the held map, added over the places taken; the coats of a recipe are worked out once."""
        held = self.held()
        if self._coats is None or self._coats[0] is not held.plan or self._coats[1] is not held.map:
            self._coats = held.plan, held.map, held.map.coats(held.plan.places())
        return sum(self._coats[2][: self.taken()])

    def report(self):
        """The level, the count, the sum and the radius."""
        (plan, coats), taken = self.held(), self.taken()
        return plan.level, taken, self.total(), radius(plan.level, coats.weight(), taken)

    # lines

    def say(self, line):
        """Hears a line, and gives its answer, or None where there is none."""
        if self.has_ended:
            return None
        self.lines.append(line)
        size = len(line.encode(errors="surrogateescape"))
        here = f"line {len(self.lines)}: "
        if size > ENDING_LINE:
            self.has_ended = True
            answer = f"{here}more than {ENDING_LINE} bytes"
        elif line == "" or line.startswith("#"):
            return None
        elif size > LONGEST_LINE:
            answer = f"{here}more than {LONGEST_LINE} bytes"
        elif not line.isascii() and not is_text(line):
            answer = f"{here}cannot read its words"
        elif not line.strip(" "):
            return None
        else:
            answer = self._answer(line, here)
        self.answers.append(answer)
        return answer

    def _answer(self, line, here):
        words = [word for word in line.split(" ") if word]
        name, rest = words[0], words[1:]
        wrong = self._what_bars(name)
        if wrong:
            return here + wrong
        try:
            value = read_value(name, rest)
        except (Unread, NoFile, Refused) as error:
            return here + str(error)
        wrong = self._what_is_wrong_with(name, value)
        if wrong:
            return here + wrong
        is_accepted, answer = self._call(name, value)
        if is_accepted is not None:
            self.history.append(Entry(name, value, is_accepted, line, answer))
        return answer

    def _what_bars(self, name):
        if name not in COMMANDS:
            return "unknown command"
        if name == "open" and self.history:
            return "a recipe is open"
        if not self.is_open() and name != ("map" if self.history else "open"):
            return "no recipe is open"
        return None

    def _what_is_wrong_with(self, name, value):
        if name not in ("open", "begin", "map"):
            return None
        fault = value.fault()
        if fault:
            return fault
        page = "map" if name == "map" else "plan"
        opened = self.history[page == "map"].value if self.is_open() else value
        return None if value.kind == opened.kind else f"another kind of {page}"

    def _call(self, name, value):
        """Whether a call is accepted, or None where it is not allowed, and its answer."""
        if not self.is_open():
            return True, "opened" if self.history else "plan"
        if name not in ALLOWED[self.stage()]:
            return None, "not allowed"
        if name == "take":
            return self._take(value)
        if name == "report":
            return True, "report level %d taken %d sum %d radius %d" % self.report()
        if name == "limit":
            cost = self.held().cost()
            return (False, f"refused 23 place {cost}") if cost > value else (True, "limited")
        if name == "commit":
            cost = Recipe(self.history[-2].value, self.history[-1].value).cost()
            return (False, f"refused 24 place {cost}") if cost > self.limit() else (True, "committed")
        return True, {"begin": "begun", "map": "paged", "abandon": "abandoned"}[name]

    def _take(self, count):
        if count == 0:
            return False, "refused 21 place 0"
        if count > self.left():
            return False, f"refused 22 place {self.left()}"
        return True, f"taken {self.taken() + count}"

    # the struck life

    def struck(self):
        """What is left when all that was refused or given up is struck out: pairs of a line and its answer."""
        kept, change = self.history[:2], []
        for call in self.calls():
            if call.name in ("begin", "map"):
                change.append(call)
            elif call.name in ("commit", "abandon"):
                if call.name == "commit" and call.is_accepted:
                    kept = kept + change + [call]
                change = []
            elif call.is_accepted:
                kept = kept + [call]
        return [(call.line, call.answer) for call in kept + change]


def is_text(line):
    """Whether a line that was read from a file was UTF-8 there."""
    try:
        line.encode()
    except UnicodeEncodeError:
        return False
    return True


def read_value(name, words):
    """What a command asks for: a page, a number or nothing."""
    if name in ("open", "begin"):
        return read_plan(words)
    if name == "map":
        return read_map(words)
    if name == "take":
        return number(exactly(words, 1)[0], 32)
    if name == "limit":
        return number(exactly(words, 1)[0], 64)
    exactly(words, 0)
    return None


def live(lines):
    """The life of these lines."""
    life = Life()
    for line in lines:
        life.say(line)
    return life


def lines_of(data):
    """The lines of what `gauge` reads; a byte that is no UTF-8 stays as it is."""
    return data.decode(errors="surrogateescape").removesuffix("\n").split("\n")


def has_struck_answers(life):
    """Whether the struck life, lived by itself, has the answers that it had."""
    kept = life.struck()
    return live([line for line, _ in kept]).answers == [answer for _, answer in kept]


# ---- the self-test --------------------------------------------------------------------------------------------

BOX = "map boxes 0 32768 0 32768 3"
FIRST_PAGE = (
    ("open hammersley 2", "plan"),
    (BOX, "opened"),
    ("take 1", "taken 1"),
    ("report", "report level 2 taken 1 sum 3 radius 18"),
    ("limit 8", "refused 23 place 9"),
    ("limit 9", "limited"),
    ("begin hammersley 3", "begun"),
    ("take 1", "not allowed"),
    (BOX, "paged"),
    ("commit", "refused 24 place 12"),
    ("report", "report level 2 taken 1 sum 3 radius 18"),
    ("begin hammersley 1", "begun"),
    (BOX, "paged"),
    ("commit", "committed"),
    ("take 2", "taken 2"),
    ("report", "report level 1 taken 2 sum 3 radius 6"),
)


def test_calls(checks):
    """The life of the first page, takes, and what is struck out."""
    life = live([line for line, _ in FIRST_PAGE])
    checks.same(life.answers, [answer for _, answer in FIRST_PAGE])
    kept = ["limit 9", "report", "begin hammersley 1", BOX, "commit", "take 2", "report"]
    checks.same([line for line, _ in life.struck()][4:], kept)
    checks.holds(has_struck_answers(life), "the struck life is a life")
    takes = live(["open hammersley 2", BOX, "take 1", "take 3", "report", "take 1", "take 0", "limit 8"]).answers
    checks.same(takes[2:5], ["taken 1", "taken 4", "report level 2 taken 4 sum 3 radius 9"])
    checks.same(takes[5:], ["refused 22 place 0", "refused 21 place 0", "refused 23 place 9"])
    opening = ["open sobol 1", BOX]
    left_open = live([*opening, "begin sobol 2", BOX, "abandon", "begin sobol 3", "abandon", "begin sobol 2"])
    checks.same([line for line, _ in left_open.struck()], [*opening, "begin sobol 2"])


def test_lines(checks):
    """What is wrong with a line, in the order of the page."""
    opening = ["open hammersley 2", "map boxes"]
    for before, line, answer in (
        ([], "frob", "line 1: unknown command"),
        ([], "take 1", "line 1: no recipe is open"),
        (opening[:1], "take 1", "line 2: no recipe is open"),
        (opening[:1], "open sobol 1", "line 2: a recipe is open"),
        (opening, "take", "line 3: cannot read its words"),
        (opening, "report 1", "line 3: cannot read its words"),
        (opening, "take 4294967296", "line 3: cannot read its words"),
        (opening, "frob \udcff", "line 3: cannot read its words"),
        (opening, "frob é", "line 3: unknown command"),
        (opening, "begin job /", "line 3: cannot read the file"),
        (opening, "begin job /dev/zero", "line 3: refused 1 section 0 place 0"),
        (opening, "begin hammersley 13", "line 3: refused 4 level 13"),
        (opening, "begin points 0 0 0 0 0 0", "line 3: refused 12 place 12"),
        (opening, "begin points 0 0 0 0", "line 3: refused 13 depth 0 interval 1"),
        (opening, "map boxes 0 0 0 1 1", "line 3: refused 8 row 0"),
        (opening, "begin sobol 2", "line 3: another kind of plan"),
        (opening, "map steps and", "line 3: another kind of map"),
        (opening, "map boxes", "not allowed"),
        (opening, "", None),
        (opening, "   ", None),
        (opening, "# begin", None),
        (opening, " " * 65535, None),
        (opening, " " * 65536, "line 3: more than 65535 bytes"),
        (opening, "take" + " " * 65530 + "1", "taken 1"),
        (opening, "take" + " " * 65531 + "1", "line 3: more than 65535 bytes"),
        (opening, "#" * 4194304, None),
        (opening, "é" * 32767 + "x", "line 3: unknown command"),
        (opening, "é" * 32768, "line 3: more than 65535 bytes"),
        (opening, "x" * 4194304, "line 3: more than 65535 bytes"),
    ):
        life = live(before)
        checks.same(life.say(line), answer, line[:40])
        checks.holds(not life.has_ended, f"{line[:40]} ends nothing")
    for line in ("#" * 4194305, "é" * 2097153, " " * 5000000):
        life = live([*opening, line, "take 1", ""])
        checks.same(life.answers[2:], ["line 3: more than 4194304 bytes"], line[:40])
    many = live(["open sobol 0", "map boxes", *["#"] * 20000, "take 1", "take 1"])
    checks.same(many.answers[2:], ["taken 1", "refused 22 place 0"], "no number of lines is too many")
    checks.same(lines_of(b"a\n\nb"), ["a", "", "b"])
    checks.same(lines_of(b"a\n\xff\n"), ["a", "\udcff"])


def selftest(checks):
    """Worked lives, and each answer of the page."""
    test_calls(checks)
    test_lines(checks)


if __name__ == "__main__":
    only_selftest(__doc__, selftest)
