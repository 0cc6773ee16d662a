#!/usr/bin/env python3
"""Random jobs, good ones and damaged ones, each with its text by job_reader.py.

What a seed gives must not change, since the samples are made of it: each draw stays where it is.
"""

from collections import Counter

from checking import only_selftest
from job_bytes import job, le, sections_of
from job_reader import figures_of, number_at, read_job, report
from meaning import MAP_KINDS, PLAN_KINDS, audit, is_near
from random_pages import Pages
from words import read_map, read_plan

SEED = 2024
GOOD_JOBS = 540
# How many damaged jobs of each number there are, and of those that are still accepted.
DAMAGED_JOBS = {
    "1": 60,
    "2": 160,
    "3": 120,
    "4": 120,
    "5": 120,
    "13": 160,
    "6": 120,
    "7": 140,
    "8": 140,
    "9": 120,
    "level": 300,
}


def parts_of(pages, kinds, has_bad_plan=False, has_bad_map=False):
    """The three sections of a job of these kinds, the gaps ahead of them, and the bytes after the last."""
    r = pages.random
    plan = pages.bad_plan("points") if has_bad_plan else pages.good_plan(kinds[0])
    coats = pages.bad_map(kinds[1]) if has_bad_map else pages.good_map(kinds[1])
    gaps = [pages.one_of((6, 0), (1, 1), (1, r.randint(2, 9))) for _ in range(3)]
    rest = r.randbytes(pages.one_of((3, 0), (1, r.randint(1, 9))))
    return sections_of(read_plan(plan.split()), read_map(coats.split())), gaps, rest


def turned(pages, section):
    """A point list with a bit of one x turned, which the audit finds at that bit's depth."""
    level, data = section[1], bytearray(section)
    index, depth = pages.random.randrange(2**level), pages.random.randint(1, max(1, level))
    at = 2 + 4 * index
    data[at : at + 2] = le(2, number_at(section, at, 2) ^ 1 << (16 - depth))
    return bytes(data)


def spoiled(pages, data):
    """Bytes with one changed, some cut or some put in, most often near their beginning."""
    r, data = pages.random, bytearray(data)
    at = r.randrange(min(len(data), r.choice([1, 3, 14, 10000])) + 1)
    how = r.randrange(6)
    if how == 0:
        data[at : at + 1] = r.randbytes(1)
    elif how == 1:
        data[at : at + 1] = bytes([r.randint(0, 3)])
    elif how == 2:
        data[at : at + 1] = bytes((byte + r.choice([1, 255])) % 256 for byte in data[at : at + 1])
    elif how == 3:
        del data[at : at + r.choice([1, 1, 2, 4, 18])]
    elif how == 4:
        data[at:at] = r.randbytes(r.choice([1, 1, 2, 4, 18]))
    else:
        del data[at:]
    return bytes(data)


def moved(pages, file):
    """A job with a pair of its directory moved, or two pairs changed over."""
    r, pairs = pages.random, [file[at : at + 4] for at in (0, 4, 8)]
    i, j = r.randrange(3), r.randrange(3)
    offset, length = number_at(pairs[i], 0, 2), number_at(pairs[i], 2, 2)
    by = r.choice([-2, -1, 1, 2, r.randint(-20, 20), r.getrandbits(16)])
    if r.random() < 0.15:
        pairs[i], pairs[j] = pairs[j], pairs[i]
    else:
        pairs[i] = le(2, *r.choice([(offset + by, length), (offset, length + by), (offset + by, length - by)]))
    return b"".join(pairs) + file[12:]


def damaged(pages, kinds):
    """A job that has a fault most often, or several."""
    r = pages.random
    how = pages.one_of(
        (1, "bytes"),
        (1, "list"),
        (1, "turn"),
        (3, "map"),
        (7, "sections"),
        (2, "pair"),
        (2, "file"),
    )
    if how == "bytes":
        return r.randbytes(r.randint(0, 40))
    if how in ("list", "turn"):
        kinds = "points", kinds[1]
    sections, gaps, rest = parts_of(pages, kinds, how == "list", how == "map")
    if how == "turn":
        sections[0] = turned(pages, sections[0])
    for _ in range(r.randint(1, 3) if how == "sections" else r.choice([0, 0, 0, 1])):
        at = r.randrange(3)
        is_spoiled = r.random() < 0.9
        sections[at] = spoiled(pages, sections[at]) if is_spoiled else r.randbytes(r.randint(0, 30))
    file = job(*sections, gaps, rest)
    if how == "pair":
        file = moved(pages, file)
    for _ in range(r.randint(1, 3) if how == "file" else 0):
        file = spoiled(pages, file)
    return file


def random_cases(seed=SEED):
    """Good jobs of all kinds with their texts, and damaged ones until there are so many of each number."""
    pages = Pages(seed)
    return good_cases(pages), damaged_cases(pages)


def good_cases(pages):
    """Good jobs of under 2,500 bytes."""
    cases = {}
    while len(cases) < GOOD_JOBS:
        kinds = PLAN_KINDS[len(cases) % 3], MAP_KINDS[len(cases) // 3 % 3]
        sections, gaps, rest = parts_of(pages, kinds)
        file = job(*sections, gaps, rest, pages.random.randbytes(1))
        if len(file) < 2500:
            cases[file] = report(file)
    return cases


def damaged_cases(pages):
    """Damaged jobs of at most 700 bytes."""
    cases, wanted = {}, Counter(DAMAGED_JOBS)
    while wanted.total():
        file = damaged(pages, (pages.random.choice(PLAN_KINDS), pages.random.choice(MAP_KINDS)))
        if len(file) > 700 or file in cases:
            continue
        text = report(file)
        number = text.split()[text.startswith("refused")]
        if wanted[number]:
            wanted[number] -= 1
            cases[file] = text
    return cases


def selftest(checks):
    """Of good jobs: bytes that are not read change nothing, places are nets, no sum misses the true value."""
    pages = Pages(1)
    for n in range(300):
        sections, gaps, rest = parts_of(pages, (PLAN_KINDS[n % 3], MAP_KINDS[n // 3 % 3]))
        file = job(*sections, gaps, rest)
        recipe = read_job(file)
        level, count, taken, total, _, _ = figures_of(recipe)
        checks.same((count, taken), (2**level, 2**level))
        checks.holds(is_near(level, total, recipe.map, taken), f"job {n}: the sum is near the truth")
        checks.same(audit(recipe.plan.places()), None, f"job {n}")
        checks.same(report(file), report(job(*sections)), f"job {n} without gaps")
        checks.same(report(file), report(job(*sections, gaps, fill=b"\0")), f"job {n} with other gaps")
    texts = [report(damaged(pages, ("points", "steps"))) for _ in range(2000)]
    numbers = {text.split()[1] for text in texts if text.startswith("refused")}
    checks.same(numbers | {"level"}, set(DAMAGED_JOBS), "the numbers that are met")


if __name__ == "__main__":
    only_selftest(__doc__, selftest)
