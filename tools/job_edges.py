#!/usr/bin/env python3
"""Jobs at the edges of every rule of docs/JOBS.md, with texts that were worked out by hand.

`EDGES` has pairs of a job and its text. The texts are written here as a refusal's line or as the six numbers of a
report: level, points, taken, sum, radius, audit.
"""

from checking import only_selftest
from job_bytes import EXAMPLE, LAYERS, MAP, PLAN, boxes, cells, job, layers, le, points, steps
from job_reader import report, text_of
from meaning import hammersley

EDGES = []

# What the example is told, and what has the same figures.
GOOD = 2, 4, 4, 3, 9, 12


def each(told, *jobs):
    """These jobs are told this."""
    EDGES.extend((file, text_of(told)) for file in jobs)


def pairs(told, *rows):
    """The example's 55 bytes with each of these directories, by offsets and lengths."""
    each(told, *(le(2, *row) + EXAMPLE[12:] for row in rows))


def plans(told, *sections):
    """The example with each of these plan sections."""
    each(told, *(job(plan=section) for section in sections))


def layered(told, *sections):
    """The example with each of these layer sections."""
    each(told, *(job(layer=section) for section in sections))


def maps(told, *sections):
    """The example with each of these map sections."""
    each(told, *(job(coats=section) for section in sections))


def origin(told, *rows):
    """Where layers take (0, 0): a box of one place there."""
    each(told, *(job(b"\0\0", section, dot(x, y)) for section, x, y in rows))


def one_place(told, *rows):
    """Which coat a place has: a plan of that place and a map."""
    each(told, *(job(points(0, place), coats=section) for place, section in rows))


def dot(x, y, w=1):
    """A box of one place. It has the weight 4w, less where it touches x or y 0."""
    return boxes((x, x + 1, y, y + 1, w))


def eight(five=(40960, 40960), two=(16384, 16384)):
    """Hammersley's list of level 3, with other places of index 5 and 2."""
    return points(
        3,
        (0, 0),
        (8192, 32768),
        two,
        (24576, 49152),
        (32768, 8192),
        five,
        (49152, 24576),
        (57344, 57344),
    )


def even(p, q):
    """So many steps of 1 over the whole panel for x, and so many for y."""
    return steps([STEP] * p, [STEP] * q)


def cell(index, value):
    """One cell among cells of 0."""
    return cells([0] * index + [value] + [0] * (63 - index))


def whole(*weights):
    """Boxes over the whole panel."""
    return boxes(*((0, 65536, 0, 65536, w) for w in weights))


def tall(gs, hs):
    """Steps over the whole panel."""
    return steps([(g, 65536) for g in gs], [(h, 65536) for h in hs])


ROW = (0, 65536, 0, 65536, 1)
STEP = (1, 65536)
SQUARE = points(2, (0, 0), (0, 32768), (32768, 0), (32768, 32768))
LONG = [hammersley(12, i) for i in range(4096)]


# ---- the file and its directory -------------------------------------------------------------------------------

# The length of the file. The 12 bytes of a directory alone are room for three empty sections.
each("refused 1 section 0 place 0", b"", b"\0", b"\x0c", EXAMPLE[:11], bytes(11), b"\xff" * 11)
each("refused 2 section 0 place 0", EXAMPLE[:12], EXAMPLE[:13], bytes(12), bytes(13), b"\xff" * 12)
each("refused 3 section 1 place 12", le(2, 12, 0, 12, 0, 12, 0), le(2, 12, 0, 12, 0, 12, 0) + b"\0")
each("refused 2 section 0 place 4", EXAMPLE[:14], EXAMPLE[:34])
each("refused 2 section 0 place 8", EXAMPLE[:35], EXAMPLE[:54])
each(GOOD, EXAMPLE, EXAMPLE + b"\0", EXAMPLE + b"\xff" * 300, EXAMPLE * 2)

# Bytes that are not read.
each(
    GOOD,
    job(gaps=(1, 0, 0)),
    job(gaps=(0, 1, 0)),
    job(gaps=(0, 0, 1)),
    job(gaps=(9, 300, 5), rest=EXAMPLE),
    job(gaps=(9, 300, 5), fill=b"\0"),
)

# The first pair: before byte 12, past the end, sums of 65,536 and more, and with faults of other pairs.
pairs(
    "refused 2 section 0 place 0",
    (11, 2, 14, 21, 35, 20),
    (11, 3, 14, 21, 35, 20),
    (11, 0, 14, 21, 35, 20),
    (0, 0, 14, 21, 35, 20),
    (12, 44, 14, 21, 35, 20),
    (55, 1, 14, 21, 35, 20),
    (56, 0, 14, 21, 35, 20),
    (56, 0, 56, 0, 56, 0),
    (65535, 15, 14, 21, 35, 20),
    (65535, 1, 14, 21, 35, 20),
    (12, 65524, 14, 21, 35, 20),
    (12, 65526, 14, 21, 35, 20),
    (65535, 65535, 14, 21, 35, 20),
    (11, 2, 12, 21, 32, 99),
    (12, 44, 13, 99, 14, 99),
)
# The second pair: overlaps, before the end of the first, past the end, and with a fault of the third.
pairs(
    "refused 2 section 0 place 4",
    (12, 2, 13, 21, 35, 20),
    (12, 2, 13, 22, 35, 20),
    (12, 3, 14, 21, 35, 20),
    (12, 2, 13, 0, 35, 20),
    (12, 2, 12, 0, 35, 20),
    (12, 2, 12, 2, 14, 41),
    (33, 2, 12, 21, 35, 20),
    (12, 43, 54, 0, 55, 0),
    (12, 0, 11, 21, 35, 20),
    (12, 2, 11, 1, 35, 20),
    (12, 2, 0, 0, 35, 20),
    (12, 2, 14, 42, 55, 0),
    (12, 2, 14, 42, 56, 0),
    (12, 2, 55, 1, 56, 0),
    (12, 2, 56, 0, 56, 0),
    (12, 2, 65535, 36, 35, 20),
    (12, 2, 14, 65522, 35, 20),
    (12, 2, 13, 21, 33, 99),
)
# The third pair.
pairs(
    "refused 2 section 0 place 8",
    (12, 2, 14, 21, 34, 21),
    (12, 2, 14, 21, 34, 20),
    (12, 2, 14, 22, 35, 20),
    (12, 2, 14, 21, 34, 0),
    (12, 2, 14, 21, 14, 21),
    (12, 2, 34, 21, 14, 20),
    (12, 2, 14, 21, 11, 1),
    (12, 2, 14, 21, 0, 0),
    (12, 2, 14, 21, 35, 21),
    (12, 2, 14, 21, 36, 20),
    (12, 2, 14, 21, 55, 1),
    (12, 2, 14, 21, 56, 0),
    (12, 2, 14, 21, 35, 65535),
    (12, 2, 14, 21, 35, 65501),
    (12, 2, 14, 21, 65535, 1),
)
# Sections may be empty, touch, leave gaps, and begin where the file ends.
pairs("refused 3 section 1 place 12", (12, 0, 12, 0, 12, 0), (12, 0, 14, 21, 35, 20))
pairs("refused 3 section 1 place 55", (55, 0, 55, 0, 55, 0))
pairs("refused 4 section 1 place 14", (13, 1, 14, 21, 35, 20))
pairs("refused 5 section 1 place 14", (12, 43, 55, 0, 55, 0), (12, 3, 15, 20, 35, 20))
pairs("refused 6 section 2 place 14", (12, 2, 14, 0, 14, 0), (12, 2, 14, 41, 55, 0), (12, 2, 14, 20, 35, 20))
pairs("refused 6 section 2 place 55", (12, 2, 55, 0, 55, 0))
pairs("refused 7 section 3 place 35", (12, 2, 14, 21, 35, 0), (12, 2, 14, 21, 35, 19))
pairs("refused 7 section 3 place 36", (12, 2, 14, 21, 36, 19))
pairs("refused 7 section 3 place 55", (12, 2, 14, 21, 55, 0))


# ---- the plan -------------------------------------------------------------------------------------------------

# Its kind, its level, its length.
plans(
    "refused 3 section 1 place 12",
    b"",
    b"\3",
    b"\3\2",
    b"\xff\2",
    b"\3\x0d\0",
    points(0, (0, 0)).replace(b"\2", b"\3"),
)
each("refused 3 section 1 place 17", job(b"", gaps=(5, 0, 0)), job(b"\3\2", gaps=(5, 0, 0)))
plans(
    "refused 4 section 1 place 13",
    b"\0",
    b"\1",
    b"\2",
    b"\0\x0d",
    b"\1\x0d",
    b"\2\x0d",
    b"\0\xff",
    b"\1\xff",
    b"\2\xff",
    b"\0\x0d\0",
    b"\2\x0d\0\0\0\0",
)
plans("refused 5 section 1 place 14", b"\0\2\0", b"\1\2\0", b"\0\0\0\0\0\0", b"\1\0\0\0\0\0", b"\0\x0c\0")
LENGTHS = {0: (0, 3, 5, 8), 1: (4, 7, 9, 16), 2: (0, 15, 17), 3: (31, 33), 12: (4,)}
plans(
    "refused 5 section 1 place 14",
    *(bytes([2, level]) + bytes(size) for level, sizes in LENGTHS.items() for size in sizes),
)
each("refused 5 section 1 place 19", job(b"\0\2\0", gaps=(5, 0, 0)))
plans((0, 1, 1, 3, 3, 1), b"\0\0", b"\1\0", b"\2\0\0\0\0\0")
plans((1, 2, 2, 3, 6, 4), b"\0\1", b"\1\1", points(1, (0, 0), (32768, 32768)))
plans((1, 2, 2, 0, 6, 4), points(1, (0, 65535), (65535, 0)))
# A quarter of the places has coat 3.
plans((11, 2048, 2048, 1536, 36, 24576), b"\0\x0b", b"\1\x0b")
plans((12, 4096, 4096, 3072, 39, 53248), b"\0\x0c", b"\1\x0c")

# Which places a plan has.
each((2, 4, 4, 5, 60, 12), job(b"\0\2", coats=dot(16384, 32768, 5)), job(b"\1\2", coats=dot(16384, 49152, 5)))
each((2, 4, 4, 0, 60, 12), job(b"\1\2", coats=dot(16384, 32768, 5)), job(b"\0\2", coats=dot(16384, 49152, 5)))
each((3, 8, 8, -7, 112, 32), job(b"\1\3", coats=dot(40960, 8192, -7)), job(b"\0\3", coats=dot(40960, 40960, -7)))
each((3, 8, 8, 0, 112, 32), job(b"\0\3", coats=dot(40960, 8192, -7)), job(b"\1\3", coats=dot(40960, 40960, -7)))
each((0, 1, 1, 1, 4, 1), job(b"\2\0\1\0\3\x80", coats=dot(1, 32771)))
each((0, 1, 1, 9, 36, 1), job(points(0, (65535, 65535)), coats=dot(65535, 65535, 9)))

# Point lists: their order and their lower bits are free.
plans(
    GOOD,
    points(2, (0, 0), (16384, 32768), (32768, 16384), (49152, 49152)),
    points(2, (49152, 49152), (32768, 16384), (16384, 32768), (0, 0)),
    points(2, (16383, 16383), (32767, 49151), (49151, 32767), (65535, 65535)),
)
# No nets. Depth and interval are those of the list in the file, whatever its layers are.
plans(
    "refused 13 section 1 place 14 depth 0 interval 1",
    SQUARE,
    points(2, *[(0, 0)] * 4),
    points(1, (0, 0), (0, 0)),
    points(1, (0, 0), (32768, 0)),
    points(1, (0, 0), (32768, 32767)),
)
plans("refused 13 section 1 place 14 depth 0 interval 0", points(1, (0, 32768), (32768, 32768)))
plans(
    "refused 13 section 1 place 14 depth 1 interval 1",
    points(1, (0, 0), (0, 32768)),
    points(1, (32767, 0), (0, 32768)),
)
plans("refused 13 section 1 place 14 depth 1 interval 0", points(1, (32768, 0), (32768, 32768)))
each("refused 13 section 1 place 19 depth 0 interval 1", job(SQUARE, gaps=(5, 0, 0)))
each("refused 13 section 1 place 14 depth 0 interval 1", job(SQUARE, layers(swap=1)))
each("refused 13 section 1 place 14 depth 1 interval 1", job(points(1, (0, 0), (0, 32768)), layers(swap=1)))
each("refused 13 section 1 place 14 depth 1 interval 0", job(points(1, (32768, 0), (32768, 32768)), layers(s=32768)))
# A bit of x that is wrong is found at its own depth.
plans((3, 8, 8, 6, 12, 32), eight(), eight((49151, 49151)))
plans(
    "refused 13 section 1 place 14 depth 0 interval 5",
    eight((40960, 8192)),
    eight((40960, 40959)),
    eight((40960, 49152)),
)
plans("refused 13 section 1 place 14 depth 1 interval 6", eight((8192, 40960)))
plans("refused 13 section 1 place 14 depth 2 interval 5", eight((57344, 40960)), eight((49152, 40960)))
plans("refused 13 section 1 place 14 depth 3 interval 5", eight((32768, 40960)), eight((40959, 40960)))
# Two empty intervals of a depth, and then two at two depths.
plans("refused 13 section 1 place 14 depth 0 interval 2", eight((40960, 8192), (16384, 0)))
plans("refused 13 section 1 place 14 depth 0 interval 5", eight((40960, 8192), (49152, 16384)))
plans("refused 13 section 1 place 14 depth 1 interval 1", eight((57344, 40960), (49152, 16384)))
# The longest list.
plans((12, 4096, 4096, 3072, 39, 53248), points(12, *LONG))
plans("refused 13 section 1 place 14 depth 12 interval 4095", points(12, *LONG[:-1], (65504, 65520)))


# ---- the layers -----------------------------------------------------------------------------------------------

layered(
    "refused 6 section 2 place 14",
    b"",
    b"\0",
    bytes(20),
    bytes(22),
    b"\1" + bytes(19),
    b"\1" + bytes(21),
    layers(swap=2),
    layers(swap=3),
    layers(swap=255),
    b"\2" + bytes(19),
    b"\2" + bytes(21),
)
each("refused 6 section 2 place 18", job(layer=layers(swap=2), gaps=(1, 3, 0)))
layered(GOOD, layers(swap=1))
origin(
    (0, 1, 1, 1, 4, 1),
    (layers(1, 65535), 1, 65535),
    (layers(1, 65535, swap=1), 65535, 1),
    (layers(0, 0, 2**64 - 1, 2**64 - 1), 64512, 64512),
)
origin((0, 1, 1, 0, 4, 1), (layers(1, 65535), 65535, 1), (layers(1, 65535, swap=1), 1, 65535))
origin(
    (0, 1, 1, 1, 2, 1),
    (layers(x_word=2), 32768, 0),
    (layers(x_word=4), 16384, 0),
    (layers(y_word=4), 0, 16384),
    (layers(x_word=2**32), 1024, 0),
    (layers(y_word=2**32), 0, 1024),
    # the node is that of the coordinate that comes in
    (layers(x_word=6), 49152, 0),
    # the shift comes before the scramble, and the swap after both
    (layers(s=32768, x_word=4), 32768, 0),
    (layers(32768, 0, 4, 0, 1), 0, 32768),
    (layers(x_word=4, swap=1), 0, 16384),
    (layers(s=1, swap=1), 0, 1),
)
origin((0, 1, 1, 1, 1, 1), (layers(x_word=1, y_word=1), 0, 0), (layers(x_word=2**63, y_word=2**63), 0, 0))
each((0, 1, 1, 1, 4, 1), job(points(0, (1, 32771)), layers(swap=1), dot(32771, 1)))
each(
    (0, 1, 1, 1, 2, 1),
    job(points(0, (63488, 0)), layers(x_word=2**63), dot(64512, 0)),
    job(points(0, (0, 63488)), layers(y_word=2**63), dot(0, 64512)),
)


# ---- the map --------------------------------------------------------------------------------------------------

# Its kind, its counts, its length.
maps("refused 7 section 3 place 35", b"", b"\3", b"\xff", b"\3" + MAP[1:], b"\3" + bytes(128))
maps(
    "refused 7 section 3 place 35",
    b"\0",
    b"\0\0\0",
    MAP[:-1],
    MAP + b"\0",
    b"\0\0" + MAP[2:],
    b"\0\2" + MAP[2:],
    b"\0\xff" + MAP[2:],
    boxes(*[ROW] * 33),
    boxes(*[ROW] * 255),
    b"\0\x21" + boxes(*[ROW] * 32)[2:],
    b"\0\x20" + boxes(*[ROW] * 33)[2:],
    b"\0\x20" + boxes(*[ROW] * 31)[2:],
    boxes(*[(0, 0, 0, 0, 1)] * 33),
)
maps(
    "refused 7 section 3 place 35",
    b"\1",
    b"\1\0",
    b"\1\2",
    b"\1\0\0\0",
    even(1, 1)[:-1],
    even(1, 1) + b"\0",
    even(17, 16),
    even(16, 17),
    even(17, 0),
    even(0, 17),
    even(17, 17),
    even(32, 0),
    even(0, 32),
    b"\1\1\1" + even(1, 0)[3:],
    b"\1\1\0" + even(1, 1)[3:],
    b"\1\xff\1" + even(16, 16)[3:],
    b"\1\1\xff" + even(16, 16)[3:],
    steps([(1, 0)] * 17, []),
)
maps("refused 7 section 3 place 35", b"\2", *(b"\2" + bytes(size) for size in (64, 126, 127, 129, 130)))
each("refused 7 section 3 place 42", job(coats=b"\3", gaps=(2, 1, 4)))
maps((2, 4, 4, 0, 0, 12), b"\0\0", b"\1\0\0", even(1, 0), even(0, 1), even(16, 0), even(0, 16), cells([0] * 64))
maps((2, 4, 4, 124, 93, 12), boxes(*[ROW] * 31))
maps((2, 4, 4, 128, 96, 12), boxes(*[ROW] * 32))
maps((2, 4, 4, 60, 45, 12), even(15, 1), even(1, 15))
maps((2, 4, 4, 64, 48, 12), even(16, 1), even(1, 16))
maps((2, 4, 4, 1024, 768, 12), even(16, 16))
maps((2, 4, 4, 28, 21, 12), cells([7] * 64))

# Rows and their bounds: boxes begin at byte 37, steps at byte 38.
BAD_SIDES = (
    (0, 0),
    (5, 5),
    (6, 5),
    (0, 65537),
    (65535, 65535),
    (65536, 65536),
    (65536, 65537),
    (65536, 32768),
    (65537, 65538),
    (0, 98304),
    (0, 131072),
    (0, 2**32 - 1),
    (2**32 - 1, 1),
    (2**32 - 1, 2**32 - 1),
)
maps(
    "refused 8 section 3 place 37",
    *(boxes((*bounds, 3)) for low, high in BAD_SIDES for bounds in ((low, high, 0, 1), (0, 1, low, high))),
)
maps(
    "refused 8 section 3 place 37",
    boxes((0, 0, 0, 1, 0)),
    boxes((0, 0, 0, 1, 3), ROW),
    boxes((0, 0, 0, 1, 3), (0, 0, 0, 1, 3)),
    boxes((5, 5, 0, 1, 32767)),
    boxes((1, 0, 1, 0, 3)),
)
maps(
    "refused 8 section 3 place 55",
    boxes(ROW, (0, 1, 1, 1, 3)),
    boxes(ROW, (0, 0, 0, 1, 3), (0, 0, 0, 1, 3)),
    boxes((0, 65536, 0, 65536, 32767), (0, 0, 0, 1, 1)),
)
maps("refused 8 section 3 place 73", boxes(ROW, ROW, (0, 65537, 0, 1, 3)))
maps("refused 8 section 3 place 595", boxes(*[ROW] * 31, (0, 1, 1, 0, 1)))
each("refused 8 section 3 place 39", job(coats=boxes((0, 0, 0, 1, 3)), gaps=(1, 0, 1)))
maps(
    "refused 8 section 3 place 38",
    *(steps([(3, u)], [STEP]) for u in (0, 65537, 65541, 131072, 2**32 - 1)),
    steps([], [(3, 0)]),
    steps([(3, 0)], []),
    steps([(0, 0)], [(0, 0)]),
    steps([(-32768, 65537)], [(-32768, 1)]),
)
maps(
    "refused 8 section 3 place 44",
    *(steps([STEP], [(3, v)]) for v in (0, 65537, 65541, 131072, 2**32 - 1)),
    steps([STEP, (1, 0)], [(1, 0)]),
)
maps("refused 8 section 3 place 56", steps([STEP] * 2, [STEP, (1, 0)]), steps([STEP] * 3, [(1, 0)] * 3))
maps("refused 8 section 3 place 224", steps([STEP] * 16, [STEP] * 15 + [(1, 65537)]))
maps(
    GOOD,
    boxes((0, 1, 0, 1, 3)),
    steps([(3, 1)], [(1, 1)]),
    steps([(3, 32768)], [(1, 32768)]),
    steps([(-3, 1)], [(-1, 65536)]),
    steps([(1, 1), (2, 16384)], [(1, 16384)]),
)
maps((2, 4, 4, -3, 9, 12), boxes((0, 1, 0, 1, -3)), steps([(-3, 1)], [(1, 1)]), steps([(3, 1)], [(-1, 1)]))
maps((2, 4, 4, 12, 9, 12), boxes((0, 65536, 0, 65536, 3)), steps([(3, 65536)], [(1, 65536)]))
maps((2, 4, 4, 0, 18, 12), boxes((65535, 65536, 0, 65536, 3)), boxes((0, 65536, 65535, 65536, 3)))
# Which coat a place has.
one_place((0, 1, 1, 10, 10, 1), ((1, 32771), steps([(2, 2)], [(5, 32772)])))
one_place(
    (0, 1, 1, 0, 10, 1),
    ((1, 32771), steps([(2, 1)], [(5, 32772)])),
    ((1, 32771), steps([(2, 2)], [(5, 32771)])),
    ((1, 32771), steps([(2, 32772)], [(5, 2)])),
)
one_place(
    (0, 1, 1, 7, 14, 1),
    ((8192, 0), cell(1, 7)),
    ((0, 8192), cell(8, 7)),
    ((65535, 8191), cell(7, 7)),
    ((8191, 65535), cell(56, 7)),
)
one_place((0, 1, 1, 0, 14, 1), ((8191, 0), cell(1, 7)), ((0, 8192), cell(1, 7)))
one_place((0, 1, 1, -7, 28, 1), ((65535, 57344), cell(63, -7)), ((16383, 8192), cell(9, -7)))

# The weight: 16,384 is the most.
maps(
    (2, 4, 4, 65536, 49152, 12),
    whole(16384),
    whole(8192, 8192),
    whole(*[512] * 32),
    cells([16384] * 64),
    tall([128], [128]),
    tall([-128], [-128]),
    tall([16384], [1]),
    tall([-1], [-16384]),
    tall([1024] * 16, [1]),
    tall([32] * 16, [16] * 2),
)
maps(
    (2, 4, 4, -65536, 49152, 12),
    whole(-16384),
    tall([-16384], [1]),
    tall([1], [-16384]),
    cells([-16384] * 64),
)
maps(
    (2, 4, 4, 0, 49152, 12),
    whole(8192, -8192),
    boxes((1, 2, 1, 2, 4096)),
    boxes((1, 2, 1, 2, -4096)),
    boxes((0, 2, 2, 3, 8192)),
    tall([1, -1], [8192]),
    tall([64, -64], [64, 64]),
    cell(27, 4096),
    cell(27, -4096),
)
maps((2, 4, 4, 16384, 49152, 12), cell(0, 16384))
each((12, 4096, 4096, 67108864, 212992, 53248), job(b"\1\x0c", coats=tall([128], [128])))
each(
    (12, 4096, 4096, -67108864, 212992, 53248),
    job(b"\0\x0c", coats=whole(-16384)),
    job(b"\1\x0c", coats=cells([-16384] * 64)),
)
maps(
    (2, 4, 4, 0, 0, 12),
    tall([-32768], [0]),
    tall([-32768], []),
    tall([], [-32768] * 16),
    tall([32767] * 16, [0] * 16),
)
maps(
    "refused 9 section 3 place 35",
    whole(16385),
    whole(-16385),
    whole(32767),
    whole(-32768),
    whole(8193, -8192),
    whole(16384, 0, -1),
    whole(*[512] * 31, 513),
    whole(-32768, -32768),
    whole(*[-32768] * 32),
    boxes((0, 2, 2, 3, 8193)),
    boxes((1, 2, 1, 2, 4097)),
    boxes((1, 2, 1, 2, -4097)),
    boxes((1, 2, 1, 2, 16384)),
    boxes((1, 2, 1, 2, -32768)),
)
# The last two weigh 2^32 and 2^38.
maps(
    "refused 9 section 3 place 35",
    tall([16385], [1]),
    tall([1], [-16385]),
    tall([5], [3277]),
    tall([1, -1], [8193]),
    tall([1024] * 16, [1, -1]),
    tall([-32768], [1]),
    tall([1], [-32768]),
    tall([-32768], [-32768]),
    tall([-32768] * 2, [-32768] * 2),
    tall([-32768] * 16, [-32768] * 16),
)
maps(
    "refused 9 section 3 place 35",
    cells([16385] * 64),
    cells([-16385] * 64),
    cells([32767] * 64),
    cells([-32768] * 64),
    cells([-32768, 32767] * 32),
    cells([0] * 8 + [-32768] * 56),
    cell(0, 16385),
    cell(0, -32768),
    cell(27, 4097),
    cell(27, -32768),
    cell(63, 4097),
)
each("refused 9 section 3 place 37", job(coats=whole(16385), gaps=(1, 1, 0)))


# ---- faults in several sections: the first is told ------------------------------------------------------------

KIND = b"\3\2"
LEVEL = b"\0\x0d"
ODD = b"\0\2\0"
SWAP = layers(swap=2)
ROWS = boxes((0, 0, 0, 1, 1))
HEAVY = whole(16385)
each("refused 1 section 0 place 0", job(KIND, SWAP, b"")[:11])
each("refused 2 section 0 place 0", le(2, 11, 2, 13, 21, 33, 99) + job(KIND, SWAP, b"")[12:])
each("refused 2 section 0 place 4", le(2, 12, 2, 13, 21, 33, 99) + job(KIND, SWAP, b"")[12:])
each("refused 2 section 0 place 8", *(job(plan, SWAP, HEAVY)[:-1] for plan in (KIND, LEVEL, ODD, SQUARE, PLAN)))
each("refused 3 section 1 place 12", job(KIND, SWAP, b""), job(b"", b"", ROWS), job(KIND, coats=ROWS), job(KIND, SWAP))
each(
    "refused 4 section 1 place 13",
    job(LEVEL, SWAP, b""),
    job(b"\2", b"", b""),
    job(LEVEL, coats=HEAVY),
    job(LEVEL, SWAP),
)
each(
    "refused 5 section 1 place 14",
    job(ODD, SWAP, b""),
    job(ODD, b"", ROWS),
    job(ODD, coats=HEAVY),
    job(SQUARE + b"\0", SWAP),
)
each(
    "refused 13 section 1 place 14 depth 0 interval 1",
    job(SQUARE, SWAP, b""),
    job(SQUARE, b"", ROWS),
    job(SQUARE, coats=HEAVY),
)
each(
    "refused 6 section 2 place 14",
    job(layer=SWAP, coats=b""),
    job(layer=b"", coats=ROWS),
    job(layer=SWAP, coats=HEAVY),
)
each(
    "refused 7 section 3 place 35",
    job(coats=boxes(*[(0, 0, 0, 1, 32767)] * 33)),
    job(coats=HEAVY + b"\0"),
    job(coats=ROWS[:-1]),
)


def selftest(checks):
    """The reader of jobs gives each edge its text, and some edge has each number."""
    for n, (file, text) in enumerate(EDGES):
        checks.same(report(file), text, f"edge {n}, {file[:99].hex(' ')}")
    numbers = {text.split()[1] for _, text in EDGES if text.startswith("refused")}
    checks.same(numbers, {"1", "2", "3", "4", "5", "13", "6", "7", "8", "9"}, "the numbers of the edges")
    checks.holds(LAYERS == layers(), "the example has no layers that move a place")


if __name__ == "__main__":
    only_selftest(__doc__, selftest)
