/* netreport in plain C: docs/JOBS.md says what it reads and prints. BRANCHES picks the loop over boxes that branches. */
#include "places.h"
#include <stdio.h>
#include <stdlib.h>

enum { LONGEST = 65535, HEAVIEST = 16384, PANEL_SIDE = 65536, MOST_BOXES = 32, MOST_STEPS = 16 };

struct section {
    const uint8_t *at;
    unsigned start, size;
};

enum plan_kind { HAMMERSLEY, SOBOL, POINTS };

struct layers {
    bool swap;
    uint16_t s, t;
    uint64_t x_word, y_word;
};

enum map_kind { BOXES, STEPS, CELLS };

/* Boxes row by row, or with short cuts column by column. */
struct boxes {
    int count;
#ifdef SHORT_CUTS
    int32_t x0[MOST_BOXES], x1[MOST_BOXES], y0[MOST_BOXES], y1[MOST_BOXES], w[MOST_BOXES];
#define BOX(boxes, field, r) ((boxes)->field[r])
#else
    struct {
        int32_t x0, x1, y0, y1;
        int16_t w;
    } rows[MOST_BOXES];
#define BOX(boxes, field, r) ((boxes)->rows[r].field)
#endif
};

struct steps {
    int count;
    int32_t bound[MOST_STEPS], value[MOST_STEPS];
};

struct map {
    enum map_kind kind;
    int64_t weight; /* that of steps can be 2^38 before it is refused */
    struct boxes boxes;
    struct steps x, y;
    int cells[9][9]; /* with a row and a column of 0 past the edge */
};

static uint8_t job[LONGEST + 1];
static struct places places;
static struct map map;

static void refuse(int number, int section, unsigned place)
{
    printf("refused %d section %d place %u\n", number, section, place);
    exit(0);
}

static uint32_t le32(const uint8_t *at) { return le16(at) | (uint32_t)le16(at + 2) << 16; }

static uint64_t le64(const uint8_t *at) { return le32(at) | (uint64_t)le32(at + 4) << 32; }

static int signed16(const uint8_t *at) { return (int16_t)le16(at); }

static void read_directory(size_t size, struct section sections[3])
{
    if (size < 12 || size > LONGEST)
        refuse(1, 0, 0);
    unsigned end = 12;
    for (int i = 0; i < 3; i++) {
        struct section section = {.start = le16(job + 4 * i), .size = le16(job + 4 * i + 2)};
        if (section.start < end || section.start + section.size > size)
            refuse(2, 0, 4 * i);
        section.at = job + section.start;
        end = section.start + section.size;
        sections[i] = section;
    }
}

static enum plan_kind read_plan(struct section section)
{
    const uint8_t *at = section.at;
    if (section.size < 1 || at[0] > POINTS)
        refuse(3, 1, section.start);
    if (section.size < 2 || at[1] > 12)
        refuse(4, 1, section.start + 1);
    enum plan_kind kind = at[0];
    places.m = at[1];
    places.count = 1 << at[1];
    if (section.size != (kind == POINTS ? 2u + 4 * places.count : 2u))
        refuse(5, 1, section.start + 2);
    if (kind == HAMMERSLEY)
        hammersley(&places);
    else if (kind == SOBOL)
        sobol(&places);
    else {
        struct empty empty;
        read_places(at + 2, &places);
        if (!audit(&places, &empty)) {
            printf("refused 13 section 1 place %u depth %d interval %d\n", section.start + 2, empty.depth, empty.interval);
            exit(0);
        }
    }
    return kind;
}

static struct layers read_layers(struct section section)
{
    const uint8_t *at = section.at;
    if (section.size != 21 || at[0] > 1)
        refuse(6, 2, section.start);
    return (struct layers){at[0], le16(at + 1), le16(at + 3), le64(at + 5), le64(at + 13)};
}

static void move(struct layers layers)
{
    shift_and_scramble(layers.s, layers.x_word, places.count, places.x);
    shift_and_scramble(layers.t, layers.y_word, places.count, places.y);
    if (layers.swap)
        for (int i = 0; i < places.count; i++) {
            uint16_t x = places.x[i];
            places.x[i] = places.y[i];
            places.y[i] = x;
        }
}

static int64_t read_boxes(struct section section, int count)
{
    struct boxes *boxes = &map.boxes;
    int64_t weight = 0;
    boxes->count = count;
    for (int r = 0; r < count; r++) {
        int byte = 2 + 18 * r;
        const uint8_t *at = section.at + byte;
        uint32_t x0 = le32(at), x1 = le32(at + 4), y0 = le32(at + 8), y1 = le32(at + 12);
        if (x0 >= x1 || x1 > PANEL_SIDE || y0 >= y1 || y1 > PANEL_SIDE)
            refuse(8, 3, section.start + byte);
        BOX(boxes, x0, r) = x0;
        BOX(boxes, x1, r) = x1;
        BOX(boxes, y0, r) = y0;
        BOX(boxes, y1, r) = y1;
        BOX(boxes, w, r) = signed16(at + 16);
        weight += abs(BOX(boxes, w, r)) * (x0 > 0 ? 2 : 1) * (y0 > 0 ? 2 : 1);
    }
    return weight;
}

/* The values without their signs, added. The steps begin with the row of number `first`. */
static int64_t read_steps(struct section section, int first, int count, struct steps *steps)
{
    int64_t magnitude = 0;
    steps->count = count;
    for (int r = 0; r < count; r++) {
        int byte = 3 + 6 * (first + r);
        uint32_t bound = le32(section.at + byte);
        if (bound < 1 || bound > PANEL_SIDE)
            refuse(8, 3, section.start + byte);
        steps->bound[r] = bound;
        steps->value[r] = signed16(section.at + byte + 4);
        magnitude += abs(steps->value[r]);
    }
    return magnitude;
}

static int64_t read_cells(struct section section)
{
    int(*c)[9] = map.cells;
    int64_t weight = 0;
    for (int r = 0; r < 8; r++)
        for (int s = 0; s < 8; s++)
            c[r][s] = signed16(section.at + 1 + 2 * (8 * r + s));
    for (int r = 0; r < 8; r++)
        for (int s = 0; s < 8; s++)
            weight += abs(c[r][s] - c[r + 1][s] - c[r][s + 1] + c[r + 1][s + 1]);
    return weight;
}

static void read_map(struct section section)
{
    const uint8_t *at = section.at;
    unsigned size = section.size;
    if (size >= 2 && at[0] == BOXES && at[1] <= MOST_BOXES && size == 2u + 18 * at[1]) {
        map.kind = BOXES;
        map.weight = read_boxes(section, at[1]);
    } else if (size >= 3 && at[0] == STEPS && at[1] <= MOST_STEPS && at[2] <= MOST_STEPS && size == 3u + 6 * (at[1] + at[2])) {
        map.kind = STEPS;
        map.weight = read_steps(section, 0, at[1], &map.x);
        map.weight *= read_steps(section, at[1], at[2], &map.y);
    } else if (size == 129 && at[0] == CELLS) {
        map.kind = CELLS;
        map.weight = read_cells(section);
    } else
        refuse(7, 3, section.start);
    if (map.weight > HEAVIEST)
        refuse(9, 3, section.start);
}

static int boxes_coat(const struct boxes *boxes, int x, int y)
{
    int sum = 0;
    for (int r = 0; r < boxes->count; r++) {
#ifdef BRANCHES
        if (BOX(boxes, x0, r) <= x && x < BOX(boxes, x1, r) && BOX(boxes, y0, r) <= y && y < BOX(boxes, y1, r))
            sum += BOX(boxes, w, r);
#else
        int inside = (BOX(boxes, x0, r) <= x) & (x < BOX(boxes, x1, r)) & (BOX(boxes, y0, r) <= y) & (y < BOX(boxes, y1, r));
        sum += -inside & BOX(boxes, w, r);
#endif
    }
    return sum;
}

static int height(const struct steps *steps, int at)
{
    int sum = 0;
    for (int r = 0; r < steps->count; r++)
        sum += -(at < steps->bound[r]) & steps->value[r];
    return sum;
}

static int coat(int x, int y)
{
    switch (map.kind) {
    case BOXES:
        return boxes_coat(&map.boxes, x, y);
    case STEPS:
        return height(&map.x, x) * height(&map.y, y);
    default:
        return map.cells[y >> 13][x >> 13];
    }
}

int main(void)
{
    size_t size = fread(job, 1, sizeof job, stdin);
    if (ferror(stdin))
        return 1;
    struct section sections[3];
    read_directory(size, sections);
    enum plan_kind kind = read_plan(sections[0]);
    struct layers layers = read_layers(sections[1]);
    read_map(sections[2]);
    move(layers);
    long sum = 0;
    for (int i = 0; i < places.count; i++)
        sum += coat(places.x[i], places.y[i]);
    struct empty empty;
    if ((kind != POINTS || AUDIT_LISTS_AGAIN) && !audit(&places, &empty))
        return 1;
    printf("level %d\npoints %d\ntaken %d\nsum %ld\n", places.m, places.count, places.count, sum);
    printf("radius %ld\naudit %d\n", (long)((places.m + 1) * map.weight), (places.m + 1) * places.count);
    return 0;
}
