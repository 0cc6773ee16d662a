/* Sobol's points, and one number made of them all: LEVEL BITS COUNT as crates/sobol_speed takes them. Each point is found
   by itself from its index, as docs/PLANS.md defines it; ENDS_EARLY and TABLE end the loop over the digits with the last
   that is 1. GSL makes as many points one after another, by GSL's generator. */
#include <stdint.h>
#include <stdio.h>
#include <stdlib.h>

struct point {
    uint16_t x, y;
};

static inline uint32_t with_point(uint32_t sum, struct point at) { return sum * 69069 + ((uint32_t)at.x << 16 | at.y); }

#ifdef GSL
#include <gsl/gsl_qrng.h>

/* The points of level 12 but the first, which GSL leaves out, and then again. */
static uint32_t sum_of_points(int level, int bits, uint32_t count)
{
    enum { POINTS = 4095 };
    (void)level, (void)bits;
    gsl_qrng *points = gsl_qrng_alloc(gsl_qrng_sobol, 2);
    uint32_t sum = 0;
    for (uint32_t n = 0; n < count; n++) {
        double at[2];
        if (n % POINTS == 0)
            gsl_qrng_init(points);
        gsl_qrng_get(points, at);
        sum = with_point(sum, (struct point){at[0] * 65536, at[1] * 65536});
    }
    gsl_qrng_free(points);
    return sum;
}
#else
#ifdef TABLE
/* What the digits 0 and 1 of each weight add to a point. */
static const struct point digits[12][2] = {
    {{0, 0}, {0x8000, 0x8000}}, {{0, 0}, {0x4000, 0xC000}}, {{0, 0}, {0x2000, 0xA000}}, {{0, 0}, {0x1000, 0xF000}},
    {{0, 0}, {0x0800, 0x8800}}, {{0, 0}, {0x0400, 0xCC00}}, {{0, 0}, {0x0200, 0xAA00}}, {{0, 0}, {0x0100, 0xFF00}},
    {{0, 0}, {0x0080, 0x8080}}, {{0, 0}, {0x0040, 0xC0C0}}, {{0, 0}, {0x0020, 0xA0A0}}, {{0, 0}, {0x0010, 0xF0F0}},
};

static inline struct point point(int level, unsigned i)
{
    (void)level;
    struct point at = {0, 0};
    for (int r = 0; i; r++, i >>= 1) {
        at.x ^= digits[r][i & 1].x;
        at.y ^= digits[r][i & 1].y;
    }
    return at;
}
#else
static inline uint16_t reversed(uint16_t i)
{
    i = (i & 0x5555) << 1 | (i >> 1 & 0x5555);
    i = (i & 0x3333) << 2 | (i >> 2 & 0x3333);
    i = (i & 0x0F0F) << 4 | (i >> 4 & 0x0F0F);
    return i << 8 | i >> 8;
}

static inline struct point point(int level, unsigned i)
{
    struct point at = {reversed(i), 0};
    uint16_t column = 0x8000;
#ifdef ENDS_EARLY
    (void)level;
    for (; i; i >>= 1) {
#else
    for (int r = 0; r < level; r++, i >>= 1) {
#endif
        if (i & 1)
            at.y ^= column;
        column ^= column >> 1;
    }
    return at;
}
#endif

static uint32_t sum_of_points(int level, int bits, uint32_t count)
{
    uint32_t state = 0, sum = 0;
    for (uint32_t n = 0; n < count; n++) {
        state = state * 1664525 + 1013904223;
        unsigned i = (uint64_t)state >> (32 - bits);
        if (i >> level)
            exit(1);
        sum = with_point(sum, point(level, i));
    }
    return sum;
}
#endif

int main(int argc, char **argv)
{
    if (argc != 4)
        return 2;
    printf("%u\n", sum_of_points(atoi(argv[1]), atoi(argv[2]), strtoul(argv[3], NULL, 10)));
    return 0;
}
