/* Places, and how they lie in bytes: docs/PLANS.md, docs/AUDIT.md. SHORT_CUTS picks short_cuts.h in place of plain.h. */
#include <stdbool.h>
#include <stdint.h>
#include <string.h>

enum { MOST_PLACES = 4096 };

/* 2^m places, x and y apart. */
struct places {
    int m, count;
    uint16_t x[MOST_PLACES], y[MOST_PLACES];
};

struct empty {
    int depth, interval;
};

static inline uint16_t le16(const uint8_t *at) { return at[0] | at[1] << 8; }

static inline void read_places(const uint8_t *at, struct places *places)
{
    for (int i = 0; i < places->count; i++) {
        places->x[i] = le16(at + 4 * i);
        places->y[i] = le16(at + 4 * i + 2);
    }
}

#ifdef SHORT_CUTS
#include "short_cuts.h"
#else
#include "plain.h"
#endif
