/* Each place by itself, as docs/PLANS.md defines it, and the audit as docs/AUDIT.md has it. */

/* The places of a list are audited as they lie in the file, and again when the layers have moved them. */
enum { AUDIT_LISTS_AGAIN = 1 };

static inline uint16_t reversed(uint16_t i)
{
    i = (i & 0x5555) << 1 | (i >> 1 & 0x5555);
    i = (i & 0x3333) << 2 | (i >> 2 & 0x3333);
    i = (i & 0x0F0F) << 4 | (i >> 4 & 0x0F0F);
    return i << 8 | i >> 8;
}

static inline void hammersley(struct places *places)
{
    for (int i = 0; i < places->count; i++) {
        places->x[i] = i << (16 - places->m);
        places->y[i] = reversed(i);
    }
}

static inline void sobol(struct places *places)
{
    uint16_t columns[12] = {0x8000};
    for (int r = 1; r < 12; r++)
        columns[r] = columns[r - 1] ^ columns[r - 1] >> 1;
    for (int i = 0; i < places->count; i++) {
        uint16_t y = 0;
        for (int r = 0; r < places->m; r++)
            if (i >> r & 1)
                y ^= columns[r];
        places->x[i] = reversed(i);
        places->y[i] = y;
    }
}

static inline uint16_t scrambled(uint64_t word, uint16_t x)
{
    unsigned flips = 0;
    for (int k = 0; k < 6; k++)
        flips = flips << 1 | (word >> ((1 << k) + (x >> (16 - k))) & 1);
    return x ^ flips << 10;
}

/* One coordinate of all places, shifted and scrambled. */
static inline void shift_and_scramble(uint16_t shift, uint64_t word, int count, uint16_t *at)
{
    for (int i = 0; i < count; i++)
        at[i] = scrambled(word, at[i] ^ shift);
}

/* Whether the places are a net, or else the first empty interval. */
static inline bool audit(const struct places *places, struct empty *empty)
{
    static bool seen[MOST_PLACES];
    int m = places->m;
    for (int depth = 0; depth <= m; depth++) {
        int rest = m - depth;
        unsigned high = ~0u << rest;
        memset(seen, 0, places->count);
        for (int i = 0; i < places->count; i++)
            seen[(places->x[i] >> (16 - m) & high) | places->y[i] >> (16 - rest)] = true;
        const bool *clear = memchr(seen, 0, places->count);
        if (clear) {
            *empty = (struct empty){depth, clear - seen};
            return false;
        }
    }
    return true;
}
