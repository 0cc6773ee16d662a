/* The same places and the same audit with short cuts: all places of a level at once, and tables. */

/* Layers keep a net, so a list is audited once, as it lies in the file. */
enum { AUDIT_LISTS_AGAIN = 0 };

/* Each digit of the index doubles the list: in its second half the digit is set. */
static inline void add_digit(uint16_t column, int count, uint16_t *at)
{
    for (int i = 0; i < count; i++)
        at[count + i] = at[i] ^ column;
}

static inline void hammersley(struct places *places)
{
    for (int i = 0; i < places->count; i++)
        places->x[i] = i << (16 - places->m);
    for (int r = 0; r < places->m; r++)
        add_digit(0x8000 >> r, 1 << r, places->y);
}

static inline void sobol(struct places *places)
{
    uint16_t column = 0x8000;
    for (int r = 0; r < places->m; r++) {
        add_digit(0x8000 >> r, 1 << r, places->x);
        add_digit(column, 1 << r, places->y);
        column ^= column >> 1;
    }
}

/* The flips hang on the top six bits alone, so there are 64 of them. */
static inline void shift_and_scramble(uint16_t shift, uint64_t word, int count, uint16_t *at)
{
    uint16_t masks[64];
    for (int top = 0; top < 64; top++) {
        masks[top] = shift;
        for (int k = 0; k < 6; k++)
            masks[top] ^= (word >> ((1 << k) + (top >> (6 - k))) & 1) << (15 - k);
    }
    for (int i = 0; i < count; i++)
        at[i] ^= masks[(at[i] ^ shift) >> 10];
}

/* Two loops, since the compiler finds eight numbers at once in the first. */
static inline bool audit(const struct places *places, struct empty *empty)
{
    static bool seen[MOST_PLACES];
    static uint16_t x[MOST_PLACES], y[MOST_PLACES], numbers[MOST_PLACES];
    int m = places->m;
    for (int i = 0; i < places->count; i++) {
        x[i] = places->x[i] >> (16 - m);
        y[i] = places->y[i] >> (16 - m);
    }
    for (int depth = 0; depth <= m; depth++) {
        uint16_t high = ~0u << (m - depth);
        memset(seen, 0, places->count);
        for (int i = 0; i < places->count; i++)
            numbers[i] = (x[i] & high) | y[i] >> depth;
        for (int i = 0; i < places->count; i++)
            seen[numbers[i]] = true;
        const bool *clear = memchr(seen, 0, places->count);
        if (clear) {
            *empty = (struct empty){depth, clear - seen};
            return false;
        }
    }
    return true;
}
