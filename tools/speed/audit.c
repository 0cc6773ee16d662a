/* netaudit in plain C: docs/AUDIT.md says what it reads and prints. */
#include "places.h"
#include <stdio.h>

enum { LONGEST = 4 * MOST_PLACES };

static uint8_t bytes[LONGEST + 1];
static struct places places;

int main(void)
{
    size_t size = fread(bytes, 1, sizeof bytes, stdin);
    if (ferror(stdin))
        return 2;
    if (size > LONGEST) {
        printf("refused 12 more than %d bytes\n", LONGEST);
        return 1;
    }
    int m = 0;
    while (m < 12 && size != (size_t)4 << m)
        m++;
    if (size != (size_t)4 << m) {
        printf("refused 12 place %zu\n", size);
        return 1;
    }
    places.m = m;
    places.count = 1 << m;
    read_places(bytes, &places);
    struct empty empty;
    if (!audit(&places, &empty)) {
        printf("refused 13 depth %d interval %d\n", empty.depth, empty.interval);
        return 1;
    }
    printf("places %d\nlevel %d\nintervals %d\nnet\n", places.count, m, (m + 1) * places.count);
    return 0;
}
