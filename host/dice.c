/*
 * dice.c: see dice.h.
 */

#include "dice.h"

static uint64_t split(uint64_t *x)
{
    uint64_t z = *x += UINT64_C(0x9E3779B97F4A7C15);
    z = (z ^ z >> 30) * UINT64_C(0xBF58476D1CE4E5B9);
    z = (z ^ z >> 27) * UINT64_C(0x94D049BB133111EB);
    return z ^ z >> 31;
}

void dice_seed(struct dice *d, uint64_t seed, uint64_t stream)
{
    uint64_t x = seed;
    uint64_t mixed = split(&x) ^ stream;
    for (int i = 0; i < 4; i++) {
        d->s[i] = split(&mixed);
    }
}

static uint64_t turned(uint64_t x, int by)
{
    return x << by | x >> (64 - by);
}

uint64_t dice_roll(struct dice *d)
{
    uint64_t *s = d->s;
    uint64_t result = turned(s[1] * 5, 7) * 9;
    uint64_t t = s[1] << 17;
    s[2] ^= s[0];
    s[3] ^= s[1];
    s[1] ^= s[2];
    s[0] ^= s[3];
    s[2] ^= t;
    s[3] = turned(s[3], 45);
    return result;
}

uint32_t dice_below(struct dice *d, uint32_t limit)
{
    return (uint32_t)((dice_roll(d) >> 32) * limit >> 32);
}

uint32_t dice_from(struct dice *d, uint32_t low, uint32_t high)
{
    return low + dice_below(d, high - low + 1);
}

bool dice_one_in(struct dice *d, uint32_t n)
{
    return dice_below(d, n) == 0;
}

uint32_t dice_time(struct dice *d)
{
    static const uint32_t edge[] = {0,        1,        2,        50,         98,
                                    99,       100,      101,      16777213,   16777214,
                                    16777215, 16777216, 16777217, UINT32_MAX, UINT32_MAX - 16777215};
    switch (dice_below(d, 4)) {
    case 0:
        return dice_below(d, 120);
    case 1:
        return (uint32_t)dice_roll(d);
    default:
        return edge[dice_below(d, sizeof edge / sizeof edge[0])];
    }
}
