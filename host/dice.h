/*
 * dice.h: what is random in the tests. xoshiro256**, seeded by splitmix64; the
 * same on every machine.
 *
 * C does not settle which argument of a call is worked out first, so no call
 * and no initializer of these tests rolls twice.
 */

#ifndef DICE_H
#define DICE_H

#include <stdbool.h>
#include <stddef.h>
#include <stdint.h>

struct dice {
    uint64_t s[4];
};

void dice_seed(struct dice *d, uint64_t seed, uint64_t stream);
uint64_t dice_roll(struct dice *d);
uint32_t dice_below(struct dice *d, uint32_t limit); /* 0 to limit - 1 */
uint32_t dice_from(struct dice *d, uint32_t low, uint32_t high);
bool dice_one_in(struct dice *d, uint32_t n);
uint32_t dice_time(struct dice *d); /* ms, mostly at the edges */

#endif
