/*
 * make_sheets.h: sheets, right and wrong on purpose. A maker that spoils a
 * sheet also says which answer that must give, so that the two programs are
 * held against a third opinion where there is one.
 */

#ifndef MAKE_SHEETS_H
#define MAKE_SHEETS_H

#include "dice.h"
#include "numbers.h"

enum { TAG_INPUT = 0, TAG_NOT = 1, TAG_AND = 2, TAG_OR = 3 };

/* Above the paper's sizes, so that a sheet may break them. */
enum { PLAN_NODES = 80, SHEET_BYTES = 9216, PLAN_FIELDS = 4 + 32 + 128 * (4 + 2 * PLAN_NODES) };

/* Nodes in prefix order. */
struct plan_condition {
    uint32_t nodes;
    uint8_t tag[PLAN_NODES];
    uint8_t input[PLAN_NODES];
};

struct plan_transition {
    uint32_t source;
    uint32_t destination;
    uint32_t priority;
    uint32_t wait;
    struct plan_condition condition;
};

/* What a sheet says, before it is packed. */
struct plan {
    uint32_t states;
    uint32_t inputs;
    uint32_t outputs;
    uint32_t transitions;
    uint16_t row[32]; /* output a has weight 2^a */
    struct plan_transition transition[128];
};

/* A sheet packed, with the first bit of each of its fields in order. */
struct packed {
    uint8_t bytes[SHEET_BYTES];
    size_t len;
    uint32_t bits;
    uint32_t fields;
    uint32_t field[PLAN_FIELDS + 1]; /* and one more: the first bit after the last */
    uint32_t source_at[128];
    uint32_t destination_at[128];
    uint32_t tag_at[128][PLAN_NODES];
};

void plan_two_contact(struct plan *p);
void plan_random(struct plan *p, struct dice *d, uint32_t most_states);
/* 16 inputs, 16 outputs, 128 transitions, a condition of 31 nodes for each
   that the rules leave free; with 12 states it is the longest sheet there is. */
void plan_largest(struct plan *p, struct dice *d, uint32_t states);
void pack(const struct plan *p, struct packed *out);

/* Words of code by document 01's sum. */
uint32_t plan_words(const struct plan *p);

/* Spoils an accepted plan so that it is refused with `number`, 1 to 13, and
   packs it. False where this plan can't be spoiled that way. */
bool spoil(struct plan *p, struct dice *d, uint32_t number, struct packed *out, struct expected *e);

/* Cuts a sheet so spoilt, though not for 1 or 6: what comes first is given. */
void cut(struct packed *p, struct dice *d, struct expected *e);

#endif
