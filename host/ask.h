/*
 * ask.h: one question to the library and to the second program, and every
 * answer compared. Each call is a `struct call`, which stands in the file of
 * its family (ask_sheets.c, ask_code.c, ask_scans.c). A new call is a new file
 * with its struct, a line in differ.c's list, and the cases that ask it.
 */

#ifndef ASK_H
#define ASK_H

#include "numbers.h"

#include <stddef.h>

/* What a call is given. `flags` is the state's number for chz_scan. */
struct given {
    const uint8_t *bytes;
    size_t len;
    size_t room;
    uint32_t flags;
    uint16_t outputs;
    uint32_t clock;
    uint16_t inputs;
    uint32_t elapsed;
};

/* What it answers. */
struct outcome {
    uint32_t number;
    uint32_t place;
    uint32_t length;
    uint32_t flags;
    uint16_t outputs;
    uint32_t clock;
};

/* Out-parameters with guard bytes between them. */
struct cells {
    uint8_t guard0[8];
    uint8_t state;
    uint8_t guard1[7];
    uint32_t flags;
    uint8_t guard2[4];
    uint16_t outputs;
    uint8_t guard3[6];
    uint32_t clock;
    uint8_t guard4[4];
    uint32_t place;
    uint8_t guard5[4];
    uint32_t length;
    uint8_t guard6[12];
};

/* Which cells a call may write, besides `place`. */
enum { GIVES_STATE = 1, GIVES_FLAGS = 2, GIVES_RECORD = 4, GIVES_CODE = 8 };

struct call {
    const char *name;
    uint32_t gives;
    bool scans;       /* it takes a record, inputs and elapsed time */
    uint32_t answers; /* bit n: it can answer with number n */
    uint32_t (*ask)(bool second, const struct given *g, struct cells *c, uint8_t *code);
    /* What is wrong with an answer whatever the bytes were, by document 01; may be NULL. */
    const char *(*unlawful)(const struct given *g, const struct outcome *o);
    uint64_t tally[NUMBERS];
};

/* The numbers from `low` to `high`, and 0 for accepted. */
#define ANSWERS(low, high) (((UINT32_C(2) << (high)) - (UINT32_C(1) << (low))) | 1u)

/* ---- Asking ---- */

enum { GUARD = 64, ROOM = 40000, BUFFER = GUARD + ROOM + GUARD, PEN_BYTES = 1 << 16 };

void ask_begin(uint64_t with_seed);

/* A family of cases begins; its name is printed with a mismatch. */
void ask_family(const char *name);

/* Random case `number` begins; 0 is the fixed part. */
void ask_case(uint64_t number);

/* Asks both, compares all, and gives the answer on which they agree. */
struct outcome both(struct call *call, const struct given *g, const struct expected *e);

/* What both wrote into the code buffer at the last translation. */
const uint8_t *ask_code_written(void);

uint64_t ask_answers(void);
uint64_t ask_seed(void);

/* For what a family compares by itself: says where we are, and ends. */
void describe(const char *what);
void print_outcome(const char *who, const struct outcome *o);
_Noreturn void stop(int status);
_Noreturn void fail(const char *what);

static const struct expected anything = {false, 0, 0};
static const struct expected fine = {true, 0, 0};

#endif
