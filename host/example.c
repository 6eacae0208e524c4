/*
 * example.c: the two-contact sheet (SF_Equivalent) as firmware uses it. The
 * sheet is translated once, the record starts cold, and the scan task runs the
 * code turn by turn; a refusal ends in the safe state. The turns are the scans
 * that document 01 works by hand as P12, and the reference goes beside them.
 */

#include "chmurzeta.h"
#include "two_contact.h" /* examples/two-contact.sheet as an array */

#include <stdbool.h>
#include <stdio.h>

#if CHZ_VERSION / 100 != 1
#error "written for chmurzeta 0.1"
#endif

static uint8_t code[CHZ_CODE_MAX]; /* room for any sheet's code */
static uint32_t code_len;

/* What lasts from turn to turn. The library keeps nothing. */
static struct {
    uint32_t flags;
    uint16_t outputs;
    uint32_t clock;
} record;

/* The outputs as they go to the relays. */
static uint16_t relays;

/* A refusal comes back at every turn, so this state is not left. */
static bool safe_state(const char *call, uint32_t number, uint32_t place)
{
    relays = 0;
    printf("%s refused with number %u at %u: relays %u\n", call, (unsigned)number,
           (unsigned)place, (unsigned)relays);
    return false;
}

/* At start-up. */
static bool start(void)
{
    uint32_t place;
    uint32_t number = chz_translate(two_contact, sizeof two_contact, code,
                                    sizeof code, &code_len, &place);
    if (number != CHZ_OK) {
        return safe_state("chz_translate", number, place);
    }
    number = chz_cold_run(two_contact, sizeof two_contact, &record.flags,
                          &record.outputs, &record.clock, &place);
    if (number != CHZ_OK) {
        return safe_state("chz_cold_run", number, place);
    }
    relays = record.outputs;
    return true;
}

/* In the scan task: the inputs as read now, and the ms since the last turn. */
static bool turn(uint16_t inputs, uint32_t elapsed)
{
    uint32_t place;
    uint32_t number = chz_run(code, code_len, &record.flags, &record.outputs,
                              &record.clock, inputs, elapsed, &place);
    if (number != CHZ_OK) {
        return safe_state("chz_run", number, place);
    }
    relays = record.outputs;
    return true;
}

int main(void)
{
    /* Activate, A and B have weights 1, 2 and 4. */
    static const struct {
        uint16_t inputs;
        uint32_t ms;
    } scan[] = {{1, 10}, {3, 10}, {3, 99}, {3, 1}, {7, 10}, {1, 10}, {7, 10}, {6, 5}};

    /* The reference, to compare with: no part of the production path. */
    uint8_t state;
    uint16_t outputs;
    uint32_t clock, place;
    if (!start() || chz_cold_scan(two_contact, sizeof two_contact, &state, &outputs,
                                  &clock, &place) != CHZ_OK) {
        return 1;
    }
    for (size_t i = 0; i < sizeof scan / sizeof scan[0]; i++) {
        if (!turn(scan[i].inputs, scan[i].ms) ||
            chz_scan(two_contact, sizeof two_contact, &state, &outputs, &clock,
                     scan[i].inputs, scan[i].ms, &place) != CHZ_OK) {
            return 1;
        }
        printf("inputs %u, %u ms: state %u, outputs %u, clock %u\n",
               (unsigned)scan[i].inputs, (unsigned)scan[i].ms, (unsigned)state,
               (unsigned)record.outputs, (unsigned)record.clock);
        if (record.flags != UINT32_C(1) << state || record.outputs != outputs ||
            record.clock != clock) {
            return 1; /* cannot be: proved for every sheet and any scans */
        }
    }

    /* Memory that fails: word 5 of the code gets a bit more in its code byte. */
    code[4 * 5] ^= 0x10;
    if (turn(1, 10)) {
        return 1;
    }
    printf("the record is as it was: flags %u, outputs %u, clock %u\n",
           (unsigned)record.flags, (unsigned)record.outputs, (unsigned)record.clock);
    return 0;
}
