/*
 * differ.c: the proved library and the second program, asked the same and
 * held against each other (ask.h). What is asked stands by family in
 * ask_sheets.c, ask_code.c and ask_scans.c.
 *
 *     SEED=n   the seed of all random cases (there is a fixed one otherwise)
 *     COUNT=n  how many random cases
 *     CASE=n   only this random case, to look at a mismatch again
 *
 * Exit status: 0 all agree and every number was seen; 1 a mismatch; 2 no
 * mismatch, but something that should have been seen never was; 3 a call
 * touched memory that isn't its own.
 */

#include "cases.h"
#include "chmurzeta.h"

#include <inttypes.h>
#include <stdio.h>
#include <stdlib.h>
#include <string.h>

static struct call *const calls[] = {&check_sheet, &check_code, &translate, &cold_scan, &cold_run, &scan, &run};
enum { CALLS = sizeof calls / sizeof calls[0] };

static void one_case(uint64_t number)
{
    struct dice d;
    ask_case(number);
    dice_seed(&d, ask_seed(), UINT64_C(1) << 32 | number);
    switch (number % 32) {
    case 0:
    case 1:
    case 2:
    case 3:
        random_accepted(&d);
        break;
    case 4:
    case 5:
    case 6:
        random_mutated(&d);
        break;
    case 7:
    case 8:
    case 9:
        random_bytes(&d);
        break;
    case 10:
        if (number % 256 == 10) {
            random_rooms(&d);
        } else {
            random_code(&d);
        }
        break;
    case 11:
    case 12:
    case 13:
    case 14:
    case 15:
        random_code(&d);
        break;
    case 16:
    case 17:
    case 18:
        random_spoilt_twice(&d);
        break;
    default:
        random_aimed(&d);
        break;
    }
}

/* ---- The summary ---- */

static int summary(void)
{
    int missing = 0;
    uint32_t given = 0; /* the numbers that any call has */
    printf("\n| No. | Name |");
    for (int c = 0; c < CALLS; c++) {
        printf(" %s |", calls[c]->name);
        given |= calls[c]->answers;
    }
    printf("\n|---:|---|");
    for (int c = 0; c < CALLS; c++) {
        printf("---:|");
    }
    printf("\n");
    for (uint32_t n = 0; n < NUMBERS; n++) {
        uint64_t stray = 0;
        for (int c = 0; c < CALLS; c++) {
            stray += calls[c]->tally[n];
        }
        if ((given >> n & 1) == 0 && stray == 0) {
            continue;
        }
        printf("| %" PRIu32 " | %s |", n, number_name[n]);
        for (int c = 0; c < CALLS; c++) {
            uint64_t seen = calls[c]->tally[n];
            if (calls[c]->answers >> n & 1) {
                printf(" %" PRIu64 "%s |", seen, seen == 0 ? " NEVER SEEN" : "");
                missing += seen == 0;
            } else if (seen != 0) {
                printf(" %" PRIu64 " NOT ITS ANSWER |", seen);
                missing++;
            } else {
                printf(" |");
            }
        }
        printf("\n");
    }
    printf("\nSpoilt on purpose, and answered with the number and place expected:\n");
    for (uint32_t n = 1; n < NUMBERS; n++) {
        /* 14 and 18 are no fault of a sheet or of code. */
        if ((given >> n & 1) != 0 && n != CHZ_ROOM && n != CHZ_NO_STATE) {
            printf("  %2" PRIu32 " %-10s %8" PRIu64 "%s\n", n, number_name[n], aimed_seen[n],
                   aimed_seen[n] == 0 ? " NEVER SEEN" : "");
            missing += aimed_seen[n] == 0;
        }
    }
    missing += code_summary();
    missing += scans_summary();
    return missing;
}

static uint64_t from_environment(const char *name, uint64_t otherwise)
{
    const char *value = getenv(name);
    return value != NULL && value[0] != '\0' ? strtoull(value, NULL, 0) : otherwise;
}

int main(void)
{
    uint64_t seed = from_environment("SEED", 20240611);
    uint64_t count = from_environment("COUNT", 100000);
    const char *only = getenv("CASE");
    ask_begin(seed);

    if (only != NULL && strcmp(only, "0") != 0) {
        one_case(strtoull(only, NULL, 0));
        printf("case %s of seed %" PRIu64 ": %" PRIu64 " answers agree\n", only, seed, ask_answers());
        return 0;
    }

    sheets_paper();
    scans_paper();
    printf("P1 to P14 and the other worked scans: as document 01 has them.\n");
    sheets_small();
    code_small();
    code_limits();
    sheets_long();
    uint64_t fixed = ask_answers();
    for (uint64_t i = 1; i <= count; i++) {
        one_case(i);
    }

    int missing = summary();
    printf("\nseed %" PRIu64 ", %" PRIu64 " random cases: %" PRIu64 " answers compared (%" PRIu64
           " of them in the fixed part), all agree\n",
           seed, count, ask_answers(), fixed);
    if (missing != 0) {
        printf("but %d of the things to be seen never were, or were out of place\n", missing);
        return 2;
    }
    return 0;
}
