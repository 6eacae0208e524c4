/*
 * count.c: each call once, of the library and of the second program, on the
 * sheets of bench.c. count.sh counts the instructions of one of them at a time.
 */

#include "chmurzeta.h"
#include "make_sheets.h"
#include "second.h"

#include <string.h>

static struct plan plan;
static struct packed packed;
static uint8_t code[CHZ_CODE_LIMIT];

int main(int argc, char **argv)
{
    struct dice d;
    uint8_t state = 3;
    uint16_t inputs = 7;
    uint32_t clock = 0;
    plan_two_contact(&plan);
    if (argc > 1 && strcmp(argv[1], "largest") == 0) {
        dice_seed(&d, 1, 32);
        plan_largest(&plan, &d, 32);
        state = 31;
        inputs = 0xFFFF;
        clock = CHZ_CLOCK_MAX;
    }
    pack(&plan, &packed);

    uint32_t flags = UINT32_C(1) << state;
    uint32_t number = 0;
    for (int second = 0; second < 2; second++) {
        uint8_t s = state;
        uint32_t f = flags;
        uint16_t outputs = 0;
        uint32_t now = clock;
        uint32_t place, length;
        const uint8_t *b = packed.bytes;
        size_t n = packed.len;
        number += (second ? second_check_sheet : chz_check_sheet)(b, n, &place);
        number += (second ? second_translate : chz_translate)(b, n, code, sizeof code, &length, &place);
        number += (second ? second_scan : chz_scan)(b, n, &s, &outputs, &now, inputs, 1, &place);
        number += (second ? second_check_code : chz_check_code)(code, length, &place);
        now = clock;
        number += (second ? second_run : chz_run)(code, length, &f, &outputs, &now, inputs, 1, &place);
        number += (second ? second_cold_scan : chz_cold_scan)(b, n, &s, &outputs, &now, &place);
        number += (second ? second_cold_run : chz_cold_run)(b, n, &f, &outputs, &now, &place);
    }
    return number == 0 ? 0 : 1; /* all must be accepted, or a refusal was counted */
}
