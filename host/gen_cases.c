/*
 * gen_cases.c: writes a file of cases with the second program's answers to
 * standard output, for a program in another language to run again. The same
 * file on every machine.
 *
 * THE FILE. All numbers are unsigned, most significant byte first.
 *
 *   4 bytes: how many cases follow, one after the other with no gap.
 *
 *   Each case, 48 bytes and then its byte strings:
 *
 *     at  bytes
 *      0    1    the call: 1 check_sheet, 2 check_code, 3 translate,
 *                4 cold_scan, 5 cold_run, 6 scan, 7 run
 *      1    1    ANSWER: the number, 0 where accepted
 *      2    2    given: the input word                        (scan, run)
 *      4    4    ANSWER: the place
 *      8    4    given: elapsed ms                            (scan, run)
 *     12    4    given: the state's number (scan) or the flag word (run)
 *     16    4    given: the clock                             (scan, run)
 *     20    2    given: the output word                       (scan, run)
 *     22    2    ANSWER: the output word     (cold_scan, cold_run, scan, run)
 *     24    4    ANSWER: the state's number (cold_scan, scan) or the flag
 *                word (cold_run, run)
 *     28    4    ANSWER: the clock           (cold_scan, cold_run, scan, run)
 *     32    4    given: bytes of room in the code buffer      (translate)
 *     36    4    ANSWER: the length                           (translate)
 *     40    4    L, the bytes of the sheet or code given
 *     44    4    C, the bytes of code that translate wrote; equals the length
 *     48    L    the sheet or code given
 *     48+L  C    ANSWER: the code
 *
 *   A field that a call does not have is 0. Of translate's buffer every byte
 *   from C on must be as it was before the call.
 */

#include "chmurzeta.h"
#include "make_code.h"
#include "make_sheets.h"
#include "second.h"

#include <stdio.h>
#include <stdlib.h>
#include <string.h>

enum call { CHECK_SHEET = 1, CHECK_CODE, TRANSLATE, COLD_SCAN, COLD_RUN, SCAN, RUN };

static uint8_t file[1 << 20];
static size_t size = 4;
static uint32_t cases;
static uint32_t tally[8][NUMBERS];

static struct plan plan;
static struct packed packed;
static struct text text, spoilt;
static uint8_t code[CHZ_CODE_LIMIT];
static struct dice dice;

struct record {
    uint32_t flags;
    uint16_t outputs;
    uint32_t clock;
};

static void put(uint32_t width, uint32_t value)
{
    while (width-- > 0) {
        file[size++] = (uint8_t)(value >> (8 * width));
    }
}

/* Asks the second program, writes the case, and gives the record it left. */
static struct record keep(enum call call, const uint8_t *bytes, size_t len, size_t room, struct record r, uint16_t inputs,
                          uint32_t elapsed)
{
    uint8_t state = (uint8_t)r.flags;
    struct record out = r;
    uint32_t place = 0;
    uint32_t length = 0;
    uint32_t number;
    switch (call) {
    case CHECK_SHEET:
        number = second_check_sheet(bytes, len, &place);
        break;
    case CHECK_CODE:
        number = second_check_code(bytes, len, &place);
        break;
    case TRANSLATE:
        number = second_translate(bytes, len, code, room, &length, &place);
        break;
    case COLD_SCAN:
        number = second_cold_scan(bytes, len, &state, &out.outputs, &out.clock, &place);
        out.flags = state;
        break;
    case COLD_RUN:
        number = second_cold_run(bytes, len, &out.flags, &out.outputs, &out.clock, &place);
        break;
    case SCAN:
        number = second_scan(bytes, len, &state, &out.outputs, &out.clock, inputs, elapsed, &place);
        out.flags = state;
        break;
    default:
        number = second_run(bytes, len, &out.flags, &out.outputs, &out.clock, inputs, elapsed, &place);
        break;
    }
    if (size + 48 + len + length > sizeof file) {
        fprintf(stderr, "too many cases\n");
        exit(1);
    }
    put(1, call);
    put(1, number);
    put(2, inputs);
    put(4, place);
    put(4, elapsed);
    put(4, r.flags);
    put(4, r.clock);
    put(2, r.outputs);
    put(2, out.outputs);
    put(4, out.flags);
    put(4, out.clock);
    put(4, (uint32_t)room);
    put(4, length);
    put(4, (uint32_t)len);
    put(4, length);
    if (len != 0) {
        memcpy(file + size, bytes, len);
        size += len;
    }
    memcpy(file + size, code, length);
    size += length;
    cases++;
    tally[call][number]++;
    return out;
}

static const struct record zeros = {0, 0, 0};

static struct record plain(enum call call, const uint8_t *bytes, size_t len)
{
    return keep(call, bytes, len, 0, zeros, 0, 0);
}

static struct record some_record(uint32_t flags)
{
    struct record r = {flags, 0, 0};
    r.outputs = (uint16_t)dice_roll(&dice);
    r.clock = dice_time(&dice);
    return r;
}

static void any_run(const uint8_t *bytes, size_t len)
{
    struct record r = some_record(dice_one_in(&dice, 4) ? 0 : (uint32_t)dice_roll(&dice));
    uint16_t inputs = (uint16_t)dice_roll(&dice);
    keep(RUN, bytes, len, 0, r, inputs, dice_time(&dice));
}

static void any_scan(const uint8_t *bytes, size_t len, uint32_t state)
{
    struct record r = some_record(state);
    uint16_t inputs = (uint16_t)dice_roll(&dice);
    keep(SCAN, bytes, len, 0, r, inputs, dice_time(&dice));
}

/* A refused sheet in all five calls that take one. */
static void refused(const uint8_t *bytes, size_t len)
{
    plain(CHECK_SHEET, bytes, len);
    plain(COLD_SCAN, bytes, len);
    plain(COLD_RUN, bytes, len);
    keep(TRANSLATE, bytes, len, dice_one_in(&dice, 2) ? 0 : 400, zeros, 0, 0);
    any_scan(bytes, len, dice_below(&dice, 256));
}

static void paper(void)
{
    static const uint8_t m[9] = {0x08, 0x00, 0x08, 0x20, 0x00, 0x00, 0x00, 0x00, 0x80};
    static const uint8_t one_byte[1] = {0};
    static const struct {
        uint8_t at, byte;
    } changed[] = {{8, 0x81}, {3, 0x40}, {3, 0x00}, {2, 0x00}, {8, 0x82}};
    static const struct {
        uint16_t inputs;
        uint32_t ms;
    } step[] = {{1, 10}, {3, 10}, {3, 99}, {3, 1}, {7, 10}, {1, 10}, {7, 10}, {6, 5}};
    uint8_t bytes[10];

    refused(NULL, 0);
    refused(one_byte, 1);
    for (size_t i = 0; i < sizeof changed / sizeof changed[0]; i++) {
        memcpy(bytes, m, 9);
        bytes[changed[i].at] = changed[i].byte;
        refused(bytes, 9);
    }
    memcpy(bytes, m, 9);
    bytes[9] = 0;
    refused(bytes, 10);
    refused(m, 8);
    plain(CHECK_SHEET, m, 9);
    for (size_t room = 60; room <= 68; room++) {
        keep(TRANSLATE, m, 9, room, zeros, 0, 0);
    }

    plan_two_contact(&plan);
    pack(&plan, &packed);
    plain(CHECK_SHEET, packed.bytes, packed.len);
    keep(TRANSLATE, packed.bytes, packed.len, 271 * 4, zeros, 0, 0);
    static uint8_t own[271 * 4];
    memcpy(own, code, sizeof own);
    plain(CHECK_CODE, own, sizeof own);
    struct record cold = plain(COLD_SCAN, packed.bytes, packed.len);
    struct record cold_run = plain(COLD_RUN, packed.bytes, packed.len);
    struct record s = cold;
    struct record r = cold_run;
    for (size_t i = 0; i < sizeof step / sizeof step[0]; i++) {
        s = keep(SCAN, packed.bytes, packed.len, 0, s, step[i].inputs, step[i].ms);
        r = keep(RUN, own, sizeof own, 0, r, step[i].inputs, step[i].ms);
        if (i == 2) { /* P13 and P14 */
            keep(SCAN, packed.bytes, packed.len, 0, s, 7, 1);
            keep(SCAN, packed.bytes, packed.len, 0, s, 7, 0);
            keep(RUN, own, sizeof own, 0, r, 7, 1);
            keep(RUN, own, sizeof own, 0, r, 7, 0);
        }
    }
    keep(SCAN, packed.bytes, packed.len, 0, cold, 7, 10);
    keep(SCAN, packed.bytes, packed.len, 0, cold, 6, 50);
    keep(RUN, own, sizeof own, 0, cold_run, 7, 10);
    keep(RUN, own, sizeof own, 0, cold_run, 6, 50);
}

static void accepted_sheet(uint32_t most_states, int scans)
{
    static uint8_t own[CHZ_CODE_LIMIT];
    plan_random(&plan, &dice, most_states);
    pack(&plan, &packed);
    uint32_t needed = 4 * plan_words(&plan);
    plain(CHECK_SHEET, packed.bytes, packed.len);
    keep(TRANSLATE, packed.bytes, packed.len, needed - 1, zeros, 0, 0);
    keep(TRANSLATE, packed.bytes, packed.len, needed + dice_below(&dice, 9), zeros, 0, 0);
    memcpy(own, code, needed);
    struct record s = plain(COLD_SCAN, packed.bytes, packed.len);
    struct record r = plain(COLD_RUN, packed.bytes, packed.len);
    for (int i = 0; i < scans; i++) {
        uint16_t inputs = (uint16_t)dice_roll(&dice);
        if (!dice_one_in(&dice, 6)) {
            inputs |= 1;
        }
        uint32_t elapsed = dice_one_in(&dice, 2) ? dice_time(&dice) : dice_below(&dice, 150);
        s = keep(SCAN, packed.bytes, packed.len, 0, s, inputs, elapsed);
        if (i < 2) {
            r = keep(RUN, own, needed, 0, r, inputs, elapsed);
        }
    }
    for (int i = 0; i < 3; i++) {
        any_scan(packed.bytes, packed.len, dice_below(&dice, plan.states));
    }
    any_scan(packed.bytes, packed.len, dice_from(&dice, plan.states, 255));
}

static void spoilt_sheets(void)
{
    struct expected e;
    for (uint32_t number = CHZ_SHORT; number <= CHZ_ACTIVITY; number++) {
        for (int kept = 0; kept < 16;) {
            plan_random(&plan, &dice, kept < 14 ? 3 : 6);
            if (!spoil(&plan, &dice, number, &packed, &e) || packed.len > 260) {
                continue;
            }
            if (kept < 2) {
                refused(packed.bytes, packed.len);
            } else {
                plain(CHECK_SHEET, packed.bytes, packed.len);
            }
            if (kept % 4 == 3 && number != CHZ_SHORT && number != CHZ_TAIL) {
                cut(&packed, &dice, &e);
                plain(CHECK_SHEET, packed.bytes, packed.len);
            }
            kept++;
        }
    }
}

static void some_code(void)
{
    struct expected e;
    for (int i = 0; i < 50; i++) {
        text_random(&text, &dice, dice_from(&dice, 1, 40));
        plain(CHECK_CODE, text.bytes, text.len);
        for (int n = 0; n < 4; n++) {
            any_run(text.bytes, text.len);
        }
    }
    for (int kept = 0; kept < 16; kept++) {
        text_random(&text, &dice, dice_from(&dice, 1, 20));
        spoil_end(&text, &dice, &e);
        plain(CHECK_CODE, text.bytes, text.len);
        any_run(text.bytes, text.len);
    }
    for (uint32_t fault = 0; fault < WORD_FAULTS; fault++) {
        for (int kept = 0; kept < 5;) {
            text_random(&text, &dice, dice_from(&dice, 1, 30));
            spoilt = text;
            if (spoil_word(&spoilt, &dice, (enum word_fault)fault, &e)) {
                plain(CHECK_CODE, spoilt.bytes, spoilt.len);
                if (kept == 0) {
                    any_run(spoilt.bytes, spoilt.len);
                }
                kept++;
            }
        }
    }
    for (int kept = 0; kept < 24;) {
        text_random(&text, &dice, dice_from(&dice, 4, 40));
        if (spoil_landing(&text, &dice, &e)) {
            plain(CHECK_CODE, text.bytes, text.len);
            any_run(text.bytes, text.len);
            kept++;
        }
    }
}

/* The longest of everything, once each: they are long. */
static void longest(void)
{
    static uint8_t own[CHZ_CODE_MAX];
    plan_largest(&plan, &dice, 12);
    pack(&plan, &packed);
    plain(CHECK_SHEET, packed.bytes, packed.len);
    keep(TRANSLATE, packed.bytes, packed.len, CHZ_CODE_MAX - 1, zeros, 0, 0);
    keep(TRANSLATE, packed.bytes, packed.len, CHZ_CODE_MAX, zeros, 0, 0);
    memcpy(own, code, sizeof own);
    struct record late = {11, 0, CHZ_CLOCK_MAX};
    keep(SCAN, packed.bytes, packed.len, 0, late, 0xFFFF, 1);
    late.flags = UINT32_C(1) << 11;
    keep(RUN, own, sizeof own, 0, late, 0xFFFF, 1);
    plan_largest(&plan, &dice, 32);
    pack(&plan, &packed);
    plain(CHECK_SHEET, packed.bytes, packed.len);
    text_random(&text, &dice, 8192);
    any_run(text.bytes, text.len);
    memset(text.bytes + text.len, 0, 4);
    plain(CHECK_CODE, text.bytes, text.len + 4);
}

int main(void)
{
    dice_seed(&dice, 20240611, 7);
    paper();
    for (int i = 0; i < 14; i++) {
        accepted_sheet(i < 12 ? 3 : 4, 6);
    }
    spoilt_sheets();
    some_code();
    longest();

    for (uint32_t number = 0; number <= CHZ_NO_STATE; number++) {
        uint32_t seen = 0;
        for (int call = CHECK_SHEET; call <= RUN; call++) {
            seen += tally[call][number];
        }
        fprintf(stderr, "%u: %u cases\n", (unsigned)number, (unsigned)seen);
        if (seen == 0) {
            return 1;
        }
    }
    size_t end = size;
    size = 0;
    put(4, cases);
    fprintf(stderr, "%u cases, %zu bytes\n", (unsigned)cases, end);
    return fwrite(file, 1, end, stdout) == end ? 0 : 1;
}
