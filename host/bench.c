/*
 * bench.c: the proved library against the second program, each of the seven
 * calls, as a ratio. Both are built with the same -O2 for the same x86-64.
 *
 * The two take turns in one run, in short turns and with the first one
 * changing, and the median of the repetitions counts. The time is the
 * thread's own on the processor: wall time on a busy machine, in a trial of
 * one program against itself, gave ratios from 0.3 to 3.4. The middle half of
 * the ratios is printed beside the median, to show what the median is worth.
 * A ratio below 1 means that the library is the faster.
 */

#define _POSIX_C_SOURCE 200809L

#include "chmurzeta.h"
#include "make_code.h"
#include "make_sheets.h"
#include "second.h"

#include <stdio.h>
#include <stdlib.h>
#include <string.h>
#include <time.h>

enum { REPETITIONS = 61 };
static const double SHARE = 1e6; /* ns, about, of one turn of one side */

/* What the call now measured is given. */
static const uint8_t *bytes;
static size_t len;
static uint8_t code[CHZ_CODE_LIMIT];
static uint8_t state0;
static uint32_t flags0;
static uint16_t inputs0;
static uint32_t clock0;
static uint32_t sink; /* keeps every answer wanted */

/* A loop over one call: what it is given is set anew each time, since scans
   change their record. */
#define LOOP(name, call)                              \
    static void name(uint64_t times)                  \
    {                                                 \
        for (uint64_t i = 0; i < times; i++) {        \
            uint8_t state = state0;                   \
            uint32_t flags = flags0;                  \
            uint16_t outputs = 0;                     \
            uint32_t clock_ms = clock0;               \
            uint32_t place = 0;                       \
            uint32_t length = 0;                      \
            uint32_t number = (call);                 \
            sink += number + place + length + state + flags + outputs + clock_ms; \
        }                                             \
    }

#define PAIR(name, arguments)                     \
    LOOP(library_##name, chz_##name arguments)    \
    LOOP(second_loop_##name, second_##name arguments)

PAIR(check_sheet, (bytes, len, &place))
PAIR(check_code, (bytes, len, &place))
PAIR(translate, (bytes, len, code, sizeof code, &length, &place))
PAIR(cold_scan, (bytes, len, &state, &outputs, &clock_ms, &place))
PAIR(cold_run, (bytes, len, &flags, &outputs, &clock_ms, &place))
PAIR(scan, (bytes, len, &state, &outputs, &clock_ms, inputs0, 1, &place))
PAIR(run, (bytes, len, &flags, &outputs, &clock_ms, inputs0, 1, &place))

typedef void loop(uint64_t times);

static double now(void)
{
    struct timespec t;
    clock_gettime(CLOCK_THREAD_CPUTIME_ID, &t);
    return (double)t.tv_sec * 1e9 + (double)t.tv_nsec;
}

static double timed(loop *l, uint64_t times)
{
    double from = now();
    l(times);
    return (now() - from) / (double)times;
}

static int by_size(const void *a, const void *b)
{
    double x = *(const double *)a;
    double y = *(const double *)b;
    return (x > y) - (x < y);
}

static double median(double *value)
{
    qsort(value, REPETITIONS, sizeof *value, by_size);
    return value[REPETITIONS / 2];
}

static uint64_t enough(loop *l)
{
    uint64_t times = 1;
    while (times < UINT64_C(1) << 40 && timed(l, times) * (double)times < SHARE / 2) {
        times *= 2;
    }
    return times;
}

struct times {
    double library;
    double second;
    double ratio;
    double low; /* a quarter of the ratios are below it */
    double high;
};

static struct times measure(loop *library, loop *second)
{
    double a[REPETITIONS];
    double b[REPETITIONS];
    double ratio[REPETITIONS];
    uint64_t a_times = enough(library);
    uint64_t b_times = enough(second);
    for (int i = 0; i < REPETITIONS; i++) {
        if (i % 2 == 0) {
            a[i] = timed(library, a_times);
            b[i] = timed(second, b_times);
        } else {
            b[i] = timed(second, b_times);
            a[i] = timed(library, a_times);
        }
        ratio[i] = a[i] / b[i];
    }
    struct times t = {0, 0, 0, 0, 0};
    t.library = median(a);
    t.second = median(b);
    t.ratio = median(ratio); /* and now sorted */
    t.low = ratio[REPETITIONS / 4];
    t.high = ratio[REPETITIONS - 1 - REPETITIONS / 4];
    return t;
}

static void row(const char *call, const char *what, loop *library, loop *second)
{
    struct times t = measure(library, second);
    printf("| %s | %s | %.0f | %.0f | %.2f | %.2f to %.2f |\n", call, what, t.library, t.second, t.ratio, t.low, t.high);
    fflush(stdout);
}

static struct plan plan;
static struct packed packed;
static uint8_t own_code[CHZ_CODE_LIMIT];

/* Both must accept what is measured, and say the same: else a fast refusal
   would pass for a fast call. */
static void must_agree(uint32_t a, uint32_t b)
{
    if (a != CHZ_OK || b != CHZ_OK) {
        fprintf(stderr, "refused: library %u, second %u\n", (unsigned)a, (unsigned)b);
        exit(1);
    }
}

static void sheet_rows(const char *what, uint8_t state, uint16_t inputs)
{
    uint32_t length = 0;
    uint32_t length_second = 0;
    uint32_t place = 0;
    pack(&plan, &packed);
    must_agree(chz_translate(packed.bytes, packed.len, code, sizeof code, &length, &place),
               second_translate(packed.bytes, packed.len, own_code, sizeof own_code, &length_second, &place));
    if (length != length_second || memcmp(code, own_code, length) != 0) {
        fprintf(stderr, "the translations differ\n");
        exit(1);
    }
    bytes = packed.bytes;
    len = packed.len;
    state0 = state;
    flags0 = UINT32_C(1) << state;
    inputs0 = inputs;
    row("check_sheet", what, library_check_sheet, second_loop_check_sheet);
    row("translate", what, library_translate, second_loop_translate);
    row("cold_scan", what, library_cold_scan, second_loop_cold_scan);
    row("cold_run", what, library_cold_run, second_loop_cold_run);
    row("scan", what, library_scan, second_loop_scan);
    bytes = own_code;
    len = length;
    row("check_code", what, library_check_code, second_loop_check_code);
    row("run", what, library_run, second_loop_run);
}

/* Code as a translation has it, of which a run executes every word: no flag
   is set, so no block fires and no jump is taken. */
static void straight_code(uint32_t words)
{
    static const uint8_t block[][2] = {{W_LDS, 1}, {W_AND, 0},     {W_LDI, 0}, {W_NOT, 0}, {W_OR, 0}, {W_LDI, 1},
                                       {W_AND, 0}, {W_LDI, 2},     {W_CLOSE, 0}, {W_CLOSE, 0}, {W_CLOSE, 0}, {W_ANDT, 100},
                                       {W_R, 1},   {W_S, 2},       {W_JMPC, 0}};
    enum { BLOCK = sizeof block / sizeof block[0] };
    static struct text t;
    uint32_t w = 0;
    while (w + BLOCK < words) {
        for (uint32_t i = 0; i < BLOCK; i++, w++) {
            text_set(&t, w, block[i][0], block[i][0] == W_JMPC ? words - 1 : block[i][1]);
        }
    }
    for (; w + 1 < words; w++) {
        text_set(&t, w, W_LDI, 0);
    }
    text_set(&t, w, W_END, 0);
    memcpy(own_code, t.bytes, 4 * (size_t)words);
    bytes = own_code;
    len = 4 * (size_t)words;
    flags0 = 0;
    inputs0 = 7;
    uint32_t place = 0;
    must_agree(chz_check_code(bytes, len, &place), second_check_code(bytes, len, &place));
}

static void word_rows(uint32_t words)
{
    straight_code(words);
    struct times check = measure(library_check_code, second_loop_check_code);
    struct times run = measure(library_run, second_loop_run);
    printf("| check_code | %u | %.2f | %.2f | %.2f | %.2f to %.2f |\n", (unsigned)words, check.library / words,
           check.second / words, check.ratio, check.low, check.high);
    printf("| run | %u | %.2f | %.2f | %.2f | %.2f to %.2f |\n", (unsigned)words, run.library / words, run.second / words,
           run.ratio, run.low, run.high);
    fflush(stdout);
}

int main(void)
{
    struct dice d;

    printf("| Call | Sheet or its code | Library, ns | Second program, ns | Ratio | Middle half |\n|---|---|---:|---:|---:|---|\n");
    plan_two_contact(&plan);
    sheet_rows("two-contact", 3, 7); /* waiting for B, three transitions looked at */
    /* Of the large ones the last state, whose blocks stand last in the code,
       with every wait over, so that conditions are tried and not only waits. */
    clock0 = CHZ_CLOCK_MAX;
    dice_seed(&d, 1, 32);
    plan_largest(&plan, &d, 32);
    sheet_rows("largest, 32 states", 31, 0xFFFF);
    dice_seed(&d, 1, 12);
    plan_largest(&plan, &d, 12);
    sheet_rows("longest, 12 states", 11, 0xFFFF);

    printf("\n| Call | Words | Library, ns a word | Second program, ns a word | Ratio | Middle half |\n|---|---:|---:|---:|---:|---|\n");
    clock0 = 0;
    word_rows(256);
    word_rows(1024);
    word_rows(8192);
    return sink == 1 ? 1 : 0;
}
