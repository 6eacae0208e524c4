/*
 * stack.c: how much stack each call takes, measured. A call runs on a stack
 * of its own, instruction by instruction, and the lowest stack pointer is
 * kept, so that bytes which are reserved and never written count too. The
 * stack was painted before: what a leaf writes below its stack pointer is
 * seen by that. The most over the largest sheets, the deepest conditions, and
 * random sheets and code, right and spoilt, is given, counted from the stack
 * pointer before the call; and that of a program's first call, which binds
 * memset late.
 *
 * It is a measurement and not a bound. It needs a processor that steps:
 * an emulator may not.
 */

#define _GNU_SOURCE

#include "chmurzeta.h"
#include "make_code.h"
#include "make_sheets.h"
#include "second.h"

#include <signal.h>
#include <stdio.h>
#include <string.h>
#include <sys/wait.h>
#include <ucontext.h>
#include <unistd.h>

enum { STACK = 1 << 18, PAINT = 0x5A };

static uint8_t area[STACK];
static ucontext_t here, there;

enum call { CHECK_SHEET, CHECK_CODE, TRANSLATE, COLD_SCAN, COLD_RUN, SCAN, RUN, CALLS };

static const char *const call_name[CALLS] = {"check_sheet", "check_code", "translate", "cold_scan",
                                             "cold_run",    "scan",       "run"};

/* What the call is given: nothing but this passes to the other stack. */
static enum call call;
static bool second;
static const uint8_t *bytes;
static size_t len;
static uint8_t code[CHZ_CODE_LIMIT];
static uint8_t state;
static uint32_t flags, clock_ms, place, length, elapsed;
static uint16_t outputs, inputs;
static volatile uint32_t number;

/* Whether this call is taken in steps. */
static bool stepped_call;

/* The stack pointer before the call, and the lowest one since. */
static volatile uintptr_t entry, lowest;
static uint8_t signal_area[1 << 16];

static void step(int number_of_signal, siginfo_t *info, void *context)
{
    (void)number_of_signal;
    (void)info;
    uintptr_t at = (uintptr_t)((ucontext_t *)context)->uc_mcontext.gregs[REG_RSP];
    if (at >= (uintptr_t)area && at < lowest) {
        lowest = at;
    }
}

/* The trap flag of the processor: a signal after each instruction. */
static void stepping(bool on)
{
    if (on) {
        __asm__ volatile("pushfq\n\torq $0x100, (%%rsp)\n\tpopfq" ::: "cc", "memory");
    } else {
        __asm__ volatile("pushfq\n\tandq $~0x100, (%%rsp)\n\tpopfq" ::: "cc", "memory");
    }
}

static void take_steps(void)
{
    stack_t other = {.ss_sp = signal_area, .ss_size = sizeof signal_area};
    struct sigaction action = {.sa_sigaction = step, .sa_flags = SA_SIGINFO | SA_ONSTACK};
    sigaltstack(&other, NULL);
    sigaction(SIGTRAP, &action, NULL);
}

static void make_call(void)
{
    switch (call) {
    case CHECK_SHEET:
        number = (second ? second_check_sheet : chz_check_sheet)(bytes, len, &place);
        break;
    case CHECK_CODE:
        number = (second ? second_check_code : chz_check_code)(bytes, len, &place);
        break;
    case TRANSLATE:
        number = (second ? second_translate : chz_translate)(bytes, len, code, sizeof code, &length, &place);
        break;
    case COLD_SCAN:
        number = (second ? second_cold_scan : chz_cold_scan)(bytes, len, &state, &outputs, &clock_ms, &place);
        break;
    case COLD_RUN:
        number = (second ? second_cold_run : chz_cold_run)(bytes, len, &flags, &outputs, &clock_ms, &place);
        break;
    case SCAN:
        number = (second ? second_scan : chz_scan)(bytes, len, &state, &outputs, &clock_ms, inputs, elapsed, &place);
        break;
    default:
        number = (second ? second_run : chz_run)(bytes, len, &flags, &outputs, &clock_ms, inputs, elapsed, &place);
        break;
    }
}

static void on_its_own_stack(void)
{
    __asm__ volatile("movq %%rsp, %0" : "=r"(entry));
    if (stepped_call) {
        stepping(true);
    }
    make_call();
    stepping(false);
}

static size_t used(void)
{
    lowest = (uintptr_t)area + sizeof area;
    memset(area, PAINT, sizeof area);
    getcontext(&there);
    there.uc_stack.ss_sp = area;
    there.uc_stack.ss_size = sizeof area;
    there.uc_link = &here;
    makecontext(&there, on_its_own_stack, 0);
    swapcontext(&here, &there);
    size_t clean = 0;
    while (clean < sizeof area && area[clean] == PAINT) {
        clean++;
    }
    uintptr_t written = (uintptr_t)area + clean;
    return entry - (written < lowest ? written : lowest);
}

static size_t most[2][CALLS];

/* A call in steps takes long, so only one that has written more than any before is made again so. */
static size_t written_most[CALLS];

static void ask(enum call which, const uint8_t *b, size_t n)
{
    for (int who = 0; who < 2; who++) {
        uint8_t old_state = state;
        uint32_t old_flags = flags;
        second = who == 1;
        call = which;
        bytes = b;
        len = n;
        stepped_call = false;
        size_t u = used();
        if (who == 0 && u > written_most[which]) {
            written_most[which] = u;
            state = old_state;
            flags = old_flags;
            stepped_call = true;
            u = used();
        }
        state = old_state;
        flags = old_flags;
        if (u > most[who][which]) {
            most[who][which] = u;
        }
    }
}

/* What a call takes that is the first of its program. */
static size_t as_first(enum call which, const uint8_t *b, size_t n)
{
    size_t u = 0;
    int ends[2];
    if (pipe(ends) != 0) {
        return 0;
    }
    if (fork() == 0) {
        call = which;
        bytes = b;
        len = n;
        stepped_call = true;
        u = used();
        _exit(write(ends[1], &u, sizeof u) != (ssize_t)sizeof u);
    }
    if (read(ends[0], &u, sizeof u) != (ssize_t)sizeof u) {
        u = 0;
    }
    wait(NULL);
    close(ends[0]);
    close(ends[1]);
    return u;
}

static struct plan plan;
static struct packed packed;
static struct text text;

static void ask_sheet(void)
{
    static uint8_t own[CHZ_CODE_LIMIT];
    uint32_t own_length = 0;
    uint32_t nowhere = 0;
    uint32_t scanned = packed.len == 0 ? 0 : (uint32_t)(packed.bytes[0] >> 3);
    ask(CHECK_SHEET, packed.bytes, packed.len);
    ask(TRANSLATE, packed.bytes, packed.len);
    ask(COLD_SCAN, packed.bytes, packed.len);
    ask(COLD_RUN, packed.bytes, packed.len);
    inputs = 0xFFFF;
    elapsed = CHZ_CLOCK_MAX;
    state = (uint8_t)scanned;
    ask(SCAN, packed.bytes, packed.len);
    state = 0;
    ask(SCAN, packed.bytes, packed.len);
    if (second_translate(packed.bytes, packed.len, own, sizeof own, &own_length, &nowhere) == CHZ_OK) {
        ask(CHECK_CODE, own, own_length);
        flags = UINT32_C(1) << scanned;
        ask(RUN, own, own_length);
    }
}

int main(void)
{
    struct dice d;
    struct expected e;
    dice_seed(&d, 20240611, 9);

    take_steps();
    plan_two_contact(&plan);
    pack(&plan, &packed);
    size_t first_call = 0;
    for (int c = CHECK_SHEET; c < CALLS; c++) {
        size_t u = as_first((enum call)c, packed.bytes, packed.len);
        first_call = u > first_call ? u : first_call;
    }
    for (int c = CHECK_SHEET; c < CALLS; c++) { /* bound from here on */
        call = (enum call)c;
        bytes = packed.bytes;
        len = packed.len;
        (void)used();
    }
    ask_sheet();
    for (uint32_t states = 12; states <= 32; states++) {
        plan_largest(&plan, &d, states);
        pack(&plan, &packed);
        ask_sheet();
    }
    for (int i = 0; i < 400; i++) {
        plan_random(&plan, &d, 32);
        pack(&plan, &packed);
        ask_sheet();
        if (spoil(&plan, &d, dice_from(&d, 1, 13), &packed, &e)) {
            ask_sheet();
        }
        text_random(&text, &d, i < 4 ? 8192 : dice_from(&d, 1, 200));
        flags = (uint32_t)dice_roll(&d);
        ask(CHECK_CODE, text.bytes, text.len);
        ask(RUN, text.bytes, text.len);
        if (spoil_landing(&text, &d, &e)) {
            ask(CHECK_CODE, text.bytes, text.len);
        }
    }

    size_t largest = 0;
    printf("| Call | Library, bytes of stack | Second program, bytes of stack |\n|---|---:|---:|\n");
    for (int c = CHECK_SHEET; c < CALLS; c++) {
        printf("| %s | %zu | %zu |\n", call_name[c], most[0][c], most[1][c]);
        largest = most[0][c] > largest ? most[0][c] : largest;
    }
    printf("\nThe library takes at most %zu bytes in these calls, and %zu where one is the first of its program.\n", largest,
           first_call);
    return largest > 8192 || first_call > 8192; /* what the header promises */
}
