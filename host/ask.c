/*
 * ask.c: see ask.h. Every number, every place, every out-parameter, every byte
 * of the code buffer and of the guard bytes around it is compared, and the
 * bytes lent to a call end at a forbidden page.
 */

#define _DEFAULT_SOURCE /* for MAP_ANONYMOUS */

#include "ask.h"

#include "dice.h"

#include <inttypes.h>
#include <signal.h>
#include <stdio.h>
#include <stdlib.h>
#include <string.h>
#include <sys/mman.h>
#include <unistd.h>

/* ---- Where we are, for a description that can be run again ---- */

static uint64_t seed;
static uint64_t case_number;
static const char *family = "start";
static const struct call *calling;
static struct given asked;

static uint64_t answers;
static uint64_t answers_of_case; /* decides where bytes are penned, so that a case alone goes as it went before */

void ask_family(const char *name)
{
    family = name;
}

void ask_case(uint64_t number)
{
    case_number = number;
    answers_of_case = 0;
}

uint64_t ask_answers(void)
{
    return answers;
}

uint64_t ask_seed(void)
{
    return seed;
}

static void print_hex(const uint8_t *bytes, size_t len)
{
    for (size_t i = 0; i < len; i++) {
        printf("%02X", bytes[i]);
    }
}

void describe(const char *what)
{
    printf("\nMISMATCH: %s\n", what);
    printf("again with: SEED=%" PRIu64 " CASE=%" PRIu64 "  (family: %s)\n", seed, case_number, family);
    if (calling == NULL) {
        return;
    }
    printf("call: %s\n", calling->name);
    printf("bytes (%zu): ", asked.len);
    print_hex(asked.bytes, asked.len);
    printf("\n");
    if (calling->gives & GIVES_CODE) {
        printf("room: %zu\n", asked.room);
    }
    if (calling->scans) {
        printf("%s %" PRIu32 " (hex %" PRIX32 "), outputs hex %X, clock %" PRIu32 ", inputs hex %X, elapsed %" PRIu32 "\n",
               calling->gives & GIVES_STATE ? "state" : "flags", asked.flags, asked.flags, (unsigned)asked.outputs,
               asked.clock, (unsigned)asked.inputs, asked.elapsed);
    }
}

void print_outcome(const char *who, const struct outcome *o)
{
    printf("  %-8s number %" PRIu32 ", place %" PRIu32 ", length %" PRIu32 ", flags or state hex %" PRIX32
           ", outputs hex %X, clock %" PRIu32 "\n",
           who, o->number, o->place, o->length, o->flags, (unsigned)o->outputs, o->clock);
}

_Noreturn void stop(int status)
{
    fflush(stdout);
    _Exit(status);
}

_Noreturn void fail(const char *what)
{
    describe(what);
    stop(1);
}

static void on_fault(int sig)
{
    (void)sig;
    describe("memory touched that isn't the call's own");
    stop(3);
}

/* ---- A pen: bytes with forbidden pages on both sides ---- */

static uint8_t *pen;

static void build_pen(void)
{
    size_t page = (size_t)sysconf(_SC_PAGESIZE);
    size_t inside = (PEN_BYTES + page - 1) / page * page;
    uint8_t *all = mmap(NULL, inside + 2 * page, PROT_NONE, MAP_PRIVATE | MAP_ANONYMOUS, -1, 0);
    if (all == MAP_FAILED || mprotect(all + page, inside, PROT_READ | PROT_WRITE) != 0) {
        perror("pen");
        exit(2);
    }
    pen = all + page + inside - PEN_BYTES; /* ends exactly at the upper forbidden page */
}

/* A copy that mostly ends where the pen ends, so that one byte more is
   forbidden; and sometimes starts where it starts, so that one byte before is. */
static uint8_t *penned(const uint8_t *bytes, size_t len)
{
    uint8_t *to = answers_of_case % 4 == 3 ? pen : pen + PEN_BYTES - len;
    if (len != 0) {
        memcpy(to, bytes, len);
    }
    return to;
}

/* ---- Asking ---- */

static uint8_t pattern[BUFFER];
static uint8_t buffer[2][BUFFER]; /* what the library wrote, and the second program */

enum { POISON = 0xA5 };

void ask_begin(uint64_t with_seed)
{
    struct dice d;
    seed = with_seed;
    dice_seed(&d, seed, 0);
    for (size_t i = 0; i < BUFFER; i++) {
        pattern[i] = (uint8_t)dice_roll(&d);
    }
    build_pen();
    signal(SIGSEGV, on_fault);
    signal(SIGBUS, on_fault);
}

const uint8_t *ask_code_written(void)
{
    return buffer[0] + GUARD;
}

static struct outcome ask(bool second, const struct call *call, const struct given *g, uint8_t *code)
{
    struct cells c;
    struct cells clean;
    memset(&c, POISON, sizeof c);
    memset(&clean, POISON, sizeof clean);
    if (call->scans) {
        if (call->gives & GIVES_STATE) {
            c.state = (uint8_t)g->flags;
        } else {
            c.flags = g->flags;
        }
        c.outputs = g->outputs;
        c.clock = g->clock;
    }
    struct outcome o = {0, 0, 0, 0, 0, 0};
    o.number = call->ask(second, g, &c, code);
    o.place = c.place;
    c.place = clean.place;
    if (call->gives & GIVES_CODE) {
        o.length = c.length;
        c.length = clean.length;
    }
    if (call->gives & GIVES_STATE) {
        o.flags = c.state;
        c.state = clean.state;
    }
    if (call->gives & GIVES_FLAGS) {
        o.flags = c.flags;
        c.flags = clean.flags;
    }
    if (call->gives & GIVES_RECORD) {
        o.outputs = c.outputs;
        o.clock = c.clock;
        c.outputs = clean.outputs;
        c.clock = clean.clock;
    }
    /* What is left must be as it was poisoned, guards and all. */
    if (memcmp(&c, &clean, sizeof c) != 0) {
        fail(second ? "the second program wrote beside an out-parameter" : "the library wrote beside an out-parameter");
    }
    return o;
}

static bool same(const struct outcome *a, const struct outcome *b)
{
    return a->number == b->number && a->place == b->place && a->length == b->length && a->flags == b->flags &&
           a->outputs == b->outputs && a->clock == b->clock;
}

static void compare_buffers(size_t room, size_t length)
{
    size_t all = GUARD + room + GUARD;
    size_t written = GUARD + length;
    for (size_t i = 0; i < all; i++) {
        if (buffer[0][i] != buffer[1][i]) {
            describe("the buffers differ");
            printf("  at byte %ld of the code: library %02X, second %02X\n", (long)i - GUARD, buffer[0][i], buffer[1][i]);
            stop(1);
        }
    }
    if (memcmp(buffer[0], pattern, GUARD) != 0) {
        fail("a byte before the code was written");
    }
    if (memcmp(buffer[0] + written, pattern + written, all - written) != 0) {
        fail("a byte after the code was written, or a byte of a refused translation");
    }
}

struct outcome both(struct call *call, const struct given *g, const struct expected *e)
{
    struct given in = *g;
    calling = call;
    asked = *g;
    in.bytes = g->len == 0 && g->bytes == NULL ? NULL : penned(g->bytes, g->len);
    if (call->gives & GIVES_CODE) {
        if (g->room > ROOM) {
            fail("the test's own buffer is too small");
        }
        memcpy(buffer[0], pattern, GUARD + g->room + GUARD);
        memcpy(buffer[1], pattern, GUARD + g->room + GUARD);
    }

    struct outcome library = ask(false, call, &in, buffer[0] + GUARD);
    if (g->len != 0 && memcmp(in.bytes, g->bytes, g->len) != 0) {
        fail("the library wrote into the bytes it was lent");
    }
    struct outcome second = ask(true, call, &in, buffer[1] + GUARD);
    if (g->len != 0 && memcmp(in.bytes, g->bytes, g->len) != 0) {
        fail("the second program wrote into the bytes it was lent");
    }

    answers++;
    answers_of_case++;
    if (!same(&library, &second)) {
        describe("the answers differ");
        print_outcome("library", &library);
        print_outcome("second", &second);
        stop(1);
    }
    const char *law = NULL;
    if (library.number == 0 && library.place != 0) {
        law = "accepted, but the place isn't 0";
    } else if (call->unlawful != NULL) {
        law = call->unlawful(g, &library);
    }
    if (law != NULL) {
        describe(law);
        print_outcome("both", &library);
        stop(1);
    }
    if (e->known && (library.number != e->number || library.place != e->place)) {
        describe("both agree, but not with what was expected");
        print_outcome("both", &library);
        printf("  expected number %" PRIu32 ", place %" PRIu32 "\n", e->number, e->place);
        stop(1);
    }
    if (call->gives & GIVES_CODE) {
        compare_buffers(g->room, library.length);
    }
    if (library.number >= NUMBERS) {
        fail("a number that no call has");
    }
    call->tally[library.number]++;
    return library;
}
