/*
 * ask_scans.c: the cold starts, scan and run; sheet and code side by side, and
 * the paper's worked scans.
 */

#include "cases.h"
#include "chmurzeta.h"
#include "make_sheets.h"
#include "second.h"
#include "two_contact.h"

#include <inttypes.h>
#include <stdio.h>
#include <string.h>

/* ---- The calls ---- */

static uint32_t ask_cold_scan(bool second, const struct given *g, struct cells *c, uint8_t *code)
{
    (void)code;
    return (second ? second_cold_scan : chz_cold_scan)(g->bytes, g->len, &c->state, &c->outputs, &c->clock, &c->place);
}

static uint32_t ask_cold_run(bool second, const struct given *g, struct cells *c, uint8_t *code)
{
    (void)code;
    return (second ? second_cold_run : chz_cold_run)(g->bytes, g->len, &c->flags, &c->outputs, &c->clock, &c->place);
}

static uint32_t ask_scan(bool second, const struct given *g, struct cells *c, uint8_t *code)
{
    (void)code;
    return (second ? second_scan : chz_scan)(g->bytes, g->len, &c->state, &c->outputs, &c->clock, g->inputs, g->elapsed,
                                             &c->place);
}

static uint32_t ask_run(bool second, const struct given *g, struct cells *c, uint8_t *code)
{
    (void)code;
    return (second ? second_run : chz_run)(g->bytes, g->len, &c->flags, &c->outputs, &c->clock, g->inputs, g->elapsed,
                                           &c->place);
}

static const char *unlawful_cold(const struct outcome *o, uint32_t flags)
{
    bool refused = o->number != CHZ_OK;
    if (o->clock != 0 || o->flags != (refused ? 0 : flags)) {
        return "not a cold record";
    }
    if (refused ? o->outputs != 0 : (o->outputs & 1) == 0) {
        return "not a cold record's outputs";
    }
    return NULL;
}

static const char *unlawful_cold_scan(const struct given *g, const struct outcome *o)
{
    (void)g;
    return unlawful_cold(o, 0);
}

static const char *unlawful_cold_run(const struct given *g, const struct outcome *o)
{
    (void)g;
    return unlawful_cold(o, 1);
}

static const char *unlawful_scan(const struct given *g, const struct outcome *o)
{
    bool refused = o->number != CHZ_OK;
    if (refused && (o->flags != g->flags || o->outputs != g->outputs || o->clock != g->clock)) {
        return "refused, but the record has changed";
    }
    if (!refused && o->clock > CHZ_CLOCK_MAX) {
        return "the clock is beyond its hold";
    }
    return NULL;
}

struct call cold_scan = {.name = "cold_scan",
                         .gives = GIVES_STATE | GIVES_RECORD,
                         .answers = ANSWERS(CHZ_SHORT, CHZ_ACTIVITY),
                         .ask = ask_cold_scan,
                         .unlawful = unlawful_cold_scan};

struct call cold_run = {.name = "cold_run",
                        .gives = GIVES_FLAGS | GIVES_RECORD,
                        .answers = ANSWERS(CHZ_SHORT, CHZ_ACTIVITY),
                        .ask = ask_cold_run,
                        .unlawful = unlawful_cold_run};

struct call scan = {.name = "scan",
                    .gives = GIVES_STATE | GIVES_RECORD,
                    .scans = true,
                    .answers = ANSWERS(CHZ_SHORT, CHZ_ACTIVITY) | UINT32_C(1) << CHZ_NO_STATE,
                    .ask = ask_scan,
                    .unlawful = unlawful_scan};

struct call run = {.name = "run",
                   .gives = GIVES_FLAGS | GIVES_RECORD,
                   .scans = true,
                   .answers = ANSWERS(CHZ_CODE_END, CHZ_LANDING),
                   .ask = ask_run,
                   .unlawful = unlawful_scan};

/* ---- Any record ---- */

static uint32_t some_flags(struct dice *d)
{
    switch (dice_below(d, 4)) {
    case 0:
        return 0;
    case 1:
        return UINT32_C(1) << dice_below(d, 32);
    case 2:
        return UINT32_MAX;
    default:
        return (uint32_t)dice_roll(d);
    }
}

struct given some_record(struct dice *d, const uint8_t *bytes, size_t len)
{
    struct given g = {bytes, len, 0, 0, 0, 0, 0, 0};
    g.flags = some_flags(d);
    g.outputs = (uint16_t)dice_roll(d);
    g.clock = dice_time(d);
    g.inputs = (uint16_t)dice_roll(d);
    g.elapsed = dice_time(d);
    return g;
}

void try_scans(struct dice *d, const uint8_t *bytes, size_t len)
{
    uint32_t states = (uint32_t)(bytes[0] >> 3) + 1;
    for (int i = 0; i < 4; i++) {
        struct given g = some_record(d, bytes, len);
        g.flags = dice_below(d, states);
        both(&scan, &g, &fine);
    }
    struct given g = some_record(d, bytes, len);
    g.flags = dice_one_in(d, 2) ? states : dice_from(d, states, 255);
    struct expected no_state = {true, CHZ_NO_STATE, g.flags};
    both(&scan, &g, &no_state);
}

/* ---- From cold ---- */

static uint64_t fired, stayed, held;

void scan_along(struct dice *d, const uint8_t *bytes, size_t len, const uint8_t *code, size_t code_len, uint32_t scans)
{
    struct outcome reference = ask_sheet(&cold_scan, bytes, len, &fine);
    struct outcome runner = ask_sheet(&cold_run, bytes, len, &fine);
    uint16_t inputs = (uint16_t)dice_roll(d);
    while (scans-- > 0) {
        switch (dice_below(d, 4)) {
        case 0:
            inputs = (uint16_t)dice_roll(d);
            break;
        case 1:
            inputs ^= (uint16_t)(1u << dice_below(d, 16));
            break;
        default:
            break;
        }
        if (!dice_one_in(d, 12)) {
            inputs |= 1;
        }
        uint32_t elapsed = dice_one_in(d, 6) ? dice_time(d) : dice_below(d, 150);
        struct given g = {bytes, len, 0, reference.flags, reference.outputs, reference.clock, inputs, elapsed};
        struct given h = {code, code_len, 0, runner.flags, runner.outputs, runner.clock, inputs, elapsed};
        uint32_t before = reference.flags;
        reference = both(&scan, &g, &fine);
        runner = both(&run, &h, &fine);
        if (runner.flags != UINT32_C(1) << reference.flags || runner.outputs != reference.outputs ||
            runner.clock != reference.clock) {
            describe("sheet and code have parted");
            print_outcome("sheet", &reference);
            print_outcome("code", &runner);
            stop(1);
        }
        if ((inputs & 1) == 0 && reference.flags != 0) {
            fail("activation is off, and the state isn't 0");
        }
        if (reference.flags != before) {
            fired++;
        } else {
            stayed++;
        }
        held += reference.clock == CHZ_CLOCK_MAX;
    }
}

int scans_summary(void)
{
    printf("\nScans of sheet and code side by side from cold: %" PRIu64 " changed state, %" PRIu64 " did not, %" PRIu64
           " with the clock held.\n",
           fired, stayed, held);
    return fired == 0 || stayed == 0 || held == 0;
}

/* ---- The paper's worked scans ---- */

static uint8_t own_code[CHZ_CODE_LIMIT];
static struct plan plan;
static struct packed packed;

static struct outcome contact_scan(struct outcome from, uint32_t activate, uint32_t a, uint32_t b, uint32_t ms)
{
    struct given g = {packed.bytes, packed.len, 0, from.flags, from.outputs, from.clock, (uint16_t)(activate | a << 1 | b << 2),
                      ms};
    return both(&scan, &g, &fine);
}

static struct outcome contact_run(struct outcome from, uint32_t activate, uint32_t a, uint32_t b, uint32_t ms)
{
    struct given g = {own_code, 271 * 4, 0, from.flags, from.outputs, from.clock, (uint16_t)(activate | a << 1 | b << 2), ms};
    return both(&run, &g, &fine);
}

static void contact_must(struct outcome o, uint32_t state, uint32_t clock)
{
    if (o.flags != state || o.clock != clock || o.outputs != plan.row[state]) {
        describe("the two-contact sheet isn't where document 01 says");
        print_outcome("both", &o);
        printf("  expected state %" PRIu32 ", clock %" PRIu32 "\n", state, clock);
        stop(1);
    }
}

static void contact_must_run(struct outcome o, uint32_t state, uint32_t clock)
{
    if (o.flags != UINT32_C(1) << state) {
        describe("the code isn't where document 01 says");
        print_outcome("both", &o);
        stop(1);
    }
    o.flags = state;
    contact_must(o, state, clock);
}

void scans_paper(void)
{
    ask_family("the two-contact sheet");
    plan_two_contact(&plan);
    pack(&plan, &packed);
    if (plan.transitions != 25 || packed.bits != 1319 || packed.len != 165 || plan_words(&plan) != 271) {
        fail("the two-contact sheet isn't built as described");
    }
    /* What is described here and the stored example must be one sheet. */
    if (packed.len != sizeof two_contact || memcmp(packed.bytes, two_contact, packed.len) != 0) {
        fail("examples/two-contact.sheet isn't the sheet described in make_sheets.c");
    }
    struct outcome o = ask_room(packed.bytes, packed.len, CHZ_CODE_MAX, &fine);
    if (o.length != 271 * 4) {
        fail("the two-contact sheet's code hasn't 271 words");
    }
    memcpy(own_code, ask_code_written(), o.length);
    ask_sheet(&check_code, own_code, 271 * 4, &fine);

    ask_family("P12");
    static const struct {
        uint8_t activate, a, b, ms, state, clock;
    } step[] = {
        {1, 0, 0, 10, 1, 0}, {1, 1, 0, 10, 3, 0}, {1, 1, 0, 99, 3, 99}, {1, 1, 0, 1, 5, 0},
        {1, 1, 1, 10, 5, 10}, {1, 0, 0, 10, 1, 0}, {1, 1, 1, 10, 8, 0},  {0, 1, 1, 5, 0, 0},
    };
    struct outcome cold = ask_sheet(&cold_scan, packed.bytes, packed.len, &fine);
    struct outcome cold_code = ask_sheet(&cold_run, packed.bytes, packed.len, &fine);
    contact_must(cold, 0, 0);
    contact_must_run(cold_code, 0, 0);
    struct outcome s = cold;
    struct outcome r = cold_code;
    struct outcome waiting = cold;
    struct outcome waiting_run = cold_code;
    for (size_t i = 0; i < sizeof step / sizeof step[0]; i++) {
        s = contact_scan(s, step[i].activate, step[i].a, step[i].b, step[i].ms);
        r = contact_run(r, step[i].activate, step[i].a, step[i].b, step[i].ms);
        contact_must(s, step[i].state, step[i].clock);
        contact_must_run(r, step[i].state, step[i].clock);
        if (i == 2) {
            waiting = s; /* state 3 with clock 99 */
            waiting_run = r;
        }
    }

    ask_family("P13 and P14");
    contact_must(contact_scan(waiting, 1, 1, 1, 1), 5, 0);
    contact_must_run(contact_run(waiting_run, 1, 1, 1, 1), 5, 0);
    contact_must(contact_scan(waiting, 1, 1, 1, 0), 8, 0);
    contact_must_run(contact_run(waiting_run, 1, 1, 1, 0), 8, 0);

    ask_family("from cold");
    contact_must(contact_scan(cold, 1, 1, 1, 10), 1, 0);
    contact_must_run(contact_run(cold_code, 1, 1, 1, 10), 1, 0);
    contact_must(contact_scan(cold, 0, 1, 1, 50), 0, 50);
    contact_must_run(contact_run(cold_code, 0, 1, 1, 50), 0, 50);
    s = contact_scan(contact_scan(cold, 0, 1, 1, 50), 0, 1, 1, 50);
    contact_must(s, 0, 100);
    s = contact_scan(s, 0, 1, 1, UINT32_MAX);
    contact_must(s, 0, CHZ_CLOCK_MAX);
}
