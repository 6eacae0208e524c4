/*
 * ask_sheets.c: check_sheet and translate; sheets, right, spoilt on purpose,
 * and all the small ones.
 */

#include "cases.h"
#include "chmurzeta.h"
#include "make_sheets.h"
#include "second.h"

#include <string.h>

/* ---- The calls ---- */

static uint32_t ask_check_sheet(bool second, const struct given *g, struct cells *c, uint8_t *code)
{
    (void)code;
    return (second ? second_check_sheet : chz_check_sheet)(g->bytes, g->len, &c->place);
}

struct call check_sheet = {.name = "check_sheet", .answers = ANSWERS(CHZ_SHORT, CHZ_ACTIVITY), .ask = ask_check_sheet};

static uint32_t ask_translate(bool second, const struct given *g, struct cells *c, uint8_t *code)
{
    return (second ? second_translate : chz_translate)(g->bytes, g->len, code, g->room, &c->length, &c->place);
}

static const char *unlawful_translate(const struct given *g, const struct outcome *o)
{
    if (o->number != CHZ_OK && o->length != 0) {
        return "refused, but the length isn't 0";
    }
    if (o->number == CHZ_OK && (o->length == 0 || o->length > g->room || o->length > CHZ_CODE_MAX || o->length % 4 != 0)) {
        return "a length that can't be";
    }
    if (o->number == CHZ_ROOM && o->place <= g->room) {
        return "ROOM, but there was room";
    }
    return NULL;
}

struct call translate = {.name = "translate",
                         .gives = GIVES_CODE,
                         .answers = ANSWERS(CHZ_SHORT, CHZ_ROOM),
                         .ask = ask_translate,
                         .unlawful = unlawful_translate};

struct outcome ask_sheet(struct call *call, const uint8_t *bytes, size_t len, const struct expected *e)
{
    struct given g = {bytes, len, 0, 0, 0, 0, 0, 0};
    return both(call, &g, e);
}

struct outcome ask_room(const uint8_t *bytes, size_t len, size_t room, const struct expected *e)
{
    struct given g = {bytes, len, room, 0, 0, 0, 0, 0};
    return both(&translate, &g, e);
}

/* ---- Any sheet ---- */

static uint8_t own_code[CHZ_CODE_LIMIT];

/* `words` is the length that the plan says, 0 where there is no plan. */
static void try_accepted(struct dice *d, const uint8_t *bytes, size_t len, uint32_t words, uint32_t scans)
{
    struct expected room = {words != 0, CHZ_ROOM, 4 * words};
    struct outcome o = ask_room(bytes, len, 0, &room);
    uint32_t needed = o.place;
    room.known = true;
    room.number = CHZ_ROOM;
    room.place = needed;

    o = ask_room(bytes, len, needed, &fine);
    memcpy(own_code, ask_code_written(), o.length);
    if (o.length != needed) {
        fail("the length isn't the bytes needed");
    }
    ask_room(bytes, len, needed - 1, &room);
    ask_room(bytes, len, dice_below(d, needed), &room);
    ask_room(bytes, len, needed + dice_below(d, 100), &fine);
    if (dice_one_in(d, 8)) {
        for (uint32_t n = 0; n <= 9; n++) {
            ask_room(bytes, len, needed - n, n == 0 ? &fine : &room);
            ask_room(bytes, len, needed + n, &fine);
        }
        ask_room(bytes, len, CHZ_CODE_MAX, &fine);
        ask_room(bytes, len, ROOM, &fine);
    }

    ask_sheet(&check_sheet, bytes, len, &fine);
    try_code(d, own_code, needed, 3, &fine);
    try_scans(d, bytes, len);
    scan_along(d, bytes, len, own_code, needed, scans);
    try_damaged(d, own_code, needed);
}

void try_sheet(struct dice *d, const uint8_t *bytes, size_t len, const struct expected *e)
{
    struct outcome o = ask_sheet(&check_sheet, bytes, len, e);
    if (o.number == CHZ_OK) {
        try_accepted(d, bytes, len, 0, 6);
        return;
    }
    struct expected refused = {true, o.number, o.place};
    ask_sheet(&cold_scan, bytes, len, &refused);
    ask_sheet(&cold_run, bytes, len, &refused);
    ask_room(bytes, len, dice_one_in(d, 3) ? 0 : dice_below(d, 2000), &refused);
    struct given g = some_record(d, bytes, len);
    g.flags &= dice_one_in(d, 2) ? 31 : 255;
    both(&scan, &g, &refused);
}

/* ---- The paper's cases, against their literal values ---- */

static const uint8_t M[9] = {0x08, 0x00, 0x08, 0x20, 0x00, 0x00, 0x00, 0x00, 0x80};

static void literal_sheet(const uint8_t *bytes, size_t len, uint32_t number, uint32_t place)
{
    struct dice d;
    struct expected e = {true, number, place};
    dice_seed(&d, ask_seed(), len);
    try_sheet(&d, bytes, len, &e);
}

static void literal_m(size_t at, uint8_t byte, uint32_t number, uint32_t place)
{
    uint8_t bytes[9];
    memcpy(bytes, M, sizeof M);
    bytes[at] = byte;
    literal_sheet(bytes, sizeof bytes, number, place);
}

void sheets_paper(void)
{
    uint8_t bytes[16];

    ask_family("P1 to P10");
    literal_sheet(NULL, 0, 1, 0);
    literal_sheet(bytes, 0, 1, 0);
    bytes[0] = 0;
    literal_sheet(bytes, 1, 2, 0);
    literal_sheet(M, 9, 0, 0);
    literal_m(8, 0x81, 6, 71);
    memcpy(bytes, M, 9);
    bytes[9] = 0;
    literal_sheet(bytes, 10, 6, 71);
    literal_sheet(M, 8, 1, 63);
    literal_m(3, 0x40, 3, 22);
    literal_m(3, 0x00, 7, 0);
    literal_m(2, 0x00, 13, 0);
    literal_m(8, 0x82, 4, 67);

    ask_family("P11");
    static const uint8_t m_code[64] = {
        0x01, 0, 0, 0x01, 0x04, 0, 0, 0x00, 0x02, 0, 0, 0x00, 0x03, 0, 0, 0x00, 0x06, 0, 0, 0x00, 0x08, 0,
        0,    0x01, 0x09, 0, 0, 0x00, 0x0C, 0, 0, 0x09, 0x0D, 0, 0, 0x0F, 0x0B, 0, 0, 0x00, 0x0E, 0, 0, 0x00,
        0x0D, 0, 0, 0x0F, 0x0A, 0, 0, 0x00, 0x0E, 0, 0, 0x00, 0x0D, 0, 0, 0x0F, 0x00, 0, 0, 0x00,
    };
    struct expected room = {true, 14, 64};
    struct outcome o = ask_room(M, 9, 64, &fine);
    if (o.length != 64 || memcmp(ask_code_written(), m_code, 64) != 0) {
        fail("P11: these aren't the 16 words");
    }
    for (size_t n = 0; n < 64; n++) {
        ask_room(M, 9, n, &room); /* 63 is P11's */
    }
    uint32_t length = 7;
    uint32_t place = 7;
    if (chz_translate(M, 9, NULL, 0, &length, &place) != CHZ_ROOM || length != 0 || place != 64) {
        fail("a buffer of no bytes at NULL");
    }
}

/* ---- Small things, all of them ---- */

static struct plan plan;
static struct packed packed;

static void all_short_sheets(void)
{
    ask_family("every sheet of one or two bytes");
    for (unsigned a = 0; a < 256; a++) {
        uint8_t bytes[2] = {(uint8_t)a, 0};
        ask_sheet(&check_sheet, bytes, 1, &anything);
        for (unsigned b = 0; b < 256; b++) {
            bytes[1] = (uint8_t)b;
            ask_sheet(&check_sheet, bytes, 2, &anything);
        }
    }
}

static void all_near_m(void)
{
    struct dice d;
    dice_seed(&d, ask_seed(), 1);
    uint8_t bytes[9];
    ask_family("every byte of M as every byte");
    for (size_t at = 0; at < 9; at++) {
        for (unsigned v = 0; v < 256; v++) {
            memcpy(bytes, M, 9);
            bytes[at] = (uint8_t)v;
            try_sheet(&d, bytes, 9, &anything);
        }
    }
    ask_family("every two bits of M");
    for (unsigned i = 0; i < 72; i++) {
        for (unsigned j = 0; j < i; j++) {
            memcpy(bytes, M, 9);
            bytes[i / 8] ^= (uint8_t)(128 >> i % 8);
            bytes[j / 8] ^= (uint8_t)(128 >> j % 8);
            try_sheet(&d, bytes, 9, &anything);
        }
    }
}

/* Every truncation, every bit, and with `values` every value of every byte. */
static void all_near(const struct packed *p, bool values)
{
    static uint8_t bytes[SHEET_BYTES];
    struct dice d;
    dice_seed(&d, ask_seed(), 2);
    uint32_t f = 0;
    ask_family("every truncation");
    for (size_t len = 0; len < p->len; len++) {
        while (p->field[f + 1] <= 8 * len) {
            f++;
        }
        struct expected e = {true, CHZ_SHORT, p->field[f]};
        if (values) {
            try_sheet(&d, p->bytes, len, &e);
        } else {
            ask_sheet(&check_sheet, p->bytes, len, &e);
        }
    }
    ask_family("every bit turned");
    memcpy(bytes, p->bytes, p->len);
    for (size_t bit = 0; bit < 8 * p->len; bit++) {
        bytes[bit / 8] ^= (uint8_t)(128 >> bit % 8);
        if (values) {
            try_sheet(&d, bytes, p->len, &anything);
        } else {
            ask_sheet(&check_sheet, bytes, p->len, &anything);
        }
        bytes[bit / 8] ^= (uint8_t)(128 >> bit % 8);
    }
    ask_family("every value of every byte");
    for (size_t at = 0; at < p->len && values; at++) {
        for (unsigned v = 0; v < 256; v++) {
            bytes[at] = (uint8_t)v;
            ask_sheet(&check_sheet, bytes, p->len, &anything);
        }
        bytes[at] = p->bytes[at];
    }
}

void sheets_small(void)
{
    all_short_sheets();
    all_near_m();
    plan_two_contact(&plan);
    pack(&plan, &packed);
    all_near(&packed, true);
}

void sheets_long(void)
{
    struct dice d;
    ask_family("the largest sheets");
    for (uint32_t states = 12; states <= 32; states++) {
        dice_seed(&d, ask_seed(), 100 + states);
        plan_largest(&plan, &d, states);
        pack(&plan, &packed);
        if (states == 12 && (packed.len != CHZ_SHEET_MAX || 4 * plan_words(&plan) != CHZ_CODE_MAX)) {
            fail("the longest sheet hasn't the paper's sizes");
        }
        try_accepted(&d, packed.bytes, packed.len, plan_words(&plan), 20);
    }
    all_near(&packed, false); /* 32 states */
    ask_family("a long tail");
    static uint8_t tail[PEN_BYTES];
    memcpy(tail, packed.bytes, packed.len);
    struct expected e = {true, CHZ_TAIL, packed.bits};
    for (size_t len = packed.len + 1; len <= PEN_BYTES; len += len / 3) {
        try_sheet(&d, tail, len, &e);
    }
    try_sheet(&d, tail, PEN_BYTES, &e);
}

/* ---- Random cases ---- */

uint64_t aimed_seen[NUMBERS];

void random_accepted(struct dice *d)
{
    ask_family("an accepted sheet");
    plan_random(&plan, d, dice_one_in(d, 3) ? 32 : dice_from(d, 2, 9));
    pack(&plan, &packed);
    try_accepted(d, packed.bytes, packed.len, plan_words(&plan), 24);
}

void random_aimed(struct dice *d)
{
    struct expected e;
    uint32_t number = dice_from(d, CHZ_SHORT, CHZ_ACTIVITY);
    ask_family("a sheet spoilt for one number");
    plan_random(&plan, d, dice_one_in(d, 4) ? 32 : 8);
    if (!spoil(&plan, d, number, &packed, &e)) {
        return;
    }
    aimed_seen[number]++;
    try_sheet(d, packed.bytes, packed.len, &e);
    if (number != CHZ_SHORT && number != CHZ_TAIL) {
        ask_family("a sheet spoilt for one number and cut");
        cut(&packed, d, &e);
        try_sheet(d, packed.bytes, packed.len, &e);
    }
}

void random_spoilt_twice(struct dice *d)
{
    struct expected e;
    ask_family("a sheet spoilt for several numbers");
    plan_random(&plan, d, dice_one_in(d, 4) ? 32 : 8);
    uint32_t times = dice_from(d, 2, 4);
    pack(&plan, &packed);
    while (times-- > 0) {
        spoil(&plan, d, dice_from(d, CHZ_LOOP, CHZ_ACTIVITY), &packed, &e);
    }
    if (dice_one_in(d, 3)) {
        spoil(&plan, d, dice_from(d, CHZ_STATE_NO, CHZ_TAIL), &packed, &e);
    }
    try_sheet(d, packed.bytes, packed.len, &anything);
}

void random_mutated(struct dice *d)
{
    ask_family("a sheet mutated");
    plan_random(&plan, d, dice_one_in(d, 4) ? 32 : 6);
    pack(&plan, &packed);
    uint32_t flips = dice_from(d, 1, 4);
    uint32_t near = dice_one_in(d, 3) ? 160 : packed.bits;
    while (flips-- > 0) {
        uint32_t bit = dice_below(d, near < packed.bits ? near : packed.bits);
        packed.bytes[bit / 8] ^= (uint8_t)(128 >> bit % 8);
    }
    switch (dice_below(d, 4)) {
    case 0:
        packed.len = dice_below(d, (uint32_t)packed.len + 1);
        break;
    case 1:
        for (uint32_t more = dice_from(d, 1, 200); more > 0; more--) {
            packed.bytes[packed.len++] = (uint8_t)dice_roll(d);
        }
        break;
    default:
        break;
    }
    try_sheet(d, packed.bytes, packed.len, &anything);
}

void random_bytes(struct dice *d)
{
    static uint8_t bytes[4096];
    ask_family("random bytes");
    size_t len = dice_one_in(d, 8) ? dice_below(d, 4097) : dice_below(d, 120);
    uint32_t thin = dice_below(d, 3); /* fewer ones make smaller fields, and so go deeper */
    for (size_t i = 0; i < len; i++) {
        uint64_t r = dice_roll(d);
        bytes[i] = (uint8_t)(thin == 0 ? r : thin == 1 ? r & r >> 8 : r & r >> 8 & r >> 16);
    }
    if (len > 2 && dice_one_in(d, 2)) {
        /* All states and inputs are named, few transitions. */
        bytes[0] = 0xFF;
        bytes[1] |= 0x80;
        bytes[1] = (uint8_t)(bytes[1] & 0xF8);
        bytes[2] = (uint8_t)(bytes[2] & 0x3F);
    }
    try_sheet(d, bytes, len, &anything);
    try_code(d, bytes, len, 1, &anything);
}

void random_rooms(struct dice *d)
{
    ask_family("every room up to the one needed");
    plan_random(&plan, d, 3);
    pack(&plan, &packed);
    uint32_t needed = 4 * plan_words(&plan);
    struct expected room = {true, CHZ_ROOM, needed};
    for (uint32_t n = needed > 300 ? needed - 300 : 0; n < needed + 20; n++) {
        ask_room(packed.bytes, packed.len, n, n < needed ? &room : &fine);
    }
}
