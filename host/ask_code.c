/*
 * ask_code.c: check_code; code, right, spoilt on purpose, and all the small
 * ones. Each is run as well.
 */

#include "cases.h"
#include "chmurzeta.h"
#include "make_code.h"
#include "second.h"

#include <inttypes.h>
#include <stdio.h>
#include <string.h>

/* ---- The call ---- */

static uint32_t ask_check_code(bool second, const struct given *g, struct cells *c, uint8_t *code)
{
    (void)code;
    return (second ? second_check_code : chz_check_code)(g->bytes, g->len, &c->place);
}

struct call check_code = {.name = "check_code", .answers = ANSWERS(CHZ_CODE_END, CHZ_LANDING), .ask = ask_check_code};

/* ---- Any code ---- */

static struct text spoilt;

void try_code(struct dice *d, const uint8_t *bytes, size_t len, uint32_t runs, const struct expected *e)
{
    struct given given = {bytes, len, 0, 0, 0, 0, 0, 0};
    both(&check_code, &given, e);
    while (runs-- > 0) {
        struct given g = some_record(d, bytes, len);
        both(&run, &g, e);
    }
}

void try_damaged(struct dice *d, const uint8_t *code, uint32_t len)
{
    for (int i = 0; i < 4; i++) {
        memcpy(spoilt.bytes, code, len);
        spoilt.len = len;
        uint32_t flips = dice_from(d, 1, 3);
        while (flips-- > 0) {
            uint32_t bit = dice_below(d, 8 * len);
            spoilt.bytes[bit / 8] ^= (uint8_t)(128 >> bit % 8);
        }
        try_code(d, spoilt.bytes, spoilt.len, 2, &anything);
    }
    /* A jump of it sent elsewhere. */
    memcpy(spoilt.bytes, code, len);
    spoilt.len = len;
    uint32_t from = dice_below(d, len / 4);
    for (uint32_t n = 0; n < len / 4; n++) {
        uint32_t w = (from + n) % (len / 4);
        if (text_code(&spoilt, w) >= W_JMPC && text_code(&spoilt, w) <= W_JMP) {
            text_set(&spoilt, w, text_code(&spoilt, w), dice_below(d, len / 4 + 2));
            try_code(d, spoilt.bytes, spoilt.len, 2, &anything);
            break;
        }
    }
}

/* ---- Small things, all of them ---- */

static void all_single_words(void)
{
    static const uint32_t operand[] = {0,   1,     2,     3,       4,       14,       15,       16,       17,      30,
                                       31,  32,    33,    63,      64,      127,      128,      255,      256,     272,
                                       288, 65535, 65536, 0x10001, 0x1F0000, 0x7FFFFF, 0x800000, 0xFFFF00, 0xFFFFFE, 0xFFFFFF};
    struct text t;
    struct dice d;
    dice_seed(&d, ask_seed(), 3);
    ask_family("every code, many operands");
    for (uint32_t code = 0; code < 256; code++) {
        for (size_t i = 0; i < sizeof operand / sizeof operand[0]; i++) {
            t.len = 4;
            text_set(&t, 0, code, operand[i]);
            try_code(&d, t.bytes, t.len, 1, &anything);
            t.len = 8;
            text_set(&t, 1, W_END, 0);
            try_code(&d, t.bytes, t.len, 1, &anything);
            t.len = 16; /* with a result that is true */
            text_set(&t, 0, W_NOT, 0);
            text_set(&t, 1, code, operand[i]);
            text_set(&t, 2, W_SA, 5);
            text_set(&t, 3, W_END, 0);
            try_code(&d, t.bytes, t.len, 2, &anything);
            t.len = 20; /* and inside a parenthesis */
            text_set(&t, 1, W_OR, 0);
            text_set(&t, 2, code, operand[i]);
            text_set(&t, 3, W_CLOSE, 0);
            text_set(&t, 4, W_END, 0);
            try_code(&d, t.bytes, t.len, 1, &anything);
        }
    }
}

static void all_short_codes(void)
{
    static const struct {
        uint8_t code, operand;
    } letter[] = {
        {W_END, 0}, {W_LDS, 0},  {W_LDI, 0},  {W_NOT, 0},  {W_AND, 0},  {W_OR, 0},  {W_CLOSE, 0}, {W_ANDT, 100}, {W_R, 0}, {W_S, 1},
        {W_RA, 0},  {W_SA, 1},   {W_JMPC, 1}, {W_JMPC, 2}, {W_JMPC, 3}, {W_JMPC, 4}, {W_JMP, 2},  {W_JMP, 3},    {W_JMP, 4}, {W_TRES, 0},
    };
    enum { LETTERS = sizeof letter / sizeof letter[0] };
    struct text t;
    struct dice d;
    dice_seed(&d, ask_seed(), 4);
    ask_family("every code of four letters and END");
    t.len = 20;
    text_set(&t, 4, W_END, 0);
    for (uint32_t n = 0; n < LETTERS * LETTERS * LETTERS * LETTERS; n++) {
        uint32_t rest = n;
        for (uint32_t w = 0; w < 4; w++) {
            text_set(&t, w, letter[rest % LETTERS].code, letter[rest % LETTERS].operand);
            rest /= LETTERS;
        }
        struct given g = {t.bytes, t.len, 0, 0, 0, 0, 0, 0};
        g.flags = dice_below(&d, 4);
        g.outputs = (uint16_t)dice_below(&d, 4);
        g.clock = dice_from(&d, 98, 101);
        g.inputs = (uint16_t)dice_below(&d, 2);
        g.elapsed = dice_below(&d, 3);
        if (both(&check_code, &g, &anything).number == CHZ_OK) {
            both(&run, &g, &anything);
        }
    }
}

void code_small(void)
{
    all_single_words();
    all_short_codes();
}

void code_limits(void)
{
    static struct text t;
    static const struct expected end = {true, CHZ_CODE_END, 0};
    static const uint32_t words[] = {1, 2, 63, 64, 65, 127, 128, 129, 255, 256, 257, 511, 1023, 1024, 4095, 4096, 8191, 8192};
    struct dice d;
    dice_seed(&d, ask_seed(), 5);
    ask_family("code of every size up to its limit");
    for (size_t i = 0; i < sizeof words / sizeof words[0]; i++) {
        for (int n = 0; n < 6; n++) {
            text_random(&t, &d, words[i]);
            try_code(&d, t.bytes, t.len, 4, &fine);
        }
    }
    for (int n = 0; n < 6; n++) {
        text_random(&t, &d, 8192);
        memset(t.bytes + t.len, 0, 8);
        for (uint32_t more = 1; more <= 8; more++) {
            try_code(&d, t.bytes, t.len + more, 1, &end);
        }
        for (uint32_t less = 1; less <= 3; less++) {
            try_code(&d, t.bytes, t.len - less, 1, &end);
        }
    }
    ask_family("landings at both ends of the longest code");
    for (uint32_t w = 0; w < 8192; w++) {
        text_set(&t, w, W_LDI, 0);
    }
    text_set(&t, 8191, W_END, 0);
    text_set(&t, 8189, W_AND, 0);
    text_set(&t, 8190, W_CLOSE, 0);
    t.len = 4 * 8192;
    for (uint32_t w = 0; w < 8189; w += 63) {
        struct expected e = {true, CHZ_LANDING, w};
        text_set(&t, w, W_JMP, 8190);
        try_code(&d, t.bytes, t.len, 1, &e);
        text_set(&t, w, W_JMPC, 8189);
        try_code(&d, t.bytes, t.len, 1, &fine);
        text_set(&t, w, W_JMPC, 8191);
        try_code(&d, t.bytes, t.len, 1, &fine);
    }
    ask_family("no code at NULL");
    try_code(&d, NULL, 0, 2, &end);
}

/* ---- Random cases ---- */

static uint64_t fault_seen[WORD_FAULTS];
static struct text text;

void random_code(struct dice *d)
{
    struct expected e;
    uint32_t words = dice_one_in(d, 40) ? dice_from(d, 1, 8192) : dice_from(d, 1, 80);

    ask_family("random code that must be accepted");
    text_random(&text, d, words);
    try_code(d, text.bytes, text.len, 6, &fine);

    ask_family("code spoilt at its end");
    spoilt = text;
    spoil_end(&spoilt, d, &e);
    try_code(d, spoilt.bytes, spoilt.len, 1, &e);
    aimed_seen[CHZ_CODE_END]++;

    ask_family("code with a word at fault");
    for (int n = 0; n < 4; n++) {
        uint32_t fault = dice_below(d, WORD_FAULTS);
        spoilt = text;
        if (spoil_word(&spoilt, d, (enum word_fault)fault, &e)) {
            try_code(d, spoilt.bytes, spoilt.len, 1, &e);
            fault_seen[fault]++;
            aimed_seen[CHZ_WORD]++;
        }
    }

    ask_family("code with a landing at fault");
    spoilt = text;
    if (spoil_landing(&spoilt, d, &e)) {
        try_code(d, spoilt.bytes, spoilt.len, 1, &e);
        aimed_seen[CHZ_LANDING]++;
        ask_family("code with a landing and a word at fault");
        if (spoil_word(&spoilt, d, (enum word_fault)dice_below(d, WORD_FAULTS), &e)) {
            try_code(d, spoilt.bytes, spoilt.len, 1, &e);
        }
    }

    ask_family("code mutated");
    for (int n = 0; n < 3; n++) {
        spoilt = text;
        uint32_t flips = dice_from(d, 1, 4);
        while (flips-- > 0) {
            uint32_t bit = dice_below(d, (uint32_t)(8 * text.len));
            spoilt.bytes[bit / 8] ^= (uint8_t)(128 >> bit % 8);
        }
        try_code(d, spoilt.bytes, spoilt.len, 1, &anything);
    }

    ask_family("random words");
    words = dice_from(d, 1, 12);
    for (uint32_t w = 0; w < words; w++) {
        static const uint8_t bare[6] = {W_NOT, W_AND, W_OR, W_CLOSE, W_TRES, W_END};
        bool plain = dice_one_in(d, 2);
        uint32_t code = plain ? bare[dice_below(d, 6)] : dice_below(d, 16);
        text_set(&spoilt, w, code, plain ? 0 : dice_below(d, words + 3));
    }
    if (dice_one_in(d, 2)) {
        text_set(&spoilt, words - 1, W_END, 0);
    }
    spoilt.len = 4 * (size_t)words;
    try_code(d, spoilt.bytes, spoilt.len, 1, &anything);
}

int code_summary(void)
{
    int missing = 0;
    printf("\nOf WORD, by reason:\n");
    for (int f = 0; f < WORD_FAULTS; f++) {
        printf("  %-26s %8" PRIu64 "%s\n", word_fault_name[f], fault_seen[f], fault_seen[f] == 0 ? " NEVER SEEN" : "");
        missing += fault_seen[f] == 0;
    }
    return missing;
}
