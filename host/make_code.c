/*
 * make_code.c: see make_code.h. Nothing here calls either program: what a
 * maker says must follow is worked out from document 01 alone.
 */

#include "make_code.h"

#include "chmurzeta.h"

#include <string.h>

const char *const word_fault_name[WORD_FAULTS] = {
    [FAULT_UNKNOWN] = "an unknown code",
    [FAULT_OPERAND_END] = "END with an operand",
    [FAULT_OPERAND_NOT] = "NOT with an operand",
    [FAULT_OPERAND_AND] = "AND( with an operand",
    [FAULT_OPERAND_OR] = "OR( with an operand",
    [FAULT_OPERAND_CLOSE] = ") with an operand",
    [FAULT_OPERAND_TRES] = "TRES with an operand",
    [FAULT_FLAG_LDS] = "LDS of a flag over 31",
    [FAULT_FLAG_R] = "R of a flag over 31",
    [FAULT_FLAG_S] = "S of a flag over 31",
    [FAULT_INPUT_LDI] = "LDI of an input over 15",
    [FAULT_OUTPUT_RA] = "RA of an output over 15",
    [FAULT_OUTPUT_SA] = "SA of an output over 15",
    [FAULT_JMPC_SELF] = "JMPC to its own word",
    [FAULT_JMPC_BACK] = "JMPC back",
    [FAULT_JMPC_OUT] = "JMPC out of the code",
    [FAULT_JMP_SELF] = "JMP to its own word",
    [FAULT_JMP_BACK] = "JMP back",
    [FAULT_JMP_OUT] = "JMP out of the code",
    [FAULT_CLOSE_NONE] = ") with nothing open",
    [FAULT_NINTH_AND] = "a ninth open, AND(",
    [FAULT_NINTH_OR] = "a ninth open, OR(",
    [FAULT_OPEN_LDS] = "LDS with one open",
    [FAULT_OPEN_JMP] = "JMP with one open",
    [FAULT_OPEN_JMPC] = "JMPC with one open",
    [FAULT_OPEN_END] = "END with one open",
};

void text_set(struct text *t, uint32_t word, uint32_t code, uint32_t operand)
{
    uint8_t *b = t->bytes + 4 * word;
    b[0] = (uint8_t)code;
    b[1] = (uint8_t)(operand >> 16);
    b[2] = (uint8_t)(operand >> 8);
    b[3] = (uint8_t)operand;
}

uint32_t text_code(const struct text *t, uint32_t word)
{
    return t->bytes[4 * word];
}

uint32_t text_operand(const struct text *t, uint32_t word)
{
    const uint8_t *b = t->bytes + 4 * word;
    return (uint32_t)b[1] << 16 | (uint32_t)b[2] << 8 | b[3];
}

static uint32_t text_words(const struct text *t)
{
    return (uint32_t)(t->len / 4);
}

/* Parentheses open before each word of accepted code. */
static void walk(const struct text *t, uint8_t *open)
{
    uint8_t now = 0;
    for (uint32_t w = 0; w < text_words(t); w++) {
        open[w] = now;
        switch (text_code(t, w)) {
        case W_AND:
        case W_OR:
            now++;
            break;
        case W_CLOSE:
            now--;
            break;
        default:
            break;
        }
    }
}

void text_random(struct text *t, struct dice *d, uint32_t words)
{
    /* How often each word stands, out of 32, where it may stand. */
    static const uint8_t bag[32] = {
        W_LDI, W_LDI,  W_LDI,  W_LDI, W_LDS,   W_LDS,   W_LDS,   W_NOT,   W_NOT,   W_AND,  W_AND,
        W_AND, W_OR,   W_OR,   W_OR,  W_CLOSE, W_CLOSE, W_CLOSE, W_CLOSE, W_CLOSE, W_ANDT, W_ANDT,
        W_R,   W_S,    W_S,    W_RA,  W_SA,    W_SA,    W_JMPC,  W_JMPC,  W_JMP,   W_TRES,
    };
    uint8_t open[8192];
    uint32_t depth = 0;
    bool deep = dice_one_in(d, 3);
    bool ends = dice_one_in(d, 4);
    t->len = 4 * (size_t)words;
    for (uint32_t w = 0; w + 1 < words; w++) {
        uint32_t left = words - 1 - w; /* words before the last END, this one included */
        uint32_t code;
        for (;;) {
            code = left == depth ? (uint32_t)W_CLOSE : bag[dice_below(d, 32)];
            if (code == W_TRES && ends && dice_one_in(d, 2)) {
                code = W_END;
            }
            if (code == W_CLOSE && deep && left > depth + 2 && !dice_one_in(d, 4)) {
                continue;
            }
            bool opens = code == W_AND || code == W_OR;
            bool closed_only = code == W_LDS || code == W_JMP || code == W_JMPC || code == W_END;
            if (opens ? depth < 8 && left >= depth + 2 : code == W_CLOSE ? depth > 0 : !(closed_only && depth > 0)) {
                break;
            }
        }
        uint32_t operand = 0;
        switch (code) {
        case W_LDS:
        case W_R:
        case W_S:
            operand = dice_below(d, 32);
            break;
        case W_LDI:
        case W_RA:
        case W_SA:
            operand = dice_below(d, 16);
            break;
        case W_ANDT:
            operand = dice_time(d) & 0xFFFFFF;
            break;
        case W_AND:
        case W_OR:
            depth++;
            break;
        case W_CLOSE:
            depth--;
            break;
        default:
            break;
        }
        text_set(t, w, code, operand);
    }
    text_set(t, words - 1, W_END, 0);

    /* Targets last: only then is it known where nothing is open. */
    walk(t, open);
    for (uint32_t w = 0; w + 1 < words; w++) {
        uint32_t code = text_code(t, w);
        if (code == W_JMP || code == W_JMPC) {
            uint32_t far = dice_one_in(d, 8) ? words - 1 - w : 12;
            uint32_t to = dice_from(d, w + 1, w + far < words - 1 ? w + far : words - 1);
            while (open[to] != 0) {
                to++; /* the last word is reached with nothing open */
            }
            text_set(t, w, code, to);
        }
    }
}

void spoil_end(struct text *t, struct dice *d, struct expected *e)
{
    uint32_t words = text_words(t);
    e->known = true;
    e->number = CHZ_CODE_END;
    e->place = 0;
    switch (dice_below(d, 4)) {
    case 0:
        t->len = 0;
        break;
    case 1: /* not whole words, mostly with END where a careless eye looks */
        t->len -= dice_from(d, 1, 3);
        break;
    case 2:
        memset(t->bytes + t->len, 0, 4);
        t->len += dice_from(d, 1, 3);
        break;
    default:
        text_set(t, words - 1, dice_one_in(d, 2) ? dice_from(d, 1, 14) : dice_from(d, 1, 255), 0);
        break;
    }
}

/* A word before the last one with `low` to `high` open before it; words if none. */
static uint32_t find_open(const uint8_t *open, struct dice *d, uint32_t words, uint32_t low, uint32_t high)
{
    if (words < 2) {
        return words;
    }
    uint32_t from = dice_below(d, words - 1);
    for (uint32_t n = 0; n < words - 1; n++) {
        uint32_t w = (from + n) % (words - 1);
        if (open[w] >= low && open[w] <= high) {
            return w;
        }
    }
    return words;
}

/* A value above a limit, often just above it. */
static uint32_t above(struct dice *d, uint32_t limit)
{
    switch (dice_below(d, 4)) {
    case 0:
        return limit + 1;
    case 1:
        return 0xFFFFFF;
    case 2: { /* right in its low byte */
        uint32_t high = dice_from(d, 1, 0xFFFF);
        return high << 8 | (dice_below(d, limit + 1) & 255);
    }
    default:
        return dice_from(d, limit + 1, 0xFFFFFF);
    }
}

bool spoil_word(struct text *t, struct dice *d, enum word_fault fault, struct expected *e)
{
    uint8_t open[8192];
    uint32_t words = text_words(t);
    uint32_t w;
    walk(t, open);
    e->known = true;
    e->number = CHZ_WORD;

    switch (fault) {
    case FAULT_OPERAND_END:
        if (dice_one_in(d, 2)) {
            text_set(t, words - 1, W_END, above(d, 0));
            e->place = words - 1;
            return true;
        }
        break;
    case FAULT_OPEN_END:
        if (words >= 2 && dice_one_in(d, 2)) {
            text_set(t, words - 2, dice_one_in(d, 2) ? W_AND : W_OR, 0);
            e->place = words - 1;
            return true;
        }
        break;
    default:
        break;
    }

    /* The depth wanted before the word at fault. */
    uint32_t low = 0;
    uint32_t high = 8;
    switch (fault) {
    case FAULT_OPERAND_END:
    case FAULT_FLAG_LDS:
    case FAULT_JMPC_SELF:
    case FAULT_JMPC_BACK:
    case FAULT_JMPC_OUT:
    case FAULT_JMP_SELF:
    case FAULT_JMP_BACK:
    case FAULT_JMP_OUT:
    case FAULT_CLOSE_NONE:
        high = 0;
        break;
    case FAULT_OPERAND_AND:
    case FAULT_OPERAND_OR:
        high = 7;
        break;
    case FAULT_OPERAND_CLOSE:
    case FAULT_OPEN_LDS:
    case FAULT_OPEN_JMP:
    case FAULT_OPEN_JMPC:
    case FAULT_OPEN_END:
        low = 1;
        break;
    case FAULT_NINTH_AND:
    case FAULT_NINTH_OR:
        low = 8;
        break;
    default:
        break;
    }
    w = find_open(open, d, words, low, high);
    if (w == words || dice_one_in(d, 4)) {
        /* Open as many as are wanted, from a word on. */
        w = find_open(open, d, words, 0, high);
        if (w == words) {
            return false;
        }
        for (uint32_t depth = open[w]; depth < low; depth++) {
            text_set(t, w++, dice_one_in(d, 2) ? W_AND : W_OR, 0);
        }
        if (w + 1 >= words) {
            return false;
        }
    }

    uint32_t operand = above(d, 0);
    uint32_t forward = dice_from(d, w + 1, words - 1);
    uint32_t out = dice_one_in(d, 2) ? words : above(d, words - 1);
    if (out < words) {
        out = 0xFFFFFF; /* right in its low byte may be right */
    }
    switch (fault) {
    case FAULT_UNKNOWN:
        operand = dice_one_in(d, 2) ? 0 : dice_below(d, 16);
        text_set(t, w, dice_one_in(d, 3) ? 15 : dice_from(d, 15, 255), operand);
        break;
    case FAULT_OPERAND_END:
        text_set(t, w, W_END, operand);
        break;
    case FAULT_OPERAND_NOT:
        text_set(t, w, W_NOT, operand);
        break;
    case FAULT_OPERAND_AND:
        text_set(t, w, W_AND, operand);
        break;
    case FAULT_OPERAND_OR:
        text_set(t, w, W_OR, operand);
        break;
    case FAULT_OPERAND_CLOSE:
        text_set(t, w, W_CLOSE, operand);
        break;
    case FAULT_OPERAND_TRES:
        text_set(t, w, W_TRES, operand);
        break;
    case FAULT_FLAG_LDS:
        text_set(t, w, W_LDS, above(d, 31));
        break;
    case FAULT_FLAG_R:
        text_set(t, w, W_R, above(d, 31));
        break;
    case FAULT_FLAG_S:
        text_set(t, w, W_S, above(d, 31));
        break;
    case FAULT_INPUT_LDI:
        text_set(t, w, W_LDI, above(d, 15));
        break;
    case FAULT_OUTPUT_RA:
        text_set(t, w, W_RA, above(d, 15));
        break;
    case FAULT_OUTPUT_SA:
        text_set(t, w, W_SA, above(d, 15));
        break;
    case FAULT_JMPC_SELF:
    case FAULT_JMP_SELF:
        text_set(t, w, fault == FAULT_JMP_SELF ? W_JMP : W_JMPC, w);
        break;
    case FAULT_JMPC_BACK:
    case FAULT_JMP_BACK:
        if (w == 0) {
            return false;
        }
        text_set(t, w, fault == FAULT_JMP_BACK ? W_JMP : W_JMPC, dice_one_in(d, 2) ? w - 1 : dice_below(d, w));
        break;
    case FAULT_JMPC_OUT:
    case FAULT_JMP_OUT:
        text_set(t, w, fault == FAULT_JMP_OUT ? W_JMP : W_JMPC, out);
        break;
    case FAULT_CLOSE_NONE:
        text_set(t, w, W_CLOSE, 0);
        break;
    case FAULT_NINTH_AND:
        text_set(t, w, W_AND, 0);
        break;
    case FAULT_NINTH_OR:
        text_set(t, w, W_OR, 0);
        break;
    case FAULT_OPEN_LDS:
        text_set(t, w, W_LDS, dice_below(d, 32));
        break;
    case FAULT_OPEN_JMP:
        text_set(t, w, W_JMP, forward);
        break;
    case FAULT_OPEN_JMPC:
        text_set(t, w, W_JMPC, forward);
        break;
    case FAULT_OPEN_END:
        text_set(t, w, W_END, 0);
        break;
    default:
        return false;
    }
    e->place = w;
    return true;
}

bool spoil_landing(struct text *t, struct dice *d, struct expected *e)
{
    uint8_t open[8192];
    uint32_t words = text_words(t);
    uint32_t jumps = dice_from(d, 1, 3);
    walk(t, open);
    while (jumps-- > 0) {
        uint32_t to = find_open(open, d, words, 1, 8);
        uint32_t w = find_open(open, d, words, 0, 0);
        /* A parenthesis that goes would change what is open below it. */
        if (to < words && w < to && text_code(t, w) != W_AND && text_code(t, w) != W_OR) {
            text_set(t, w, dice_one_in(d, 2) ? W_JMP : W_JMPC, to);
        }
    }
    for (uint32_t w = 0; w < words; w++) {
        uint32_t code = text_code(t, w);
        if ((code == W_JMP || code == W_JMPC) && open[text_operand(t, w)] > 0) {
            e->known = true;
            e->number = CHZ_LANDING;
            e->place = w;
            return true;
        }
    }
    return false;
}
