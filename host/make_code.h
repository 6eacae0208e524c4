/*
 * make_code.h: code, right and wrong on purpose, with the answer that must
 * follow; as make_sheets.h.
 */

#ifndef MAKE_CODE_H
#define MAKE_CODE_H

#include "dice.h"
#include "numbers.h"

enum { CODE_BYTES = 33000 };

enum {
    W_END = 0,
    W_LDS,
    W_LDI,
    W_NOT,
    W_AND,
    W_OR,
    W_CLOSE,
    W_ANDT,
    W_R,
    W_S,
    W_RA,
    W_SA,
    W_JMPC,
    W_JMP,
    W_TRES
};

struct text {
    uint8_t bytes[CODE_BYTES];
    size_t len;
};

void text_set(struct text *t, uint32_t word, uint32_t code, uint32_t operand);
uint32_t text_code(const struct text *t, uint32_t word);
uint32_t text_operand(const struct text *t, uint32_t word);

/* Code of exactly `words` words that the checker must accept. */
void text_random(struct text *t, struct dice *d, uint32_t words);

/* Each way in which a word can be at fault. */
enum word_fault {
    FAULT_UNKNOWN,
    FAULT_OPERAND_END,
    FAULT_OPERAND_NOT,
    FAULT_OPERAND_AND,
    FAULT_OPERAND_OR,
    FAULT_OPERAND_CLOSE,
    FAULT_OPERAND_TRES,
    FAULT_FLAG_LDS,
    FAULT_FLAG_R,
    FAULT_FLAG_S,
    FAULT_INPUT_LDI,
    FAULT_OUTPUT_RA,
    FAULT_OUTPUT_SA,
    FAULT_JMPC_SELF,
    FAULT_JMPC_BACK,
    FAULT_JMPC_OUT,
    FAULT_JMP_SELF,
    FAULT_JMP_BACK,
    FAULT_JMP_OUT,
    FAULT_CLOSE_NONE,
    FAULT_NINTH_AND,
    FAULT_NINTH_OR,
    FAULT_OPEN_LDS,
    FAULT_OPEN_JMP,
    FAULT_OPEN_JMPC,
    FAULT_OPEN_END,
    WORD_FAULTS
};

extern const char *const word_fault_name[WORD_FAULTS];

/* Spoil accepted code for 15, 16 and 17. False where it can't be done. */
void spoil_end(struct text *t, struct dice *d, struct expected *e);
bool spoil_word(struct text *t, struct dice *d, enum word_fault fault, struct expected *e);
bool spoil_landing(struct text *t, struct dice *d, struct expected *e);

#endif
