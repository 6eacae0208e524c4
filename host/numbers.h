/*
 * numbers.h: the numbers that the calls answer, and what a test expects of
 * one answer.
 */

#ifndef NUMBERS_H
#define NUMBERS_H

#include <stdbool.h>
#include <stdint.h>

/* One above the largest number of any call: each table by number has this
   size, so a new number changes this line and its name and nothing else. */
enum { NUMBERS = 26 };

extern const char *const number_name[NUMBERS];

/* The answer that must come, where it is known. */
struct expected {
    bool known;
    uint32_t number;
    uint32_t place;
};

#endif
