/*
 * numbers.c: see numbers.h.
 */

#include "numbers.h"

/* 19 to 25 are kept for calls that are to come. */
const char *const number_name[NUMBERS] = {
    "accepted", "SHORT",    "ONE-STATE", "STATE-NO",  "INPUT-NO", "BIG",    "TAIL",     "LOOP",    "PAIR",
    "RANK",     "NO-HOME",  "HOME-FORM", "GATE",      "ACTIVITY", "ROOM",   "CODE-END", "WORD",    "LANDING",
    "NO-STATE", "TEXT",     "UNUSED",    "WEIGHTS",   "STEPS",    "IDLE-WAIT", "FOREIGN", "FIELD",
};
