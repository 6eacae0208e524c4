/*
 * chmurzeta.h: the safety recorder's seven calls, for firmware in C or C++.
 *
 * A SHEET is a bit-packed description of a Boolean state machine. CODE is a
 * list of four-byte words that does the same work as the sheet. Five things
 * are offered, and a cold start for each of the two ways of scanning:
 *
 *     chz_check_sheet   is this byte string a sheet that may be used?
 *     chz_cold_scan     the record to begin with, for chz_scan
 *     chz_scan          one scan, straight from the sheet (the reference)
 *     chz_translate     the sheet's code, into your buffer
 *     chz_cold_run      the record to begin with, for chz_run
 *     chz_check_code    is this byte string code that may be run?
 *     chz_run           one scan, from code
 *
 * From a cold start, and given the same inputs and times, chz_run on the
 * translation of a sheet and chz_scan on the sheet agree after every scan:
 * one flag is set, it is that of the reference's state, and the outputs and
 * the clock are the same.
 *
 *
 * WHAT EVERY CALL NEEDS
 *
 *   - Every pointer is valid for what is read or written through it, and
 *     suitably aligned. A pointer to bytes is valid for its length.
 *   - What is written through one pointer overlaps nothing that another
 *     pointer of the same call leads to.
 *   - A length of 0 is allowed; no byte is touched through its pointer then,
 *     and the pointer may be NULL. No other pointer may be NULL.
 *   - The bytes themselves are free: any sheet, any code, any record, any
 *     input word and any elapsed time has a defined answer. A call never
 *     trusts an earlier check: chz_scan, chz_translate and the cold starts
 *     judge the sheet again, chz_run judges the code again.
 *
 * Nothing is kept between calls. There is no global data, no heap and no
 * lock: calls may run at the same time in different tasks, and an interrupt
 * handler may call while a task is inside a call, as long as they do not
 * share the memory that they write.
 *
 * Stack: at most 8192 bytes for any one call, its callees included. 3,200 were measured at the most, instruction by
 * instruction, so that bytes which are reserved and never written count too. Where the first call of a program binds
 * memset or memcpy late, on the stack of that call, it was 5,576; the loader's share of that differs by machine.
 *
 * Registers: the calls use xmm registers besides the general ones, as any C code for x86-64 may. An interrupt handler
 * that calls saves them first, and so does the switch of tasks.
 *
 *
 * WHAT EVERY CALL ANSWERS
 *
 * The return value is 0 (CHZ_OK) where accepted, else one of the numbers
 * below, which says why it was refused. `*place` says where: it is written
 * by every call, and is 0 where accepted. Every out-parameter is settled by
 * the arguments alone, also where the call refuses:
 *
 *   - chz_scan and chz_run leave a refused record as it was given;
 *   - chz_cold_scan and chz_cold_run set a refused record to zeros;
 *   - chz_translate sets `*length` to 0 and writes no byte of `code`.
 *
 *
 * WHAT MAY CHANGE
 *
 * CHZ_VERSION is 10000 times the first number of the version, plus 100 times
 * the second, plus the third. Between two versions
 *
 *   - the third goes up where nothing that a caller can see has changed;
 *   - the second where calls were added, with the numbers that they answer;
 *   - the first where a call that was there takes other arguments, the same
 *     bytes get another answer, or a number or its place has another meaning.
 *     Until version 1.0.0 this raises the second.
 *
 * Numbers may be added in any but the third. So treat every number but 0 as a
 * refusal, also one that isn't listed below.
 *
 * Firmware can say which headers it was written for:
 *
 *     #if CHZ_VERSION / 100 != 1
 *     #error "written for chmurzeta 0.1"
 *     #endif
 *
 *
 * HOW IT IS USED
 *
 * In production, from a sheet that was accepted in the workshop or is
 * accepted at start-up:
 *
 *     1. chz_translate once, into a buffer of CHZ_CODE_MAX bytes.
 *     2. chz_cold_run once, for the record to begin with.
 *     3. chz_run in each turn of the scan task, with the record as the last
 *        turn left it, the inputs read now, and the ms since the last turn.
 *
 * A refusal is a fault of the bytes or of the memory that holds them, and
 * comes back at every turn: go to the safe state, and keep number and place
 * for the log. chz_scan does the same work as chz_run straight from the
 * sheet; it is the reference to compare with. host/example.c has both.
 *
 *
 * HOW TO LINK
 *
 * The calls are in librecorder.a, a static library for x86-64 Linux. It needs
 * at most two functions, memcpy and memset, which any C library has; firmware without
 * one gives its own. There is nothing else to link:
 *
 *     cc -O2 -Iinclude firmware.c librecorder.a -o firmware
 *
 * Where it was installed (make -C host install PREFIX=...):
 *
 *     cc -O2 firmware.c $(pkg-config --cflags --libs chmurzeta) -o firmware
 *
 * On an Arm host, build for x86-64 and run under user emulation:
 *
 *     x86_64-linux-gnu-gcc -static -Iinclude firmware.c librecorder.a -o fw
 *     qemu-x86_64 ./fw
 */

#ifndef CHMURZETA_H
#define CHMURZETA_H

#include <stddef.h>
#include <stdint.h>

#ifdef __cplusplus
extern "C" {
#endif

#define CHZ_VERSION 100 /* 0.1.0 */

/*
 * The numbers answered, and what `*place` is for each. docs/REFERENCE.md has
 * an example of each, and what to do about it. Numbers may be added.
 *
 * Bits of a sheet are counted from 0, which is the top bit of byte 0.
 * Transitions, states and words are counted from 0 as they stand.
 *
 * A sheet is judged 1 to 6 in reading order, so the first fault met is given;
 * a sheet read to its end is judged 7 to 13, the lowest number first, and
 * within a number the lowest place. Then come 14 (chz_translate) or 18
 * (chz_scan). Code is judged 15, 16, 17 in that order, lowest place first.
 */

/* Accepted. Place 0. */
#define CHZ_OK 0u
/* A field isn't wholly there. Place: its first bit. */
#define CHZ_SHORT 1u
/* The states field is 0. Place 0. */
#define CHZ_ONE_STATE 2u
/* A transition names a state that the sheet hasn't.
   Place: first bit of that field. */
#define CHZ_STATE_NO 3u
/* A condition names an input that the sheet hasn't.
   Place: first bit of the number. */
#define CHZ_INPUT_NO 4u
/* A condition's 32nd node, or a node at depth 9.
   Place: first bit of its tag. */
#define CHZ_BIG 5u
/* A spare bit is 1, or a further byte follows.
   Place: first bit after the last condition. */
#define CHZ_TAIL 6u
/* Source equals destination. Place: the transition. */
#define CHZ_LOOP 7u
/* An earlier transition has the same source and destination.
   Place: the later transition. */
#define CHZ_PAIR 8u
/* An earlier transition has the same source and priority.
   Place: the later transition. */
#define CHZ_RANK 9u
/* A state other than 0 has no transition to 0. Place: the state. */
#define CHZ_NO_HOME 10u
/* A transition to 0 lacks priority 0, wait 0 or the condition NOT input 0.
   Place: the transition. */
#define CHZ_HOME_FORM 11u
/* A transition from 0 has a condition that is neither input 0 nor an AND
   whose first operand is input 0. Place: the transition. */
#define CHZ_GATE 12u
/* Output 0 is false in state 0 or true in another. Place: the state. */
#define CHZ_ACTIVITY 13u
/* The code needs more bytes than the buffer has. Place: the bytes needed. */
#define CHZ_ROOM 14u
/* Code is empty, over CHZ_CODE_LIMIT, not whole words, or the code byte of
   its last word isn't 0. Place 0. */
#define CHZ_CODE_END 15u
/* A word is at fault. Place: the word. */
#define CHZ_WORD 16u
/* A parenthesis is open just before a jump's target.
   Place: the word of the jump. */
#define CHZ_LANDING 17u
/* chz_scan was given a state that the sheet hasn't. Place: the state given. */
#define CHZ_NO_STATE 18u

/* Sizes. A buffer of CHZ_CODE_MAX bytes has room for any sheet's code. */
#define CHZ_SHEET_MAX 2537u     /* bytes: no accepted sheet is longer */
#define CHZ_CODE_MAX 26028u     /* bytes: no translation is longer */
#define CHZ_CODE_LIMIT 32768u   /* bytes: no accepted code is longer */
#define CHZ_CLOCK_MAX 16777215u /* ms: the clock's hold, and the largest wait */

/*
 * A record is what lasts from one scan to the next. You keep it, and hand it
 * to the next scan as the last one left it:
 *
 *   state     the number of the active state (chz_scan)
 *   flags     the same as a word: flag s has weight 2^s (chz_run)
 *   outputs   output a has weight 2^a; output 0 is activity
 *   clock     ms since the state last changed, held at CHZ_CLOCK_MAX
 *
 * Of a scan's two arguments, `inputs` has input i with weight 2^i (input 0 is
 * activation; inputs that the sheet hasn't are ignored) and `elapsed` is the
 * ms since the scan before, any 32-bit number.
 */

/*
 * Judges a sheet.
 *
 * Needs:   `sheet_len` bytes at `sheet`.
 * Answers: 0, or 1 to 13.
 */
uint32_t chz_check_sheet(const uint8_t *sheet, size_t sheet_len,
                         uint32_t *place);

/*
 * Judges code, whoever wrote it.
 *
 * Needs:   `code_len` bytes at `code`.
 * Answers: 0, or 15 to 17. Accepted code stops after at most one pass over
 *          its words, whatever the record, inputs and elapsed time.
 */
uint32_t chz_check_code(const uint8_t *code, size_t code_len, uint32_t *place);

/*
 * Writes the code of a sheet.
 *
 * Needs:   `sheet_len` bytes at `sheet`; `code_len` bytes of room at `code`.
 * Answers: 0, or 1 to 14. Where accepted, `*length` bytes of code stand from
 *          the start of `code` and no byte after them is written; the code
 *          passes chz_check_code. Where refused, `*length` is 0 and no byte
 *          of `code` is written. For 14, `*place` is the room to come back
 *          with, so a first call with `code_len` 0 asks for the size.
 */
uint32_t chz_translate(const uint8_t *sheet, size_t sheet_len, uint8_t *code,
                       size_t code_len, uint32_t *length, uint32_t *place);

/*
 * Gives the record to begin with, for chz_scan: state 0, the outputs of state
 * 0, clock 0.
 *
 * Needs:   `sheet_len` bytes at `sheet`. What the record holds is not read.
 * Answers: 0, or 1 to 13. Where refused, the record is set to zeros. Zeros
 *          are not a cold record: output 0 is true in state 0.
 */
uint32_t chz_cold_scan(const uint8_t *sheet, size_t sheet_len, uint8_t *state,
                       uint16_t *outputs, uint32_t *clock, uint32_t *place);

/*
 * Gives the record to begin with, for chz_run: flag 0 alone, the outputs of
 * state 0, clock 0. It takes the sheet and not the code, because only the
 * sheet says what state 0's outputs are.
 *
 * Needs:   `sheet_len` bytes at `sheet`. What the record holds is not read.
 * Answers: 0, or 1 to 13. Where refused, the record is set to zeros.
 */
uint32_t chz_cold_run(const uint8_t *sheet, size_t sheet_len, uint32_t *flags,
                      uint16_t *outputs, uint32_t *clock, uint32_t *place);

/*
 * One scan from the sheet. The clock moves forward by `elapsed`; then, of the
 * active state's transitions whose condition holds and whose wait the clock
 * has reached, the one with the smallest priority number fires: the state
 * changes, the outputs are the new state's and the clock becomes 0. If none
 * can fire, only the clock has changed. Never more than one fires.
 *
 * Needs:   `sheet_len` bytes at `sheet`; a record, any record.
 * Answers: 0, 1 to 13, or 18. Where refused, the record is left as it was.
 */
uint32_t chz_scan(const uint8_t *sheet, size_t sheet_len, uint8_t *state,
                  uint16_t *outputs, uint32_t *clock, uint16_t inputs,
                  uint32_t elapsed, uint32_t *place);

/*
 * One scan from code. The clock moves forward by `elapsed`; then the code
 * runs from word 0 to an END.
 *
 * Needs:   `code_len` bytes at `code`; a record, any record, including one
 *          with no flag or several.
 * Answers: 0, or 15 to 17. Where refused, the record is left as it was.
 */
uint32_t chz_run(const uint8_t *code, size_t code_len, uint32_t *flags,
                 uint16_t *outputs, uint32_t *clock, uint16_t inputs,
                 uint32_t elapsed, uint32_t *place);

#ifdef __cplusplus
}
#endif

#endif
