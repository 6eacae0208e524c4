/*
 * cases.h: what differ asks, by family. Each family has its calls, a fixed
 * part that is always the same, and random cases; and it lends the others
 * what it does with bytes of its own kind.
 */

#ifndef CASES_H
#define CASES_H

#include "ask.h"
#include "dice.h"

/* ---- Sheets: ask_sheets.c ---- */

extern struct call check_sheet, translate;

struct outcome ask_sheet(struct call *call, const uint8_t *bytes, size_t len, const struct expected *e);
struct outcome ask_room(const uint8_t *bytes, size_t len, size_t room, const struct expected *e);

/* Any byte string as a sheet, with all five calls that take one. */
void try_sheet(struct dice *d, const uint8_t *bytes, size_t len, const struct expected *e);

void sheets_paper(void);
void sheets_small(void);
void sheets_long(void);
void random_accepted(struct dice *d);
void random_aimed(struct dice *d);
void random_spoilt_twice(struct dice *d);
void random_mutated(struct dice *d);
void random_bytes(struct dice *d);
void random_rooms(struct dice *d);

/* ---- Code: ask_code.c ---- */

extern struct call check_code;

void try_code(struct dice *d, const uint8_t *bytes, size_t len, uint32_t runs, const struct expected *e);
/* Accepted code damaged: bits turned, a jump sent elsewhere. */
void try_damaged(struct dice *d, const uint8_t *code, uint32_t len);

void code_small(void);
void code_limits(void);
void random_code(struct dice *d);

/* ---- Scans: ask_scans.c ---- */

extern struct call cold_scan, cold_run, scan, run;

struct given some_record(struct dice *d, const uint8_t *bytes, size_t len);
/* An accepted sheet scanned from any record. */
void try_scans(struct dice *d, const uint8_t *bytes, size_t len);
/* Scans from cold: sheet and code must go the same way, scan for scan. */
void scan_along(struct dice *d, const uint8_t *bytes, size_t len, const uint8_t *code, size_t code_len, uint32_t scans);

void scans_paper(void);

/* ---- What was seen: each returns how much that should have been was not ---- */

extern uint64_t aimed_seen[NUMBERS];
int code_summary(void);
int scans_summary(void);

#endif
