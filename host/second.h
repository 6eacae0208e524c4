/*
 * second.h: the second program. The same seven calls as chmurzeta.h, with the
 * same arguments and the same answers, written again from document 01 alone.
 * It is there to be compared with: it has no proof.
 */

#ifndef SECOND_H
#define SECOND_H

#include <stddef.h>
#include <stdint.h>

uint32_t second_check_sheet(const uint8_t *sheet, size_t sheet_len, uint32_t *place);
uint32_t second_check_code(const uint8_t *code, size_t code_len, uint32_t *place);
uint32_t second_translate(const uint8_t *sheet, size_t sheet_len, uint8_t *code, size_t code_len, uint32_t *length,
                          uint32_t *place);
uint32_t second_cold_scan(const uint8_t *sheet, size_t sheet_len, uint8_t *state, uint16_t *outputs, uint32_t *clock,
                          uint32_t *place);
uint32_t second_cold_run(const uint8_t *sheet, size_t sheet_len, uint32_t *flags, uint16_t *outputs, uint32_t *clock,
                         uint32_t *place);
uint32_t second_scan(const uint8_t *sheet, size_t sheet_len, uint8_t *state, uint16_t *outputs, uint32_t *clock,
                     uint16_t inputs, uint32_t elapsed, uint32_t *place);
uint32_t second_run(const uint8_t *code, size_t code_len, uint32_t *flags, uint16_t *outputs, uint32_t *clock,
                    uint16_t inputs, uint32_t elapsed, uint32_t *place);

#endif
