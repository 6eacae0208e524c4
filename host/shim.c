/*
 * shim.c: the seven calls as thin wrappers over the second program, so that
 * the makers and counters of differ.c can be tried without the library. It is
 * linked by `make selftest` alone and proves nothing about the library.
 */

#include "chmurzeta.h"
#include "second.h"

uint32_t chz_check_sheet(const uint8_t *sheet, size_t sheet_len, uint32_t *place)
{
    return second_check_sheet(sheet, sheet_len, place);
}

uint32_t chz_check_code(const uint8_t *code, size_t code_len, uint32_t *place)
{
    return second_check_code(code, code_len, place);
}

uint32_t chz_translate(const uint8_t *sheet, size_t sheet_len, uint8_t *code, size_t code_len, uint32_t *length,
                       uint32_t *place)
{
    return second_translate(sheet, sheet_len, code, code_len, length, place);
}

uint32_t chz_cold_scan(const uint8_t *sheet, size_t sheet_len, uint8_t *state, uint16_t *outputs, uint32_t *clock,
                       uint32_t *place)
{
    return second_cold_scan(sheet, sheet_len, state, outputs, clock, place);
}

uint32_t chz_cold_run(const uint8_t *sheet, size_t sheet_len, uint32_t *flags, uint16_t *outputs, uint32_t *clock,
                      uint32_t *place)
{
    return second_cold_run(sheet, sheet_len, flags, outputs, clock, place);
}

uint32_t chz_scan(const uint8_t *sheet, size_t sheet_len, uint8_t *state, uint16_t *outputs, uint32_t *clock,
                  uint16_t inputs, uint32_t elapsed, uint32_t *place)
{
    return second_scan(sheet, sheet_len, state, outputs, clock, inputs, elapsed, place);
}

uint32_t chz_run(const uint8_t *code, size_t code_len, uint32_t *flags, uint16_t *outputs, uint32_t *clock,
                 uint16_t inputs, uint32_t elapsed, uint32_t *place)
{
    return second_run(code, code_len, flags, outputs, clock, inputs, elapsed, place);
}
