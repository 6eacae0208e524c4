/*
 * reference.c: the examples of docs/REFERENCE.md, asked of the library. It
 * reads the page and takes each line of these forms, four blanks before it:
 *
 *     sheet BYTES gives NUMBER at PLACE      chz_check_sheet
 *     sheet BYTES is accepted                the first of these is M
 *     code BYTES gives NUMBER at PLACE       chz_check_code
 *     code BYTES is accepted
 *     room N for BYTES gives NUMBER at PLACE chz_translate with N bytes of room
 *     state N on BYTES gives NUMBER at PLACE chz_scan from that state
 *     word N BYTES ...                       the words of M's code, in order
 *     hex BYTES, and below it bits ...       a ruler: the same in both
 *
 * BYTES are in hex, or `(no bytes)`. Every number from 1 to 18 must be given
 * by one example at least.
 */

#include "chmurzeta.h"

#include <stdio.h>
#include <stdlib.h>
#include <string.h>

static uint8_t bytes[4096];
static size_t len;
static uint8_t m[64];
static size_t m_len;
static uint8_t words[4096];
static size_t words_len;
static int line_number, examples, rulers, wrong;
static int seen[CHZ_NO_STATE + 1];

static void complain(const char *line, const char *what)
{
    printf("docs/REFERENCE.md, line %d: %s\n%s", line_number, what, line);
    wrong++;
}

/* Reads hex bytes and gives what stands behind them. */
static const char *take_bytes(const char *at)
{
    static const char none[] = "(no bytes)";
    len = 0;
    at += strspn(at, " ");
    if (strncmp(at, none, sizeof none - 1) == 0) {
        return at + sizeof none - 1;
    }
    while (len < sizeof bytes && strspn(at, "0123456789ABCDEF") == 2 && (at[2] == ' ' || at[2] == '\n')) {
        bytes[len++] = (uint8_t)strtoul(at, NULL, 16);
        at += 2;
        at += strspn(at, " ");
    }
    return at;
}

static uint32_t ask(const char *kind, uint32_t with, uint32_t *place)
{
    static uint8_t code[CHZ_CODE_LIMIT];
    uint32_t length;
    uint8_t state = (uint8_t)with;
    uint16_t outputs = 0;
    uint32_t clock = 0;
    if (strcmp(kind, "sheet") == 0) {
        return chz_check_sheet(bytes, len, place);
    }
    if (strcmp(kind, "code") == 0) {
        return chz_check_code(bytes, len, place);
    }
    if (strcmp(kind, "room") == 0) {
        return chz_translate(bytes, len, code, with, &length, place);
    }
    return chz_scan(bytes, len, &state, &outputs, &clock, 0, 0, place);
}

/* The bits of a ruler: those of the bytes in the line above. */
static void take_bits(const char *line, const char *at)
{
    for (size_t i = 0; i < 8 * len; i++) {
        if (i % 8 == 0) {
            at += strspn(at, " ");
        }
        if (*at != (bytes[i / 8] >> (7 - i % 8) & 1 ? '1' : '0')) {
            complain(line, "not the bits of the bytes above");
            return;
        }
        at++;
    }
    rulers++;
}

static void take_line(const char *line)
{
    char kind[8];
    char joint[8] = "";
    unsigned with = 0;
    int used = 0;
    if (sscanf(line, "    %7[a-z] %n", kind, &used) != 1 || used == 0 || line[4] != kind[0]) {
        return;
    }
    const char *at = line + used;
    if (strcmp(kind, "hex") == 0) {
        take_bytes(at);
        return;
    }
    if (strcmp(kind, "bits") == 0) {
        take_bits(line, at);
        return;
    }
    if (strcmp(kind, "word") == 0) {
        if (sscanf(at, "%u %n", &with, &used) != 1 || (take_bytes(at + used), len != 4)) {
            return; /* prose that begins with the word */
        }
        if (4 * (size_t)with != words_len || words_len + 4 > sizeof words) {
            complain(line, "not the next word");
            return;
        }
        memcpy(words + words_len, bytes, 4);
        words_len += 4;
        return;
    }
    if (strcmp(kind, "room") == 0 || strcmp(kind, "state") == 0) {
        if (sscanf(at, "%u %7[a-z] %n", &with, joint, &used) != 2) {
            return;
        }
        at += used;
    } else if (strcmp(kind, "sheet") != 0 && strcmp(kind, "code") != 0) {
        return;
    }
    unsigned number = 0;
    unsigned place = 0;
    char end = 0;
    at = take_bytes(at);
    at += strspn(at, " ");
    if (strcmp(at, "is accepted\n") != 0 && sscanf(at, "gives %u at %u%c", &number, &place, &end) != 3) {
        return;
    }
    examples++;
    uint32_t got_place = 0;
    uint32_t got = ask(kind, with, &got_place);
    if (got != number || got_place != place) {
        complain(line, "the library gives another answer");
        printf("    it gives %u at %u\n", (unsigned)got, (unsigned)got_place);
    } else if (got <= CHZ_NO_STATE) {
        seen[got]++;
    }
    if (got == CHZ_OK && m_len == 0 && strcmp(kind, "sheet") == 0 && len <= sizeof m) {
        memcpy(m, bytes, len);
        m_len = len;
    }
}

int main(void)
{
    static char line[8192];
    static uint8_t code[CHZ_CODE_LIMIT];
    uint32_t length, place;
    while (fgets(line, sizeof line, stdin) != NULL) {
        line_number++;
        take_line(line);
    }
    for (uint32_t n = CHZ_OK; n <= CHZ_NO_STATE; n++) {
        if (seen[n] == 0) {
            printf("docs/REFERENCE.md has no example of number %u\n", (unsigned)n);
            wrong++;
        }
    }
    if (chz_translate(m, m_len, code, sizeof code, &length, &place) != CHZ_OK || length != words_len ||
        memcmp(code, words, length) != 0) {
        printf("the words in docs/REFERENCE.md are not those of M\n");
        wrong++;
    }
    printf("docs/REFERENCE.md: %d examples, %d rulers, %zu words of M, %d wrong\n", examples, rulers, words_len / 4, wrong);
    return wrong == 0 ? 0 : 1;
}
