/* What is printed. Each gives the place behind it. */
#ifndef PRINT_H
#define PRINT_H

#include "fields.h"

/* The eight hex digits of a word. */
static inline unsigned char *put_hex(unsigned char *out, uint32_t word) {
    uint64_t digits = __builtin_bswap32(word);
    digits = (digits | digits << 16) & 0x0000ffff0000ffff;
    digits = (digits | digits << 8) & 0x00ff00ff00ff00ff;
    digits = (digits << 8 | digits >> 4) & EACH(0xf);
    digits = characters(digits);
    memcpy(out, &digits, sizeof digits);
    return out + sizeof digits;
}

static unsigned char *put_decimal(unsigned char *out, uint64_t n) {
    if (n > 9)
        out = put_decimal(out, n / 10);
    *out = '0' + n % 10;
    return out + 1;
}

/* A word, a tab and a number. */
#define PUT_COUNTED(out, word, n) put_line_end(put_decimal((unsigned char *)memcpy(out, word "\t", sizeof word) + sizeof word, n))

static inline unsigned char *put_line_end(unsigned char *out) {
    *out = '\n';
    return out + 1;
}

static inline unsigned char *put_answer(unsigned char *out, uint64_t answer) {
    memcpy(out, "ans\t", 4);
    out[4] = '0' + (answer >> 32);
    out[5] = '\t';
    return put_line_end(put_hex(out + 6, answer));
}

static inline unsigned char *put_span(unsigned char *out, const uint64_t *row) {
    memcpy(out, "span\t", 5);
    out = put_hex(out + 5, row[0]);
    *out = '\t';
    out = put_hex(out + 1, row[1]);
    *out = '\t';
    out = put_hex(out + 1, row[2] >> 32);
    return put_line_end(put_hex(out, row[2]));
}

#endif
