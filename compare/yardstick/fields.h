/* The fields of a line, read from left to right. Each begins with its tab. One that is not there leaves the place as it was, so the place
   never passes the line's feed; eight bytes are loaded at once, so there is room behind the last line. For a machine that has the low
   byte first. */
#ifndef FIELDS_H
#define FIELDS_H

#include <stdbool.h>
#include <stdint.h>
#include <string.h>

typedef const unsigned char *place;

/* That byte in each of the eight. */
#define EACH(byte) (0x0101010101010101u * (byte))

/* Four characters as they are loaded. */
#define FOUR(a, b, c, d) ((uint32_t)(a) | (uint32_t)(b) << 8 | (uint32_t)(c) << 16 | (uint32_t)(d) << 24)

static inline uint32_t load2(place p) {
    uint16_t x;
    memcpy(&x, p, sizeof x);
    return x;
}

static inline uint32_t load4(place p) {
    uint32_t x;
    memcpy(&x, p, sizeof x);
    return x;
}

static inline uint64_t load8(place p) {
    uint64_t x;
    memcpy(&x, p, sizeof x);
    return x;
}

/* The characters of eight digits. */
static inline uint64_t characters(uint64_t digits) {
    uint64_t letters = (digits + EACH(6)) >> 4 & EACH(1);
    return digits + EACH('0') + letters * ('a' - '0' - 10);
}

/* Eight lowercase hex digits: what they are, if each is a digit's character. */
static inline bool hex(place *p, uint32_t *value) {
    uint64_t text = load8(*p + 1);
    uint64_t digits = (text & EACH(0xf)) + (text >> 6 & EACH(1)) * 9;
    if (**p != '\t' || digits & EACH(0xf0) || characters(digits) != text)
        return false;
    digits = (digits << 4 | digits >> 8) & 0x00ff00ff00ff00ff;
    digits = (digits << 8 | digits >> 16) & 0x0000ffff0000ffff;
    *value = digits << 16 | digits >> 32;
    *p += 9;
    return true;
}

/* A decimal number without leading zeros: behind a first 0 no digit is taken. */
static inline bool decimal(place *p, uint32_t *value) {
    place q = *p;
    uint64_t n = q[1] - (uint64_t)'0';
    if (*q != '\t' || n > 9)
        return false;
    q += 2;
    if (n)
        for (uint32_t digit; (digit = *q - (uint32_t)'0') <= 9; q++) {
            n = 10 * n + digit;
            if (n > UINT32_MAX)
                return false;
        }
    *value = n;
    *p = q;
    return true;
}

/* One letter or the other. */
static inline bool either(place *p, char this, char that, bool *is_this) {
    uint32_t pair = load2(*p), first = '\t' | this << 8, second = '\t' | that << 8;
    *is_this = pair == first;
    if (!((pair == first) | (pair == second)))
        return false;
    *p += 2;
    return true;
}

/* s/n p/u, and nothing behind. */
static inline bool rights(place *p, bool *secure, bool *privileged) {
    return either(p, 's', 'n', secure) && either(p, 'p', 'u', privileged) && **p == '\n';
}

#endif
