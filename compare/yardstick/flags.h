/* The flags of the illegal access controller, with the line and the count that are kept. */
#ifndef FLAGS_H
#define FLAGS_H

#include "layout.h"

/* IISR: which flags and enables there are. */
static const uint32_t iisr[6] = {0xffffff7f, 0x77ffffff, 0x77dff03b, 0x000005ff, 0x7befffef, 0};

enum { RIFSC_FLAG = 158, IAC_FLAG = 138 };

static inline uint32_t ones(uint32_t x) {
    x -= x >> 1 & 0x55555555;
    x = (x & 0x33333333) + (x >> 2 & 0x33333333);
    return (((x + (x >> 4)) & 0x0f0f0f0f) * 0x01010101) >> 24;
}

/* A flag or an enable has changed: so many more are both, modulo 256. */
static inline void recount(uint32_t *s, uint32_t more) {
    uint32_t count = (s[COUNT] + more) & 0xff;
    s[COUNT] = (s[COUNT] & ~0xffu) | count;
    s[LINE] = (s[LINE] & ~1u) | (count != 0);
}

static inline void raise_flag(uint32_t *s, uint32_t index) {
    uint32_t x = index / 32, bit = 1u << index % 32;
    uint32_t flags = s[ISR + x];
    if (flags & bit || !(iisr[x] & bit))
        return;
    s[ISR + x] = flags | bit;
    recount(s, s[IER + x] >> index % 32 & 1);
}

APART uint64_t refuse_with(uint32_t *s, uint32_t flag) {
    raise_flag(s, flag);
    return answer(REFUSED);
}

#endif
