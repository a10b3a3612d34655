/* The registers of a guard. */
#ifndef RISAF_H
#define RISAF_H

#include "flags.h"

/* The offsets of the registers that are no region's, and the bits of IAESR. */
enum { CR_AT = 0x00, IASR_AT = 0x08, IACR_AT = 0x0c, IAESR_AT = 0x20, IADDR_AT = 0x24, REGIONS_AT = 0x40 };
enum { IAESR_NAMED = 0xb7 };

/* The named bits of a region's words. */
static const uint32_t region_named[REGION_WORDS] = {
    0x00ff0101, ~0u, ~0u, 0x00ff00ff, 0x3373, ~0u, ~0u, 0x74, 0x3373, ~0u, ~0u, 0x74,
};

APART uint64_t guard_refused(uint32_t *s, const guard_facts *g) {
    s[g->first + IASR] |= CAEF;
    raise_flag(s, g->flag);
    return answer(REFUSED);
}

/* both: secure and privileged. */
static inline uint64_t guard_read(uint32_t *s, uint32_t guard, uint32_t offset, bool both) {
    if (!is_guard(guard))
        return answer(NO_SUCH);
    if (offset & 3)
        return answer(MISALIGNED);
    const guard_facts *g = &guards[guard];
    const uint32_t *w = s + g->first;
    if (offset >= REGIONS_AT) {
        uint32_t x = offset / 0x40 - 1, field = offset / 4 % 16;
        if (x >= g->regions || field >= REGION_WORDS)
            return answer(NO_REGISTER);
        return w[REGIONS + REGION_WORDS * x + field] & region_named[field];
    }
    switch (offset) {
    case CR_AT:
        return w[CR] & 1;
    case IASR_AT:
        return both ? w[IASR] & 3 : guard_refused(s, g);
    case IACR_AT:
        return both ? answer(NO_REGISTER) : guard_refused(s, g);
    case IAESR_AT:
        return both ? w[IAESR] & IAESR_NAMED : guard_refused(s, g);
    case IADDR_AT:
        return both ? w[IADDR] : guard_refused(s, g);
    default:
        return answer(NO_REGISTER);
    }
}

/* CR, IASR, IACR, IAESR, IADDR. */
static inline uint64_t head_write(uint32_t *s, const guard_facts *g, uint32_t offset, uint32_t data, bool both) {
    uint32_t *w = s + g->first;
    switch (offset) {
    case CR_AT:
        if (!both)
            return guard_refused(s, g);
        if (w[CR] & 1)
            return answer(LOCKED);
        w[CR] |= data & 1;
        return answer(DONE);
    case IACR_AT:
        if (!both)
            return guard_refused(s, g);
        w[IASR] &= ~(data & 3);
        return answer(DONE);
    case IASR_AT:
    case IAESR_AT:
    case IADDR_AT:
        return both ? answer(NO_REGISTER) : guard_refused(s, g);
    default:
        return answer(NO_REGISTER);
    }
}

/* Whether CFGR, START and END of a subregion may be written by a port that speaks as this compartment. */
static inline bool sub_admits(uint32_t port, uint32_t base, uint32_t nest, bool secure, bool privileged) {
    if (!privileged)
        return false;
    if (!(nest & 4))
        return secure;
    return (nest >> 4 & 7) == port && (secure || !(base & SEC));
}

static inline uint32_t bounded(uint32_t low, uint32_t part, uint32_t data) { return part == START ? data & ~low : data | low; }

static inline uint64_t guard_write(uint32_t *s, uint32_t guard, uint32_t offset, uint32_t data, bool secure, bool privileged) {
    if (!is_guard(guard))
        return answer(NO_SUCH);
    if (offset & 3)
        return answer(MISALIGNED);
    const guard_facts *g = &guards[guard];
    if (offset < REGIONS_AT)
        return head_write(s, g, offset, data, secure && privileged);
    uint32_t x = offset / 0x40 - 1, field = offset / 4 % 16, part = field % 4;
    if (x >= g->regions || field >= REGION_WORDS)
        return answer(NO_REGISTER);
    uint32_t *w = s + g->first, *base = w + REGIONS + REGION_WORDS * x, *word = base + field;
    uint32_t glock = w[CR] & 1;
    if (field < SUB || part == NEST) {
        if (!(secure && privileged))
            return guard_refused(s, g);
        if (glock)
            return answer(LOCKED);
        *word = part == START || part == END ? bounded(low_of(guard), part, data) : blend(*word, data, region_named[field]);
        return answer(DONE);
    }
    uint32_t *sub = word - part;
    if (!sub_admits(port_of(guard), *base, sub[NEST], secure, privileged))
        return guard_refused(s, g);
    if (*sub & RLOCK)
        return answer(LOCKED);
    *word = part ? bounded(low_of(guard), part, data) : blend(*word, data, 0x3271u | (secure ? SEC : 0) | (glock ? RLOCK : 0));
    return answer(DONE);
}

#endif
