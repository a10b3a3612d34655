/* The registers of the illegal access controller. */
#ifndef IAC_H
#define IAC_H

#include "flags.h"

enum { NO_KIND, IER_, ISR_, ICR_, IISR_ };

/* The kind of register at each offset, divided by 4. */
static const uint8_t iac_kinds[] = {
    [0x000 ... 0x005] = IER_,
    [0x020 ... 0x025] = ISR_,
    [0x040 ... 0x045] = ICR_,
    [0x0db ... 0x0e0] = IISR_,
};

static inline uint32_t iac_kind(uint32_t i) { return i < sizeof iac_kinds ? iac_kinds[i] : NO_KIND; }

/* both: secure and privileged. */
static inline uint64_t iac_read(uint32_t *s, uint32_t offset, bool both) {
    if (offset & 3)
        return answer(MISALIGNED);
    uint32_t i = offset / 4, kind = iac_kind(i);
    if (kind == NO_KIND)
        return answer(NO_REGISTER);
    if (kind == IISR_)
        return iisr[i - 0x0db];
    if (!both)
        return refuse_with(s, IAC_FLAG);
    if (kind == IER_)
        return s[IER + i] & iisr[i];
    if (kind == ISR_)
        return s[ISR + i - 0x020] & iisr[i - 0x020];
    return answer(NO_REGISTER);
}

/* Stores a word of flags or enables, where it has changed; with: the enables of the flags, or the flags of the enables. */
static inline uint64_t iac_store(uint32_t *s, uint32_t at, uint32_t word, uint32_t with) {
    uint32_t old = s[at];
    if (word != old) {
        s[at] = word;
        recount(s, ones(word & with) - ones(old & with));
    }
    return answer(DONE);
}

static inline uint64_t iac_write(uint32_t *s, uint32_t offset, uint32_t data, bool both) {
    if (offset & 3)
        return answer(MISALIGNED);
    uint32_t i = offset / 4, kind = iac_kind(i);
    if (kind == NO_KIND)
        return answer(NO_REGISTER);
    if (!both && kind != IISR_)
        return refuse_with(s, IAC_FLAG);
    if (kind == IER_)
        return iac_store(s, IER + i, blend(s[IER + i], data, iisr[i]), s[ISR + i] & iisr[i]);
    if (kind != ICR_)
        return answer(NO_REGISTER);
    i -= 0x040;
    return iac_store(s, ISR + i, s[ISR + i] & ~(data & iisr[i]), s[IER + i] & iisr[i]);
}

#endif
