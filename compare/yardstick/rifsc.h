/* The registers of the controller. */
#ifndef RIFSC_H
#define RIFSC_H

#include "flags.h"

/* PPSR: which bits of SECCFGR, PRIVCFGR and RCFGLOCKR there are. */
static const uint32_t ppsr[6] = {0xffffff7f, 0x77ffffff, 0xf7dff03b, 0x000005ff, 0xbbefffef, 0x7ddeef7f};

enum { NONE, CR_, SECCFGR_, PRIVCFGR_, RCFGLOCKR_, RIMC_CR_, ATTR_, PPSR_ };

/* The kind of register at each offset, divided by 4. */
static const uint8_t rifsc_kinds[] = {
    [0x000] = CR_,
    [0x004 ... 0x009] = SECCFGR_,
    [0x00c ... 0x011] = PRIVCFGR_,
    [0x014 ... 0x019] = RCFGLOCKR_,
    [0x300] = RIMC_CR_,
    [0x304 ... 0x310] = ATTR_,
    [0x3ec ... 0x3f1] = PPSR_,
};

static inline uint32_t rifsc_kind(uint32_t i) { return i < sizeof rifsc_kinds ? rifsc_kinds[i] : NONE; }

/* Any read is allowed. */
static inline uint64_t rifsc_read(const uint32_t *s, uint32_t offset) {
    if (offset & 3)
        return answer(MISALIGNED);
    uint32_t i = offset / 4;
    switch (rifsc_kind(i)) {
    case NONE:
        return answer(NO_REGISTER);
    case CR_:
        return s[CR] & 1;
    case SECCFGR_:
        return s[SECCFGR + i - 0x004] & ppsr[i - 0x004];
    case PRIVCFGR_:
        return s[PRIVCFGR + i - 0x00c] & ppsr[i - 0x00c];
    case RCFGLOCKR_:
        return s[RCFGLOCKR + i - 0x014] & ppsr[i - 0x014];
    case RIMC_CR_:
        return (s[RIMC_CR] & 0x701) | 0x10;
    case ATTR_:
        return s[ATTR + i - 0x304] & 0x370;
    default:
        return ppsr[i - 0x3ec];
    }
}

static inline uint64_t rifsc_write(uint32_t *s, uint32_t offset, uint32_t data, bool secure, bool privileged) {
    if (offset & 3)
        return answer(MISALIGNED);
    uint32_t i = offset / 4, kind = rifsc_kind(i), x;
    if (kind == NONE)
        return answer(NO_REGISTER);
    if (!privileged || !(secure || kind == PRIVCFGR_))
        return refuse_with(s, RIFSC_FLAG);
    if (kind == PPSR_)
        return answer(NO_REGISTER);
    if (s[kind < RIMC_CR_ ? CR : RIMC_CR] & 1)
        return answer(LOCKED);
    switch (kind) {
    case CR_:
        s[CR] |= data & 1;
        break;
    case SECCFGR_:
        x = i - 0x004;
        s[SECCFGR + x] = blend(s[SECCFGR + x], data, ppsr[x] & ~s[RCFGLOCKR + x]);
        break;
    case PRIVCFGR_:
        x = i - 0x00c;
        s[PRIVCFGR + x] = blend(s[PRIVCFGR + x], data, ppsr[x] & ~s[RCFGLOCKR + x] & ~(secure ? 0 : s[SECCFGR + x]));
        break;
    case RCFGLOCKR_:
        x = i - 0x014;
        s[RCFGLOCKR + x] |= data & ppsr[x];
        break;
    case RIMC_CR_:
        s[RIMC_CR] = blend(s[RIMC_CR], data, 0x701);
        break;
    default: /* ATTR: MCID 7 leaves MCID as it was */
        s[ATTR + i - 0x304] = blend(s[ATTR + i - 0x304], data, (data & 0x70) == 0x70 ? 0x300 : 0x370);
    }
    return answer(DONE);
}

#endif
