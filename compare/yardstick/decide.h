/* Which rule governs an offset, and whether it grants. */
#ifndef DECIDE_H
#define DECIDE_H

#include "layout.h"

/* Who asks, and for what: CID in bits 2:0, privileged 4, secure 5, write 7, as in IAESR. */
static inline uint32_t kind_of(uint32_t cid, bool write, bool secure, bool privileged) {
    return cid | privileged << 4 | secure << 5 | write << 7;
}

enum { PRIVILEGED = 0x10, SECURE = 0x20 };

/* Whether no region is enabled. Those that the guard does not have may be anything, and are looked at only to find none. */
static inline bool none_enabled(const uint32_t *regions) {
    uint32_t some = 0;
    for (int x = 0; x < MOST_REGIONS; x++)
        some |= regions[REGION_WORDS * x];
    return !(some & ENABLE);
}

/* A verdict is the rule, 0 to 2, where it grants; else less than 0, and the test that failed first, over all that govern. */
enum { BY_SECURITY = -1, BY_PRIVILEGE = -2, BY_COMPARTMENT = -3 };

static inline bool default_grants(uint32_t port, uint32_t cid, bool secure, bool privileged) {
    return secure && privileged && (cid == port || cid == DEBUGGER);
}

/* Of an asking that rule 0 does not grant. */
static inline int default_refusal(uint32_t kind) {
    return !(kind & SECURE) ? BY_SECURITY : !(kind & PRIVILEGED) ? BY_PRIVILEGE : BY_COMPARTMENT;
}

static inline bool covers(const uint32_t *region, uint32_t offset) {
    return region[0] & ENABLE && region[START] <= offset && offset <= region[END];
}

/* The verdict of rule 1 or 2. So many regions are left from this one on, which covers. */
static inline int decide(const uint32_t *region, uint32_t left, uint32_t offset, uint32_t kind) {
    uint32_t cid = kind & 7, secure = kind & SECURE, privileged = kind & PRIVILEGED, write = kind >> 7;
    uint32_t any = 0, all = ~0u, enables = ~0u;  /* of the base regions that cover: the bits of CFGR, those of CIDCFGR */
    uint32_t secs = ~0u, privs = 1, counted = 0; /* of the subregions that count: working SEC in bit 8, working PRIV in bit 0 */
    bool opened = false;
    /* A subregion opens where these bits of its CFGR, the direction's and SRCID, are as wanted. */
    uint32_t direction = 0x1000u << write;
    uint32_t mask = cid == DEBUGGER ? direction : direction | 0x70;
    uint32_t wanted = cid == DEBUGGER ? direction : direction | cid << 4;
    do {
        if (!covers(region, offset))
            continue;
        uint32_t base = region[0];
        any |= base;
        all &= base;
        enables &= region[CIDCFGR];
        for (const uint32_t *sub = region + SUB; sub < region + REGION_WORDS; sub += SUB) {
            if (!covers(sub, offset))
                continue;
            uint32_t cfgr = sub[0];
            counted = 1;
            secs &= base & cfgr;
            if (!privileged)
                privs &= cfgr >> 9 & base >> (16 + (cfgr >> 4 & 7));
            if ((cfgr & mask) == wanted)
                opened = true;
        }
    } while (region += REGION_WORDS, --left);
    if (counted) {
        if (!secure != !(secs & SEC))
            return BY_SECURITY;
        if (!privileged && privs)
            return BY_PRIVILEGE;
        return opened ? 2 : BY_COMPARTMENT;
    }
    if (secure ? !(all & SEC) : any & SEC)
        return BY_SECURITY;
    if (!privileged && any >> (16 + cid) & 1)
        return BY_PRIVILEGE;
    return cid == DEBUGGER || enables >> (cid + 16 * write) & 1 ? 1 : BY_COMPARTMENT;
}

#endif
