/* The map of a guard, and the row of a map at an offset. */
#include "layout.h"

enum { MOST_BOUNDS = 6 * MOST_REGIONS };

/* The rights where no region covers: secure and privileged, the port's compartment and the debugger. */
static inline uint64_t default_rights(uint32_t port) { return 0x8080000000000000 | 0x0101000000000000 << port; }

/* What covers is a bit each: base region x is bit 4 * x, its subregions the next two. */
static const uint64_t base_bits = 0x11111111111;

/* Where something begins or has ended to cover: the offset, and in the low byte which bit that is. In rising order. */
typedef struct {
    uint64_t at[MOST_BOUNDS];
    uint32_t count;
} bounds;

static inline void add(bounds *b, uint64_t offset, uint32_t bit) {
    uint64_t key = offset << 8 | bit;
    uint32_t i = b->count++;
    for (; i > 0 && b->at[i - 1] > key; i--)
        b->at[i] = b->at[i - 1];
    b->at[i] = key;
}

/* Whether a part that is enabled covers something of the window. */
static inline bool is_there(const uint32_t *part, uint32_t last) {
    return part[0] & ENABLE && part[START] <= part[END] && part[START] <= last;
}

static inline void add_start(bounds *b, const uint32_t *part, uint32_t bit) { add(b, part[START], bit); }

static inline void add_end(bounds *b, const uint32_t *part, uint32_t bit, uint32_t last) {
    if (part[END] < last)
        add(b, (uint64_t)part[END] + 1, bit);
}

/* Subregions mostly lie inside, so that this is nearly in order. */
static inline void all_bounds(bounds *b, const uint32_t *region, uint32_t count, uint32_t last) {
    b->count = 0;
    for (uint32_t bit = 0; bit < 4 * count; bit += 4, region += REGION_WORDS) {
        if (!is_there(region, last))
            continue;
        add_start(b, region, bit);
        for (uint32_t k = 1; k < 3; k++) {
            const uint32_t *sub = region + k * SUB;
            if (is_there(sub, last)) {
                add_start(b, sub, bit + k);
                add_end(b, sub, bit + k, last);
            }
        }
        add_end(b, region, bit, last);
    }
}

/* What the subregions that count say together. */
typedef struct {
    uint32_t secs, privs; /* working SEC in bit 8, working PRIV in bit 0; bit 31 of privs while none counts */
    uint32_t opened;      /* to which compartments: reads in the low byte, writes in the next */
} sub_terms;

static inline void count_sub(sub_terms *t, uint32_t base, uint32_t cfgr) {
    uint32_t srcid = cfgr >> 4 & 7;
    t->secs &= base & cfgr;
    t->privs &= cfgr >> 9 & base >> (16 + srcid);
    t->opened |= ((cfgr >> 12 & 1) | (cfgr >> 5 & 0x100)) * (1u << srcid | 1u << DEBUGGER);
}

/* The rights where these cover: of a security the two bytes of the unprivileged, then those of the privileged. */
static inline uint64_t axi_rights_of(uint32_t port, const uint32_t *regions, uint64_t covering) {
    uint64_t bases = covering & base_bits;
    if (!bases)
        return default_rights(port);
    uint32_t any = 0, all = ~0u, enables = ~0u;
    sub_terms t = {~0u, ~0u, 0};
    do {
        uint32_t bit = __builtin_ctzll(bases), subs = covering >> bit;
        const uint32_t *region = regions + REGION_WORDS / 4 * bit;
        uint32_t base = region[0];
        any |= base;
        all &= base;
        enables &= region[CIDCFGR];
        if (subs & 2)
            count_sub(&t, base, region[SUB]);
        if (subs & 4)
            count_sub(&t, base, region[2 * SUB]);
    } while (bases &= bases - 1);
    if (!(t.privs >> 31)) {
        uint64_t half = t.opened << 16 | (t.privs & 1 ? 0 : t.opened);
        return t.secs & SEC ? half << 32 : half;
    }
    if ((any ^ all) & SEC)
        return 0;
    uint32_t enabled = (enables & 0xff) | (enables >> 8 & 0xff00) | 0x8080;
    uint64_t half = enabled << 16 | (enabled & ~((any >> 16 & 0xff) * 0x101));
    return all & SEC ? half << 32 : half;
}

/* Of a bus that carries no CID all compartments have the rights of CID 0. */
static inline uint64_t rights_of(uint32_t guard, const uint32_t *regions, uint64_t covering) {
    uint64_t rights = axi_rights_of(port_of(guard), regions, covering);
    return on_ahb(guard) ? (rights & 0x0101010101010101) * 0xff : rights;
}

uint64_t yard_map(const uint32_t *state, size_t words, uint32_t guard, uint64_t *numbers, size_t count, uint64_t *used) {
    *used = 0;
    if (words != RIF_STATE_WORDS || count < RIF_MAP_NUMBERS)
        return answer(WRONG_LENGTH);
    if (!is_guard(guard))
        return answer(NO_SUCH);
    const guard_facts *g = &guards[guard];
    const uint32_t *regions = state + g->first + REGIONS;
    bounds b;
    all_bounds(&b, regions, g->regions, g->last);
    const uint64_t *bound = b.at, *end = b.at + b.count;
    uint64_t *row = numbers, covering = 0, at = 0, rights;
    for (; bound < end && *bound >> 8 == 0; bound++)
        covering ^= 1ull << (*bound & 0x3f);
    row[0] = 0;
    row[2] = rights_of(guard, regions, covering);
    while (bound < end) {
        at = *bound >> 8;
        do
            covering ^= 1ull << (*bound & 0x3f);
        while (++bound < end && *bound >> 8 == at);
        rights = rights_of(guard, regions, covering);
        if (rights == row[2])
            continue;
        row[1] = at - 1;
        row[3] = at;
        row[5] = rights;
        row += 3;
    }
    row[1] = g->last;
    *used = row + 3 - numbers;
    return answer(DONE);
}

uint64_t yard_lookup(const uint64_t *numbers, size_t count, uint64_t offset, uint64_t *start, uint64_t *end, uint64_t *rights) {
    const uint64_t *row = numbers;
#pragma GCC unroll 4
    for (size_t rows = count / 3; rows; rows--, row += 3) {
        if (offset > row[1] || offset < row[0])
            continue;
        *start = row[0];
        *end = row[1];
        *rights = row[2];
        return 3;
    }
    return 0;
}
