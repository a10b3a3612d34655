/* Where the words of a state lie, what a guard is, and how an answer is made. */
#ifndef LAYOUT_H
#define LAYOUT_H

#include "yardstick.h"

/* The controller, the illegal access controller, the first guard. */
enum {
    CR = 0,
    SECCFGR = 1,
    PRIVCFGR = 7,
    RCFGLOCKR = 13,
    RIMC_CR = 19,
    ATTR = 20,
    IER = 33,
    ISR = 39,
    LINE = 45,
    COUNT = 46,
    GUARDS = 47
};

/* A guard's words: CR, IASR, IAESR, IADDR, then eleven regions. */
enum { IASR = 1, IAESR = 2, IADDR = 3, REGIONS = 4, MOST_REGIONS = 11 };
enum { CAEF = 1, IAEF = 2 };

/* A region's words: CFGR, START, END, CIDCFGR; the same of subregions A and B, with NEST last. */
enum { START = 1, END = 2, CIDCFGR = 3, NEST = 3, SUB = 4, REGION_WORDS = 12 };
enum { GUARD_WORDS = REGIONS + MOST_REGIONS * REGION_WORDS };

/* Bits of CFGR. */
enum { ENABLE = 1, RLOCK = 2, SEC = 0x100 };

/* The compartment that passes every compartment test. */
enum { DEBUGGER = 7 };

typedef struct {
    uint32_t last;   /* the window's last offset */
    uint16_t first;  /* where its words begin */
    uint8_t regions; /* none where there is no such guard */
    uint8_t flag;    /* that it raises */
} guard_facts;

#define AT(place) (GUARDS + GUARD_WORDS * (place))
#define AXI(number, place, regions, last) [number] = {last, AT(place), regions, 138 + (number)}
#define AHB(number, place, regions, last, flag) [number] = {last, AT(place), regions, flag}

/* By number. */
static const guard_facts guards[] = {
    AXI(1, 0, 7, 0x3fffffff),
    AXI(2, 1, 7, 0xfffff),
    AXI(3, 2, 7, 0xfffff),
    AXI(4, 3, 11, 0xffffffff),
    AXI(5, 4, 11, 0xffffffff),
    AXI(6, 5, 11, 0xffffffff),
    AXI(7, 6, 7, 409599),
    AXI(8, 7, 7, 262143),
    AXI(9, 8, 7, 131071),
    AXI(11, 9, 7, 0xfffffff),
    AXI(12, 10, 7, 0xfffffff),
    AXI(13, 11, 7, 0xfffffff),
    AXI(14, 12, 7, 0xfffffff),
    AHB(15, 13, 2, 4095, 153),
    AHB(21, 14, 7, 16383, 155),
    AHB(22, 15, 7, 16383, 156),
    AHB(23, 16, 3, 4095, 157),
};

_Static_assert(AT(17) == RIF_STATE_WORDS, "the header's guards are these");

enum { GUARD_NUMBERS = sizeof guards / sizeof *guards };

static inline bool is_guard(uint32_t number) { return number < GUARD_NUMBERS && guards[number].regions; }

/* Guards from 15 on are on the AHB bus, which carries no CID: every access counts as CID 0. */
static inline bool on_ahb(uint32_t guard) { return guard >= 15; }

/* The compartment that a guard's port speaks as, and that rule 0 admits. */
static inline uint32_t port_of(uint32_t guard) { return !on_ahb(guard); }

/* The low bits of an offset, in a granule. */
enum { LOW = 0xfff, LOW_15 = 3, LOW_21 = 0x1ff };

static inline uint32_t low_of(uint32_t guard) { return !on_ahb(guard) ? LOW : guard == 15 ? LOW_15 : LOW_21; }

/* The numbers of the answers. */
enum { DONE, REFUSED, LOCKED, NO_REGISTER, NO_SUCH, MISALIGNED, OUTSIDE, FETCH, WRONG_LENGTH };

static inline uint64_t answer(uint64_t number) { return number << 32; }

/* A function that is called, so that what is done without it saves no registers for it. */
#define APART static __attribute__((noinline))

/* old with the bits of mask taken from new. */
static inline uint32_t blend(uint32_t old, uint32_t new, uint32_t mask) { return old ^ ((old ^ new) & mask); }

#endif
