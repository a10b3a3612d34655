/* A guard programmed, asked and mapped. From the repository's root:
   gcc -I include examples/embed.c crates/capi/out/libcapi.a -o embed && ./embed */
#include "suthrain.h"
#include <inttypes.h>
#include <stdio.h>

static uint32_t state[RIF_STATE_WORDS];
static int wrong; /* the exit status: how many answers were not the ones wanted */

static void want(uint64_t answer, uint64_t wanted) { wrong += answer != wanted; }

/* A secure, privileged write to a register of guard 2. */
static void put(uint32_t offset, uint32_t data) {
    want(rif_register(state, RIF_STATE_WORDS, RIF_RISAF, 2, offset, true, data, true, true), 0);
}

/* A nonsecure, unprivileged read of one byte behind guard 2 by compartment 2. */
static uint64_t get(uint32_t offset) { return rif_memory(state, RIF_STATE_WORDS, 2, offset, 1, false, 2, false, false); }

int main(void) {
    want(rif_reset(state, RIF_STATE_WORDS), 0);
    put(0x44, 0x00010000); /* region 1: START */
    put(0x48, 0x0001ffff); /* END */
    put(0x4c, 0x00040006); /* CIDCFGR: 1 and 2 may read, 2 may write */
    put(0x40, 0x00000001); /* CFGR: enabled, nonsecure */
    want(get(0x10000), 1);             /* granted, by rule 1 */
    want(RIF_NUMBER(get(0x20000)), 1); /* refused, */
    want(RIF_VALUE(get(0x20000)), RIF_SECURITY); /* being nonsecure */
    uint64_t rows[RIF_MAP_NUMBERS], used;
    want(rif_map(state, RIF_STATE_WORDS, 2, rows, RIF_MAP_NUMBERS, &used), 0);
    for (uint64_t i = 0; i < used; i += 3)
        printf("%08" PRIx64 " to %08" PRIx64 ": %016" PRIx64 "\n", rows[i], rows[i + 1], rows[i + 2]);
    uint64_t start, end, rights;
    want(rif_lookup(rows, used, 0x1ffff, &start, &end, &rights), 3);
    want(rights, 0x84868486);
    return wrong;
}
