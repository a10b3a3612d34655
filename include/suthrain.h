/*
 * The STM32N6 resource isolation framework as a model: RIFSC, IAC and the seventeen RISAF ("guards"), in the caller's memory.
 *
 * Link with libcapi.a. No function allocates, keeps anything between calls, or reads a clock; each ends for every input.
 *
 * STATE. RIF_STATE_WORDS words that the caller owns; every content is a state. rif_reset makes it the state after reset. Words
 *   0        RIFSC CR
 *   1..6     SECCFGR0..5
 *   7..12    PRIVCFGR0..5
 *   13..18   RCFGLOCKR0..5
 *   19       RIMC_CR
 *   20..32   ATTR0..12
 *   33..38   IAC IER0..5
 *   39..44   ISR0..5
 *   45       the interrupt line, as it is kept: bit 0
 *   46       the count of flags that are set and enabled, as it is kept: bits 7:0
 *   47..     136 words for each guard, in the order 1 to 9, 11 to 15, 21 to 23: CR, IASR, IAESR, IADDR, and eleven regions of
 *            twelve words (CFGR, START, END, CIDCFGR, subregion A's CFGR, START, END, NEST, subregion B's four), whatever the
 *            guard's own count of regions.
 *
 * GUARDS. 1 to 9 and 11 to 14 stand on AXI; 15, 21, 22 and 23 on AHB, which carries no CID: a memory access to one of these counts, and
 * is recorded in IAESR, as CID 0, also a master's, and each byte of its rights word is 00 or ff. A CID over 7 gets 4 all the same.
 *
 * ANSWER. One uint64_t, 2^32 * number + value:
 *   0  done or granted; the value is the word that a register read gives, or the rule that governed a memory access
 *      (0 default, 1 base region, 2 subregion), and 0 otherwise
 *   1  rights fail: flags and fault registers are set; of a memory access, by a master too and in a batch, the value is the reason: the
 *      first test that fails, RIF_SECURITY, RIF_PRIVILEGE or RIF_COMPARTMENT (or the direction); elsewhere it is 0
 *   2  the register is locked
 *   3  the offset is no register, a write to a read-only one, a read of a write-only one
 *   4  no such block, guard, master, peripheral or operation; CID over 7; width not 1, 2, 4; rif_diff: a map whose starts and ends
 *      are not those of a map of the guard
 *   5  the offset is not a multiple of the width (registers: of 4)
 *   6  the offset is at or past the window's size
 *   7  a fetch at a peripheral
 *   8  memory of the wrong length: nothing is read or written beyond the length given; rif_diff: a map whose count of numbers is
 *      over RIF_MAP_NUMBERS or no multiple of 3
 * Where several hold, the one found first in the order 8, 4, 5, 6, 7, unknown offset (3), 1, wrong direction (3), 2 is given. A
 * refusal but 1 changes nothing.
 *
 * POINTERS. A pointer comes with the count of its elements. It points to that many, aligned; where the count is 0 it may be anything.
 * Memory that a function writes overlaps no other argument. A bool is 0 or 1.
 */
#ifndef SUTHRAIN_H
#define SUTHRAIN_H

#include <stdbool.h>
#include <stddef.h>
#include <stdint.h>

#ifdef __cplusplus
extern "C" {
#endif

#define RIF_STATE_WORDS 2359 /* the exact count of words of a state */
#define RIF_MAP_NUMBERS 201  /* the least count of numbers lent for a map: 67 rows of three */
#define RIF_DIFF_NUMBERS 665 /* the least count of numbers lent for what differs: 133 rows of five */

/* The number and the value of an answer. */
#define RIF_NUMBER(answer) ((uint32_t)((answer) >> 32))
#define RIF_VALUE(answer) ((uint32_t)(answer))

/* Why a memory access is refused: the value of 1. */
enum { RIF_SECURITY = 1, RIF_PRIVILEGE = 2, RIF_COMPARTMENT = 3 };

/* The blocks that have registers. */
enum { RIF_RIFSC = 0, RIF_IAC = 1, RIF_RISAF = 2 };

/* What is done at a peripheral. */
enum { RIF_READ = 0, RIF_WRITE = 1, RIF_FETCH = 2 };

/* Makes every register its reset value. */
uint64_t rif_reset(uint32_t *state, size_t words);

/* A register access. guard: of a RISAF, its number; elsewhere nothing. data: of a read nothing. */
uint64_t rif_register(uint32_t *state, size_t words, uint32_t block, uint32_t guard, uint32_t offset, bool write, uint32_t data,
                      bool secure, bool privileged);

/* A peripheral access. */
uint64_t rif_peripheral(uint32_t *state, size_t words, uint32_t peripheral, uint32_t operation, bool secure, bool privileged);

/* A memory access through a guard, at an offset in its window. */
uint64_t rif_memory(uint32_t *state, size_t words, uint32_t guard, uint32_t offset, uint32_t width, bool write, uint32_t cid,
                    bool secure, bool privileged);

/* A memory access by a master, with the CID, security and privilege of its ATTR; masters 1 to 12 go out nonsecure while the SEC bit of
   their guarding peripheral is 0. */
uint64_t rif_master(uint32_t *state, size_t words, uint32_t master, uint32_t guard, uint32_t offset, uint32_t width, bool write);

/* The interrupt line, as it is kept (word 45): value 1 where it is up. */
uint64_t rif_line(const uint32_t *state, size_t words);

/*
 * The map of a guard, into lent numbers: rows of start, end, rights. *used is how many numbers of the front are the map, 0 on
 * refusal; the rest stays as it was. Bit CID + 8 * (write + 2 * privileged + 4 * secure) of the rights is 1 where that asking is
 * granted at every offset from start to end.
 */
uint64_t rif_map(const uint32_t *state, size_t words, uint32_t guard, uint64_t *numbers, size_t count, uint64_t *used);

/*
 * The first row of a map whose start and end enclose the offset: 3, and its numbers in *start, *end and *rights; or 0, and they stay
 * as they were. Any numbers will do; one or two left over at the end are no row.
 */
uint64_t rif_lookup(const uint64_t *numbers, size_t count, uint64_t offset, uint64_t *start, uint64_t *end, uint64_t *rights);

/*
 * What differs between two maps of a guard, as rif_map makes them, into lent numbers: rows of start, end, old rights, new rights, and
 * the count of bits in which the two differ, in rising order. An offset is in a row exactly where its rights differ. *used is how many
 * numbers of the front are rows, 0 on refusal; the rest stays as it was. The rights of a map may be any words.
 */
uint64_t rif_diff(uint32_t guard, const uint64_t *before, size_t before_count, const uint64_t *after, size_t after_count,
                  uint64_t *numbers, size_t count, uint64_t *used);

/* One memory access of a batch. */
typedef struct {
    uint32_t guard;
    uint32_t offset;
    uint32_t width;
    uint32_t cid;
    bool write;
    bool privileged;
    bool secure;
} rif_access;

/*
 * Memory accesses one after another; answer i is that of access i. Fewer answers than accesses, or a state of the wrong length, gets 8
 * and nothing is done. Longer answer memory keeps its rest.
 */
uint64_t rif_batch(uint32_t *state, size_t words, const rif_access *accesses, size_t accesses_count, uint64_t *answers,
                   size_t answers_count);

#ifdef __cplusplus
}
#endif

#endif
