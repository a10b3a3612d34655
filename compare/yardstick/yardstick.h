/* The interface of include/suthrain.h once more, with yard_ for rif_: in plain C, for speed. Nothing of it is proved. */
#ifndef YARDSTICK_H
#define YARDSTICK_H

#include "../../include/suthrain.h"

uint64_t yard_reset(uint32_t *state, size_t words);

uint64_t yard_register(uint32_t *state, size_t words, uint32_t block, uint32_t guard, uint32_t offset, bool write, uint32_t data,
                       bool secure, bool privileged);

uint64_t yard_peripheral(uint32_t *state, size_t words, uint32_t peripheral, uint32_t operation, bool secure, bool privileged);

uint64_t yard_memory(uint32_t *state, size_t words, uint32_t guard, uint32_t offset, uint32_t width, bool write, uint32_t cid,
                     bool secure, bool privileged);

uint64_t yard_master(uint32_t *state, size_t words, uint32_t master, uint32_t guard, uint32_t offset, uint32_t width, bool write);

uint64_t yard_line(const uint32_t *state, size_t words);

uint64_t yard_map(const uint32_t *state, size_t words, uint32_t guard, uint64_t *numbers, size_t count, uint64_t *used);

uint64_t yard_lookup(const uint64_t *numbers, size_t count, uint64_t offset, uint64_t *start, uint64_t *end, uint64_t *rights);

uint64_t yard_diff(uint32_t guard, const uint64_t *before, size_t before_count, const uint64_t *after, size_t after_count,
                   uint64_t *numbers, size_t count, uint64_t *used);

uint64_t yard_batch(uint32_t *state, size_t words, const rif_access *accesses, size_t accesses_count, uint64_t *answers,
                    size_t answers_count);

#endif
