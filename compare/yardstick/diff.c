/* What differs between two maps of a guard. */
#include "layout.h"

static inline uint64_t ones64(uint64_t x) {
    x -= x >> 1 & 0x5555555555555555;
    x = (x & 0x3333333333333333) + (x >> 2 & 0x3333333333333333);
    return (((x + (x >> 4)) & 0x0f0f0f0f0f0f0f0f) * 0x0101010101010101) >> 56;
}

/* Whether the rows go on one another from 0 to the window's last offset. */
static inline bool tiles(const uint64_t *map, size_t count, uint64_t last) {
    uint64_t next = 0;
    for (const uint64_t *row = map; row < map + count; row += 3) {
        if (row[0] != next || row[1] < next || row[1] > last)
            return false;
        next = row[1] + 1;
    }
    return next == last + 1;
}

uint64_t yard_diff(uint32_t guard, const uint64_t *before, size_t before_count, const uint64_t *after, size_t after_count,
                   uint64_t *numbers, size_t count, uint64_t *used) {
    *used = 0;
    if (count < RIF_DIFF_NUMBERS || before_count > RIF_MAP_NUMBERS || before_count % 3 || after_count > RIF_MAP_NUMBERS ||
        after_count % 3)
        return answer(WRONG_LENGTH);
    if (!is_guard(guard))
        return answer(NO_SUCH);
    uint64_t last = guards[guard].last;
    if (!tiles(before, before_count, last) || !tiles(after, after_count, last))
        return answer(NO_SUCH);
    uint64_t *row = numbers, start = 0, old_end = before[1], new_end = after[1];
    uint64_t old = before[2], new = after[2];
    for (;;) {
        uint64_t end = old_end < new_end ? old_end : new_end;
        if (old != new) {
            if (row > numbers && row[-4] + 1 == start && row[-3] == old && row[-2] == new)
                row[-4] = end;
            else {
                row[0] = start;
                row[1] = end;
                row[2] = old;
                row[3] = new;
                row[4] = ones64(old ^ new);
                row += 5;
            }
        }
        if (end == last)
            break;
        if (old_end == end) {
            before += 3;
            old_end = before[1];
            old = before[2];
        }
        if (new_end == end) {
            after += 3;
            new_end = after[1];
            new = after[2];
        }
        start = end + 1;
    }
    *used = row - numbers;
    return answer(DONE);
}
