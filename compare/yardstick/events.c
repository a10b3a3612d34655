/* Reset, register accesses, peripheral accesses, the line. */
#include "iac.h"
#include "rifsc.h"
#include "risaf.h"
#include <string.h>

#define REGION(low) 0, 0, low, 0, 0, 0, low, 0, 0, 0, low, 0
#define FOUR_REGIONS(low) REGION(low), REGION(low), REGION(low), REGION(low)
#define GUARD(low) {0, 0, 0, 0, FOUR_REGIONS(low), FOUR_REGIONS(low), REGION(low), REGION(low), REGION(low)}

/* The words of a guard after reset. */
static const uint32_t reset_axi[GUARD_WORDS] = GUARD(LOW);
static const uint32_t reset_15[GUARD_WORDS] = GUARD(LOW_15);
static const uint32_t reset_21[GUARD_WORDS] = GUARD(LOW_21);

uint64_t yard_reset(uint32_t *state, size_t words) {
    if (words != RIF_STATE_WORDS)
        return answer(WRONG_LENGTH);
    memset(state, 0, GUARDS * sizeof *state);
    state[RIMC_CR] = 0x710;
    for (uint32_t number = 1; number < GUARD_NUMBERS; number++)
        if (is_guard(number)) {
            const uint32_t *to_be = !on_ahb(number) ? reset_axi : number == 15 ? reset_15 : reset_21;
            memcpy(state + guards[number].first, to_be, sizeof reset_axi);
        }
    return answer(DONE);
}

uint64_t yard_register(uint32_t *state, size_t words, uint32_t block, uint32_t guard, uint32_t offset, bool write, uint32_t data,
                       bool secure, bool privileged) {
    if (words != RIF_STATE_WORDS)
        return answer(WRONG_LENGTH);
    if (!write) {
        switch (block) {
        case RIF_RIFSC:
            return rifsc_read(state, offset);
        case RIF_IAC:
            return iac_read(state, offset, secure && privileged);
        case RIF_RISAF:
            return guard_read(state, guard, offset, secure && privileged);
        default:
            return answer(NO_SUCH);
        }
    }
    switch (block) {
    case RIF_RIFSC:
        return rifsc_write(state, offset, data, secure, privileged);
    case RIF_IAC:
        return iac_write(state, offset, data, secure && privileged);
    case RIF_RISAF:
        return guard_write(state, guard, offset, data, secure, privileged);
    default:
        return answer(NO_SUCH);
    }
}

uint64_t yard_peripheral(uint32_t *state, size_t words, uint32_t peripheral, uint32_t operation, bool secure, bool privileged) {
    if (words != RIF_STATE_WORDS)
        return answer(WRONG_LENGTH);
    uint32_t x = peripheral / 32, bit = 1u << peripheral % 32;
    if (operation > RIF_FETCH || peripheral >= 128 || !(ppsr[x] & bit))
        return answer(NO_SUCH);
    if (operation == RIF_FETCH)
        return answer(FETCH);
    uint32_t closed = (secure ? 0 : state[SECCFGR + x]) | (privileged ? 0 : state[PRIVCFGR + x]);
    if (!(closed & bit))
        return answer(DONE);
    return refuse_with(state, peripheral);
}

uint64_t yard_line(const uint32_t *state, size_t words) {
    return words == RIF_STATE_WORDS ? state[LINE] & 1 : answer(WRONG_LENGTH);
}
