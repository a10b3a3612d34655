/* Memory accesses: single ones, those of masters, batches. */
#include "decide.h"
#include "flags.h"

/* The first fault is kept until IAEF is cleared. The value is the reason. */
static inline uint64_t refused(uint32_t *s, const guard_facts *g, uint32_t offset, uint32_t kind, int verdict) {
    uint32_t *w = s + g->first;
    if (!(w[IASR] & IAEF)) {
        w[IASR] |= IAEF;
        w[IAESR] = blend(w[IAESR], kind, 0xb7);
        w[IADDR] = offset;
    }
    raise_flag(s, g->flag);
    return answer(REFUSED) - verdict;
}

APART uint64_t default_refused(uint32_t *s, const guard_facts *g, uint32_t offset, uint32_t kind) {
    return refused(s, g, offset, kind, default_refusal(kind));
}

APART uint64_t judged(uint32_t *s, const guard_facts *g, const uint32_t *region, uint32_t left, uint32_t offset, uint32_t kind) {
    int verdict = decide(region, left, offset, kind);
    return verdict < 0 ? refused(s, g, offset, kind, verdict) : (uint64_t)verdict;
}

/* What most accesses need is here; the rest is in functions of their own, so that no registers are saved for it. */
static inline uint64_t access_memory(uint32_t *s, uint32_t guard, uint32_t offset, uint32_t width, uint32_t cid, bool write,
                                     bool secure, bool privileged) {
    if (!is_guard(guard) || cid > 7 || width > 4 || !(0x16 >> width & 1)) /* the bits 1, 2 and 4 */
        return answer(NO_SUCH);
    if (offset & (width - 1))
        return answer(MISALIGNED);
    const guard_facts *g = &guards[guard];
    if (offset > g->last)
        return answer(OUTSIDE);
    if (on_ahb(guard))
        cid = 0;
    const uint32_t *region = s + g->first + REGIONS;
    if (!none_enabled(region)) {
        for (uint32_t left = g->regions; left; left--, region += REGION_WORDS)
            if (covers(region, offset))
                return judged(s, g, region, left, offset, kind_of(cid, write, secure, privileged));
    }
    if (default_grants(port_of(guard), cid, secure, privileged))
        return 0;
    return default_refused(s, g, offset, kind_of(cid, write, secure, privileged));
}

uint64_t yard_memory(uint32_t *state, size_t words, uint32_t guard, uint32_t offset, uint32_t width, bool write, uint32_t cid,
                     bool secure, bool privileged) {
    if (words != RIF_STATE_WORDS)
        return answer(WRONG_LENGTH);
    return access_memory(state, guard, offset, width, cid, write, secure, privileged);
}

/* The peripheral whose SEC bit guards a master's security; master 0 has none. */
static const uint8_t guarding[] = {0, 106, 53, 54, 56, 57, 60, 99, 101, 93, 103, 104, 97};

uint64_t yard_master(uint32_t *state, size_t words, uint32_t master, uint32_t guard, uint32_t offset, uint32_t width, bool write) {
    if (words != RIF_STATE_WORDS)
        return answer(WRONG_LENGTH);
    if (master >= sizeof guarding)
        return answer(NO_SUCH);
    uint32_t attr = state[ATTR + master], p = guarding[master];
    uint32_t secure = attr >> 8 & (p ? state[SECCFGR + p / 32] >> p % 32 : 1) & 1;
    return access_memory(state, guard, offset, width, attr >> 4 & 7, write, secure, attr >> 9 & 1);
}

uint64_t yard_batch(uint32_t *state, size_t words, const rif_access *accesses, size_t accesses_count, uint64_t *answers,
                    size_t answers_count) {
    if (words != RIF_STATE_WORDS || answers_count < accesses_count)
        return answer(WRONG_LENGTH);
    for (size_t i = 0; i < accesses_count; i++) {
        const rif_access *a = &accesses[i];
        answers[i] = access_memory(state, a->guard, a->offset, a->width, a->cid, a->write, a->secure, a->privileged);
    }
    return answer(DONE);
}
