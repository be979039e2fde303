/*
 * Wrong counts, so that the tests of the count are seen to notice each: linked with --wrap, this stands before `effect_make`,
 * and breaks one effect in one way at a time. The last line is `N passed, M failed`.
 */
#include "counts.h"

#include <setjmp.h>
#include <stdio.h>
#include <string.h>

extern __typeof__(effect_make) __real_effect_make, __wrap_effect_make;
extern __typeof__(check) __wrap_check;

enum way {
    NONE,
    NOTHING_LOST,
    NOTHING_GAINED,
    READ_AFTER,
    END_AT_EACH,
    NO_END_AT_0,
    NO_END_AT_ALL,
    NAN_IS_ZERO,
    MINUS_ZERO_SOUNDS,
    SUBNORMAL_IS_ZERO,
    STORES_COUNT,
    COUNTED_ANEW,
    SPARE_PLACES_TOO,
    READ_HALF_COUNTS,
    KEPT_BY_A_START,
    KEPT_BY_A_RETUNE,
    KEPT_BY_A_RESET,
    REFUSED_TICK_COUNTS,
    ONE_MORE_PASSES,
    ALL_REFUSED,
    UNREAD,
    READS_64_BITS,
    WRITES_64_BITS,
    WRITES_64_BITS_REFUSED,
    WAYS
};
static const char *const way_names[WAYS] = {
    "is right",
    "misses what is lost",
    "misses what is gained",
    "reads the old places after the writes",
    "has an end at each write",
    "goes below 0",
    "goes above the places in use",
    "takes a NaN for a zero",
    "takes -0 for a sound",
    "takes a subnormal number for a zero",
    "counts damping stores",
    "counts a handed-in memory anew",
    "counts spare places too",
    "counts in the read half",
    "keeps the count over a start",
    "keeps the count over a retune",
    "keeps the count over a reset",
    "counts in a tick that is refused",
    "lets one more than the places in use pass",
    "refuses as many as the places in use",
    "answers the question with no look at the count",
    "takes the position for 64 bits",
    "writes the position as 64 bits",
    "writes the position as 64 bits where it refuses",
};

static int broken_effect;
static enum way broken;

/* What a call found: of a tick the places that it writes, and what they held. */
struct found {
    struct effect_state state;
    uint32_t count, all;
    unsigned writes;
    uint64_t places[LINES];
    double olds[LINES];
};

static int writes_places(const struct effect_call *c)
{
    return c->call == STORE || (c->call == TICK && !effect_has(c->effect, STORE));
}

static void find(struct found *f, const struct effect_state *state, const struct effect_call *c)
{
    unsigned i;
    memcpy(&f->state, state, sizeof f->state);
    f->count = *effect_count(c->effect, &f->state);
    f->all = c->call == START ? 0u : places_in_use(c->effect, state);
    f->writes = writes_places(c) ? places_to_write(c->effect, state, f->places) : 0u;
    for (i = 0; i < f->writes; i++) {
        f->olds[i] = c->lent[f->places[i]];
    }
}

/* Before the call: a state that passes its test and must not, or the other way round. */
static void hand_wrong(const struct found *f, struct effect_state *state, int effect)
{
    uint32_t *count = effect_count(effect, state);
    if (broken == ONE_MORE_PASSES && f->count == f->all + 1u) {
        *count = f->all;
    } else if (broken == ALL_REFUSED && f->count == f->all) {
        *count = UINT32_MAX;
    } else if (broken == READS_64_BITS && f->count != 0u) {
        *count_position(effect, state, LINES - 1u) = UINT32_MAX; /* no 32 bits hold it */
    }
}

static int sounds(double x)
{
    return broken == NAN_IS_ZERO         ? x < 0.0 || x > 0.0
           : broken == MINUS_ZERO_SOUNDS ? !same(x, 0.0)
           : broken == SUBNORMAL_IS_ZERO ? isnan(x) || fabs(x) >= DBL_MIN
                                         : nonzero_in(&x, 1) != 0u;
}

static uint32_t nonzero_stores(const room_reverb *state)
{
    return nonzero_in(state->comb_filter_state_l, 8) + nonzero_in(state->comb_filter_state_r, 8);
}

static int64_t ended(int64_t count, int64_t all)
{
    return count < 0 && broken != NO_END_AT_0 ? 0 : count > all && broken != NO_END_AT_ALL ? all : count;
}

/* What an accepted tick leaves of the count. */
static uint32_t wrong_count(const struct found *f, const struct effect_state *state, const struct effect_call *c)
{
    int64_t count = f->count;
    unsigned i;
    if (broken == COUNTED_ANEW) {
        return full_reading(c->effect, state, c->lent);
    }
    for (i = 0; i < f->writes; i++) {
        const int gained = broken != NOTHING_GAINED && sounds(c->lent[f->places[i]]);
        const int lost = broken != NOTHING_LOST && sounds(broken == READ_AFTER ? c->lent[f->places[i]] : f->olds[i]);
        count += gained - lost;
        count = broken == END_AT_EACH ? ended(count, f->all) : count;
    }
    if (broken == STORES_COUNT) {
        count += (int64_t)nonzero_stores(&state->reverb) - nonzero_stores(&f->state.reverb);
    } else if (broken == SPARE_PLACES_TOO) {
        count += sounds(c->lent[c->places - 1u]);
    }
    return (uint32_t)ended(count, f->all);
}

/* What a call leaves of the count, where its own is this one. */
static uint32_t left_wrong(const struct found *f, const struct effect_state *state, const struct effect_call *c,
                           uint32_t number, uint32_t count)
{
    if (number != ROOM_ACCEPTED) {
        return broken == REFUSED_TICK_COUNTS && c->call == TICK ? f->count / 2u : broken == WRITES_64_BITS_REFUSED ? 0u : count;
    }
    if (c->call <= RESET) {
        const int keeps = (broken == KEPT_BY_A_START && c->call == START) ||
                          (broken == KEPT_BY_A_RETUNE && c->call == RETUNE) || (broken == KEPT_BY_A_RESET && c->call == RESET);
        return keeps ? f->count : count;
    }
    if (f->writes > 0u) {
        return broken == WRITES_64_BITS ? 0u : wrong_count(f, state, c);
    }
    return broken == READ_HALF_COUNTS && c->call == TICK ? f->count / 2u : broken == ONE_MORE_PASSES ? f->count : count;
}

uint32_t __wrap_effect_make(struct effect_state *state, const struct effect_call *c, double out[3], uint32_t *age)
{
    struct found f;
    uint32_t number, *count;
    if (c->effect != broken_effect) {
        return __real_effect_make(state, c, out, age);
    }
    find(&f, state, c);
    hand_wrong(&f, state, c->effect);
    number = __real_effect_make(state, c, out, age);
    if (number != ROOM_ACCEPTED && c->call != START) {
        memcpy(state, &f.state, sizeof *state); /* without what was handed in wrong */
    }
    count = effect_count(c->effect, state);
    *count = left_wrong(&f, state, c, number, *count);
    if (broken == UNREAD && c->call == SILENT && number == ROOM_ACCEPTED) {
        out[0] = keeps_no_sound(c->effect, *state);
    }
    return number;
}

/* The first that the tests notice is enough. */
static jmp_buf noticed;

void __wrap_check(int good, const char *what, unsigned number)
{
    (void)what;
    (void)number;
    if (!good) {
        longjmp(noticed, 1);
    }
}

static int is_noticed(void)
{
    if (setjmp(noticed) != 0) {
        return 1;
    }
    counts_of(broken_effect);
    return 0;
}

static int can_break(int effect, enum way way)
{
    return way == END_AT_EACH        ? effect == ROOM_FLANGER || effect == ROOM_REVERB
           : way == STORES_COUNT     ? effect == ROOM_REVERB
           : way == READ_HALF_COUNTS ? effect == ROOM_TAPE_DELAY
                                     : effect_lined(effect);
}

int main(void)
{
    unsigned passed = 0, failed = 0;
    int way;
    for (broken_effect = ROOM_DELAY; broken_effect < EFFECTS_END; broken_effect++) {
        for (way = NONE; way < WAYS; way++) {
            broken = (enum way)way;
            if (!can_break(broken_effect, broken)) {
                continue;
            }
            if (is_noticed() == (broken != NONE)) {
                passed++;
            } else {
                failed++;
                printf("FAILED: effect %d: it %s\n", broken_effect, way_names[broken]);
            }
        }
    }
    printf("%u passed, %u failed\n", passed, failed);
    return failed != 0u;
}
