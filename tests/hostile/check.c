/* Makes a call and holds what it returned, the state, the samples and the memory against the paper. */
#include "hostile.h"

#include <string.h>

/* To the bit; after an accepted tick a store or a kept number that is NaN may be any NaN. */
static int state_is(int effect, const struct state *is, const struct state *should, int any_nan)
{
    unsigned i;
    for (i = 0; i < words_of(effect); i++) {
        const int floats = state_words[effect][i] == 's' || state_words[effect][i] == 'k';
        const int nans = any_nan && floats && plays(of_bits(is->word[i]), of_bits(should->word[i]));
        if (is->word[i] != should->word[i] && !nans) {
            return 0;
        }
    }
    return 1;
}

/* Whether all of the memory is looked at, a short one at every call and a long one now and then. */
static int looks_at_all(const struct unit *unit)
{
    return unit->arena->places <= 4096u || one_in(unit->arena->places / 2048u);
}

/* Whether all places in use are read before the call and after it, of a question in a run always. It may come with fewer. */
static int reads_all(const struct unit *unit, const struct call *c)
{
    return c->kind > RESET && lines_of(c->effect) > 0u && c->places >= call_needs(c) &&
           (looks_at_all(unit) || (c->kind == SILENT && in_a_run(unit, c)));
}

/* All of it is compared after a clearing too. What a call changed out of turn is still there by the next time, as the copy has
   only what calls may change. Around the positions and at the ends of what was lent it is compared at once. */
static int memory_is(const struct unit *unit, const struct call *c, int whole)
{
    const uint64_t offset = (uint64_t)(c->memory - unit->arena->first);
    unsigned i;
    if (whole || looks_at_all(unit)) {
        return arena_as_it_should(unit->arena);
    }
    for (i = 0; i < words_of(c->effect); i++) {
        const uint64_t start = c->effect == REVERB ? tank_start(i) : 0u;
        const uint64_t pos = c->state.word[i];
        if (is_position(c->effect, i) && pos < c->places && start + pos < c->places &&
            !window_as_it_should(unit->arena, offset + start + pos)) {
            return 0;
        }
    }
    return window_as_it_should(unit->arena, offset) && window_as_it_should(unit->arena, offset + c->places);
}

/* A refused start has no state to leave and writes zeros; every other refused call leaves the state. A refused tick plays
   +0. */
static const char *check_refused(const struct unit *unit, const struct call *c, const struct answer *a)
{
    static const struct state zeros;
    unsigned i;
    if (!state_is(c->effect, &a->state, c->kind == START ? &zeros : &c->state, 0)) {
        return "the state of a refused call";
    }
    for (i = 0; plays_samples(c) && i < samples_of(c->effect); i++) {
        if (!same(a->out[i], 0.0)) {
            return "a refused tick plays something";
        }
    }
    if (c->kind == SILENT && a->silent != 0u) {
        return "a refused question is answered with yes";
    }
    return memory_is(unit, c, 0) ? NULL : "memory changed by a refused call";
}

static const char *check_tick(const struct unit *unit, const struct call *c, const struct answer *a, const struct ticked *t)
{
    double *should = unit->arena->should + (c->memory - unit->arena->first);
    unsigned i;
    if (!state_is(c->effect, &a->state, &t->state, 1)) {
        return "the state after a tick";
    }
    for (i = 0; i < samples_of(c->effect); i++) {
        if (!plays(a->out[i], t->out[i])) {
            return "a sample";
        }
    }
    for (i = 0; i < t->writes; i++) {
        if (!plays(c->memory[t->place[i]], t->value[i])) {
            return "a place that a tick writes";
        }
        should[t->place[i]] = c->memory[t->place[i]];
    }
    count_ends(c, t);
    return memory_is(unit, c, 0) ? NULL : "memory that a tick must leave";
}

static const char *check_clearing(const struct unit *unit, const struct call *c, const struct answer *a)
{
    const struct state should = cleared_by_the_paper(c);
    if (!state_is(c->effect, &a->state, &should, 0)) {
        return "the state after a clearing";
    }
    memset(unit->arena->should + (c->memory - unit->arena->first), 0, c->places * sizeof(double));
    return memory_is(unit, c, 1) ? NULL : "memory after a clearing";
}

static const char *check_silent(const struct unit *unit, const struct call *c, const struct answer *a)
{
    if (a->silent != (uint32_t)silent_by_the_paper(c)) {
        return "the answer to silent";
    }
    if (!state_is(c->effect, &a->state, &c->state, 0)) {
        return "the state after silent";
    }
    return memory_is(unit, c, 0) ? NULL : "memory changed by silent";
}

/* What an accepted tick must answer is worked out before it is made: it depends on the memory. */
const char *check_call(struct unit *unit, const struct call *c, struct answer *a)
{
    const uint32_t number = number_for(c);
    const int clears = number == 0u && c->kind <= RESET;
    const int reads = number == 0u && reads_all(unit, c);
    const uint64_t before = reads ? nonzero_places(c) : 0u;
    struct ticked t;
    const char *wrong;
    if (clears && unit->arena->places > 4096u && !arena_as_it_should(unit->arena)) {
        return "memory, seen before a clearing";
    }
    t.age = 0u;
    if (number == 0u && plays_samples(c)) {
        t = tick_by_the_paper(c);
    }
    *a = make(c);
    if (a->number != number) {
        return "the number";
    }
    if (a->age != (c->kind == TICK && has_ages(c->effect) ? t.age : UNTOUCHED)) {
        return "the age";
    }
    wrong = number != 0u        ? check_refused(unit, c, a)
            : clears            ? check_clearing(unit, c, a)
            : plays_samples(c)  ? check_tick(unit, c, a, &t)
                                : check_silent(unit, c, a);
    if (wrong == NULL && number == 0u && !state_passes(c->effect, &a->state)) {
        wrong = "an accepted call returned a state that the test refuses";
    }
    return wrong == NULL && reads ? check_count(unit, c, a, before) : wrong;
}
