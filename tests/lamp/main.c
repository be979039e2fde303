/*
 * lamp TICKS SEED: so many ticks with zero audio, of units of every effect that were made silent, and the cases in which a unit
 * is not silent.
 *
 * Units come one after another, each with a list of calls: ticks, and between them calls that are refused, resets and retunes,
 * of the tape delay also in the middle of a tick; at the end a sound. After each the unit is asked whether it is silent, and
 * its places are read. The last line is `N passed, M failed`, counted in facts of each effect, in what each effect must have
 * come to, and in the cases of not_silent.c and tape.c.
 */
#include "lamp.h"

#include <stdio.h>
#include <stdlib.h>
#include <string.h>

/* After so many broken facts it ends: where no unit is silent there would be no ticks to count. */
#define ENOUGH 1000u

static double kept[LENT];
static uint64_t ticks_made;

/* A tick, or a half of one. */
static int answers_zeros(struct unit *u, const struct effect_call *c)
{
    double out[3] = {JUNK, JUNK, JUNK};
    uint32_t age = JUNK_AGE;
    const uint32_t number = effect_make(&u->state, c, out, &age);
    unsigned i;
    int zeros = 1;
    for (i = 0; i < effect_samples(u->effect); i++) {
        zeros = zeros && is_zero(out[i]);
    }
    count_samples(u, out);
    return fact(u, ACCEPTED, number == ROOM_ACCEPTED, c) && fact(u, ANSWERS_ZEROS, zeros, c);
}

/* A reset or a retune in between. A host that made up the unit may then lay other zeros into the places in use, and sounds into
   spare ones, which leaves the count right; in a run nobody does. */
static int clear(struct unit *u, enum way way)
{
    const int call = one_in(2) && effect_has(u->effect, RETUNE) ? RETUNE : RESET;
    const double rate = any_rate(u->effect);
    struct effect_call c;
    double out[3];
    uint32_t age = JUNK_AGE;
    if (call == RETUNE && needed(u, rate) <= u->places) {
        u->rate = rate;
    }
    c = call_of(u, call);
    if (!fact(u, CLEARS, effect_make(&u->state, &c, out, &age) == ROOM_ACCEPTED && silent(u) == 1, &c)) {
        return 0;
    }
    if (way == HANDED_IN && one_in(2)) {
        lay_zeros(u);
    }
    return 1;
}

/* A call that is refused, of a copy of the state where that is the cause. */
static int refused(const struct unit *u)
{
    struct effect_state state, before;
    struct effect_call c;
    double out[3] = {JUNK, JUNK, JUNK};
    uint32_t age = JUNK_AGE;
    const uint32_t number = draw_refused(u, &c, &state);
    const unsigned answers = effect_answers(u->effect, c.call);
    const double none[3] = {0.0, 0.0, 0.0};
    int good;
    memcpy(&before, &state, sizeof before);
    memcpy(kept, u->lent, u->places * sizeof *kept);
    good = effect_make(&state, &c, out, &age) == number && all_same(out, none, answers) &&
           (c.call != TICK || !effect_aged(u->effect) || age == 0u) &&
           memcmp(&state, &before, sizeof state) == 0 && memcmp(kept, u->lent, u->places * sizeof *kept) == 0;
    count_refusal(u->effect, number);
    return fact(u, REFUSED, good && silent(u) == !waits(u), &c);
}

/* While a read waits: its store half, or a clearing that drops it, and before it perhaps a call that is refused. */
static int end_tick(struct unit *u, enum way way)
{
    const struct effect_call c = draw_store(u);
    if (!fact(u, WAITS, silent(u) == 0, NULL) || (one_in(12) && !refused(u))) {
        return 0;
    }
    return one_in(30) ? clear(u, way) : answers_zeros(u, &c);
}

/* One tick with zero audio. */
static int tick(struct unit *u, enum way way)
{
    const enum audio audio = (enum audio)below(zero_audios(u->effect));
    const struct effect_call c = draw_tick(u, audio);
    ticks_made++;
    count_tick(u, way, audio);
    return answers_zeros(u, &c) && (!waits(u) || end_tick(u, way)) && fact(u, STAYS_SILENT, silent(u) == 1, &c);
}

/* A tick, after which the unit is asked: what it answers must be what its places say. */
static int heard(struct unit *u, const struct effect_call *c)
{
    double out[3];
    uint32_t age;
    return fact(u, ACCEPTED, whole_tick(u, c, out, &age) == ROOM_ACCEPTED, c) && silent(u) == 1;
}

/* A tick that sounds, and ticks of zero audio, which write over what it left, until the unit is silent or for so many. */
static void fade(struct unit *u)
{
    const uint64_t most = u->effect == ROOM_TAPE_DELAY ? 20u : u->effect == ROOM_REVERB ? 60u : 400u;
    struct effect_call c = draw_sounding_tick(u);
    int is_silent = heard(u, &c);
    uint64_t ticks;
    if (u->effect != ROOM_TREMOLO) {
        fact(u, SOUNDS, !is_silent, &c);
    }
    for (ticks = 0; ticks < most && !is_silent; ticks++) {
        c = draw_tick(u, (enum audio)below(zero_audios(u->effect)));
        is_silent = heard(u, &c);
    }
    count_fade(u, is_silent);
}

/* The other side, at the end of a list: a sound, and the unit is not silent. In a run it comes with a tick; who made up the
   unit puts it into a place in use, and counts it, or into a store. */
static void sound(struct unit *u, enum way way)
{
    if (way != HANDED_IN) {
        fade(u);
    } else if (put_sound(u)) {
        fact(u, SOUNDS, silent(u) == 0, NULL);
    }
}

/* One unit's list. It ends early where a fact is broken: the unit may sound from then on. Long lists, in which a line is gone
   round more than once, are rarer for the reverb, whose places take long to read, and the tape delay's lists are short: its
   places take longest. */
static void list(int effect, enum way way)
{
    const uint64_t most = effect == ROOM_TAPE_DELAY ? 80u : one_in(effect == ROOM_REVERB ? 12 : 4) ? 1500u : 150u;
    uint64_t ticks = below(most);
    struct unit u;
    int good = make_silent(&u, effect, way);
    const int in_a_tick = way == HANDED_IN && waits(&u); /* it is silent after that */
    good = fact(&u, MADE_SILENT, good && silent(&u) == !in_a_tick, NULL);
    if (good && in_a_tick) {
        good = end_tick(&u, way) && fact(&u, STAYS_SILENT, silent(&u) == 1, NULL);
    }
    for (; good && ticks > 0u; ticks--) {
        good = tick(&u, way);
        if (good && one_in(12)) {
            good = refused(&u);
        }
        if (good && one_in(100)) {
            good = clear(&u, way);
        }
    }
    if (good) {
        fact(&u, HOLDS_ZEROS, holds_zeros(&u), NULL);
        sound(&u, way);
    }
}

int main(int argc, char **argv)
{
    const uint64_t ticks = argc == 3 ? strtoull(argv[1], NULL, 10) : 0u;
    const uint64_t seed = argc == 3 ? strtoull(argv[2], NULL, 10) : 0u;
    uint64_t i;
    if (ticks == 0u) {
        puts("lamp TICKS SEED");
        return 2;
    }
    seed_random(seed);
    now_testing("not silent");
    not_silent();
    tape_not_silent();
    now_testing("silent");
    for (i = 0; ticks_made < ticks && facts_broken() < ENOUGH; i++) {
        const int effect = (int)(i % (EFFECTS_END - 1u)) + 1;
        const enum way way = (enum way)(i / (EFFECTS_END - 1u) % WAYS);
        if (way != WAS_RETUNED || effect_has(effect, RETUNE)) {
            list(effect, way);
        }
    }
    check_tally();
    printf("%llu ticks, seed %llu\n", (unsigned long long)ticks_made, (unsigned long long)seed);
    return say_counts();
}
