/* Ages: how many ticks back the oldest sample lies that a tick's reads weigh above 0. Distances are worked out from document
   01's formulas, and ages from those by document 02. ages_sweeps.c has the effects with sweeps; that refused ticks answer the
   age 0 is held by the tests of each effect too, and the tape delay's have its distances. */
#include "ages.h"

#include <stdlib.h>
#include <string.h>

double lent_for_ages[ROOM_OF_AGES];

struct effect_call tick_for_age(int effect, double rate, double maximum)
{
    return effect_good(effect, TICK, lent_for_ages, room_places_needed((uint32_t)effect, rate, maximum), rate, maximum);
}

struct effect_state started_for_age(int effect, double rate, double maximum)
{
    struct effect_call c = tick_for_age(effect, rate, maximum);
    struct effect_state state;
    double out[3];
    uint32_t age = JUNK_AGE;
    c.call = START;
    memset(&state, 0, sizeof state);
    check(c.places <= ROOM_OF_AGES && effect_make(&state, &c, out, &age) == 0, "a start", (unsigned)effect);
    return state;
}

uint32_t ticked_age(struct effect_state *state, const struct effect_call *c, double out[3], uint32_t number)
{
    uint32_t ages[3] = {JUNK_AGE, JUNK_AGE, JUNK_AGE};
    check(effect_make(state, c, out, &ages[1]) == number, "the number of a tick", (unsigned)c->effect);
    check(ages[0] == JUNK_AGE && ages[2] == JUNK_AGE, "an age is one number of 32 bits", (unsigned)c->effect);
    return ages[1];
}

void ages_as(struct effect_state *state, const struct effect_call *c, uint32_t age, const char *what, unsigned i)
{
    double out[3];
    check(ticked_age(state, c, out, 0) == age, what, i);
}

/* The delay. Without a glide behind it, a tick reads at its target. */

static void delay_answers(double milliseconds, uint32_t age, const char *what, unsigned i)
{
    struct effect_state state = started_for_age(ROOM_DELAY, 8000.0, MAXIMUM);
    struct effect_call c = tick_for_age(ROOM_DELAY, 8000.0, MAXIMUM);
    c.curves[0] = milliseconds;
    ages_as(&state, &c, age, what, i);
}

static void distances_of_a_delay(void)
{
    const double nearest[] = {0.125, nearer(0.125), SMALLEST, 0.0, -0.0, -1.0, -(double)INFINITY};
    const double farthest[] = {62.5, nearer(62.5), farther(62.5), 63.0, 1e308, (double)INFINITY};
    unsigned i;
    for (i = 0; i < COUNT(nearest); i++) {
        delay_answers(nearest[i], 1u, "1 is the least, never 0", i);
    }
    for (i = 0; i < COUNT(farthest); i++) {
        delay_answers(farthest[i], LAST, "L - 1 is the most, never L", i);
    }
    for (i = 2; i <= 2u * LAST; i++) {
        delay_answers(i / 16.0, (i + 1u) / 2u, "a whole distance is the age, of a half it is one more", i);
    }
    /* The least fraction and the greatest: neither is taken for 0. */
    for (i = 1; i < LAST; i++) {
        const double ms[] = {farther(i / 8.0), nearer((i + 1u) / 8.0)};
        const double distances[] = {ms[0] * 8000.0 / 1000.0, ms[1] * 8000.0 / 1000.0};
        delay_answers(ms[0], age_at(distances[0]), "a fraction next to 0", i);
        delay_answers(ms[1], age_at(distances[1]), "a fraction next to 1", i);
    }
    delay_answers(farther(0.125), 2u, "a fraction of 2^-52", 0);
}

static void lengths_of_a_delay(void)
{
    const struct {
        double rate, maximum;
        uint32_t last;
    } lines[] = {{8000.0, 0.001, 8}, {44100.0, 2.0, 88200}, {192000.0, 1.0, 192000}, {10260.0, 0.35, 3590}};
    unsigned i;
    for (i = 0; i < COUNT(lines); i++) {
        struct effect_state state = started_for_age(ROOM_DELAY, lines[i].rate, lines[i].maximum);
        struct effect_call c = tick_for_age(ROOM_DELAY, lines[i].rate, lines[i].maximum);
        c.curves[0] = lines[i].maximum * 1001.0;
        ages_as(&state, &c, lines[i].last, "the end of a line", i);
        state.delay.delay_primed = 0;
        state.delay.smoothed_delay = 0.0;
        state.delay.linear_time = 1;
        c.ports[1] = room_set((double)INFINITY);
        ages_as(&state, &c, lines[i].last, "the end of a line, in seconds", i);
    }
}

/* The longest line, of 60 s at 192,000: an age of 24 bits. */
static void longest_line(void)
{
    struct effect_call c = effect_good(ROOM_DELAY, START, calloc(11520001u, sizeof(double)), 11520001u, 192000.0, 60.0);
    struct effect_state state;
    double out[3];
    uint32_t age;
    memset(&state, 0, sizeof state);
    check(c.lent != NULL, "memory for the longest line", 0);
    if (c.lent == NULL) {
        return;
    }
    check(effect_make(&state, &c, out, &age) == 0, "start of the longest line", 0);
    c.call = TICK;
    c.curves[0] = 60000.0;
    ages_as(&state, &c, 11520000u, "the end of the longest line", 0);
    free(c.lent);
}

/* target + (last distance - target) x coefficient, at 8,000 and 2 ms, where the target is 16, in either mode */
static void glides(void)
{
    const struct {
        double last, coefficient;
        uint32_t age;
    } moves[] = {
        {32.0, 0.5, 24}, {33.0, 0.5, 25}, {8.0, 0.75, 10}, {16.0, 0.5, 16},           {32.0, 0.0, 16},
        {17.0, 0.5, 17}, {15.0, 0.5, 16}, {500.0, 0.5, 258}, {farther(16.0), 0.75, 17}, {farther(16.0), 0.25, 16},
        {1.0, 0.5, 9},
    };
    struct effect_call c = tick_for_age(ROOM_DELAY, 8000.0, MAXIMUM);
    unsigned i;
    c.curves[0] = 2.0;
    c.ports[1] = room_set(0.002);
    for (i = 0; i < 2u * COUNT(moves); i++) {
        struct effect_state state = started_for_age(ROOM_DELAY, 8000.0, MAXIMUM);
        state.delay.smoothed_delay = moves[i / 2u].last;
        state.delay.delay_primed = 1;
        state.delay.delay_smooth_coef = moves[i / 2u].coefficient;
        state.delay.linear_time = i % 2u;
        ages_as(&state, &c, moves[i / 2u].age, "the glide's age and not the target's", i);
    }
}

/* Up and down again: at each tick the age is that of where the glide has come to. */
static void long_glide(void)
{
    struct effect_state state = started_for_age(ROOM_DELAY, 8000.0, MAXIMUM);
    struct effect_call c = tick_for_age(ROOM_DELAY, 8000.0, MAXIMUM);
    double distance = 1.0;
    uint32_t before = 0;
    unsigned i;
    state.delay.delay_smooth_coef = 0.97;
    for (i = 0; i < 2000u; i++) {
        const double target = i == 0u || i >= 1000u ? 1.0 : 500.0;
        distance = i == 0u ? target : target + (distance - target) * 0.97;
        c.curves[0] = target / 8.0;
        ages_as(&state, &c, age_at(distance), "a glide's age, tick by tick", i);
        check(i < 1000u ? before <= age_at(distance) : before >= age_at(distance), "a glide up, a glide down", i);
        before = age_at(distance);
    }
}

/* A clearing's first tick has no glide behind it: no age of the distance +0, and none of the glide before. */
static void after_a_clearing(void)
{
    struct effect_state state = started_for_age(ROOM_DELAY, 8000.0, MAXIMUM);
    struct effect_call c = tick_for_age(ROOM_DELAY, 8000.0, MAXIMUM);
    struct effect_call clearing = c;
    double out[3];
    uint32_t age;
    c.places = clearing.places = ROOM_OF_AGES;
    c.curves[0] = 4.0;
    ages_as(&state, &c, 32u, "the first tick after a start reads at its target", 0);
    c.curves[0] = 2.0;
    ages_as(&state, &c, 24u, "the second one glides", 1);
    clearing.call = RESET;
    check(effect_make(&state, &clearing, out, &age) == 0, "a reset between ages", 2);
    c.curves[0] = 4.0;
    ages_as(&state, &c, 32u, "the first tick after a reset reads at its target", 3);
    c.curves[0] = 2.0;
    ages_as(&state, &c, 24u, "the second one glides again", 4);
    clearing.call = RETUNE;
    clearing.rate = 16000.0;
    check(effect_make(&state, &clearing, out, &age) == 0, "a retune between ages", 5);
    c.curves[0] = 4.0;
    ages_as(&state, &c, 64u, "the first tick after a retune reads at its target, in the new rate's ticks", 6);
}

/* What an age is of, and what not */

/* A tick of any effect at one of many distances, of audio 0, all wet. */
static struct effect_call wet_tick(int effect, unsigned which)
{
    const double sines[3] = {spread_number(which), -1.0, -0.5};
    const int glides_there = effect == ROOM_DELAY || effect == ROOM_TAPE_DELAY;
    struct effect_call c = glides_there ? tick_for_age(effect, 8000.0, MAXIMUM) : sweep_of(effect, 8000.0, sines);
    c.ports[0] = room_set(0.0);
    c.ports[2] = c.ports[3] = room_set(1.0);
    if (glides_there) {
        c.curves[0] = which * 0.3125; /* whole distances and halves, and so by the seconds */
        c.ports[1] = room_set(which * 0x1p-7);
    }
    return c;
}

/* Each line a 0, but for a 1 in its places from `from` to `to` back, where its next position is 0. */
static void lay(int effect, uint64_t places, uint64_t from, uint64_t to)
{
    const uint64_t length = effect == ROOM_FLANGER ? places / 2u : places;
    uint64_t i;
    for (i = 0; i < places; i++) {
        const uint64_t back = length - i % length;
        lent_for_ages[i] = back >= from && back <= to ? 1.0 : 0.0;
    }
}

static int sounds(struct effect_state state, const struct effect_call *c)
{
    double out[3] = {0.0, 0.0, 0.0};
    (void)ticked_age(&state, c, out, 0);
    return out[0] != 0.0 || out[1] != 0.0 || out[2] != 0.0;
}

static void weights(int effect)
{
    const struct effect_state state = started_for_age(effect, 8000.0, MAXIMUM);
    unsigned i;
    for (i = 0; i < 200u; i++) {
        const struct effect_call c = wet_tick(effect, i);
        struct effect_state after = state;
        double out[3];
        const uint32_t age = ticked_age(&after, &c, out, 0);
        lay(effect, c.places, age, age);
        check(sounds(state, &c), "the sample of that age has a weight above 0", 1000u * (unsigned)effect + i);
        lay(effect, c.places, age + 1u, c.places);
        check(!sounds(state, &c), "and none behind it has", 1000u * (unsigned)effect + i);
    }
}

/* An age is of the distances alone: a mix of 0 hides none, and audio, feedback and what the lines hold are not asked. */
static void distances_alone(int effect)
{
    const unsigned mix = effect_ports(effect) - 1u;
    const struct effect_state state = started_for_age(effect, 8000.0, MAXIMUM);
    const struct effect_call c = wet_tick(effect, 100u);
    const room_port others[] = {room_set(0.0), room_set(-0.0), room_set(-1.0), room_unset(), room_set(0.5)};
    const double audios[] = {1.0, -0.0, (double)NAN, (double)INFINITY, -DBL_MAX};
    struct effect_state after = state;
    double out[3];
    const uint32_t age = ticked_age(&after, &c, out, 0);
    unsigned i, k;
    for (i = 0; i < COUNT(others); i++) {
        struct effect_call other = c;
        for (k = 0; k < c.places; k++) {
            lent_for_ages[k] = audios[(i + k) % COUNT(audios)];
        }
        after = state;
        other.ports[mix] = others[i];
        ages_as(&after, &other, age, "a mix hides no age, 0 neither", i);
        after = state;
        other.ports[0] = i == 0u ? room_unset() : room_set(audios[i]);
        other.ports[2] = others[i]; /* the feedback of the delays and the flanger */
        ages_as(&after, &other, age, "audio and feedback change no age", i);
    }
}

/* The place behind a whole distance has the weight 0, and is heard where it is no finite number. */
static void no_dependence(void)
{
    struct effect_state state = started_for_age(ROOM_DELAY, 8000.0, MAXIMUM);
    struct effect_call c = wet_tick(ROOM_DELAY, 0);
    double out[3];
    c.curves[0] = 2.0;
    lent_for_ages[501u - 17u] = (double)NAN;
    check(ticked_age(&state, &c, out, 0) == 16u && isnan(out[0]), "a NaN at 17 is heard at the age 16", 0);
}

/* Refusals */

static double *rate_of(int effect, struct effect_state *s)
{
    double *const rates[] = {&s->delay.sample_rate, &s->chorus.sample_rate, &s->flanger.sample_rate, &s->vibrato.sample_rate};
    return rates[effect - ROOM_DELAY];
}

static void refuse(struct effect_call *c, struct effect_state *state, uint32_t number)
{
    if (number == 3u) {
        c->places--;
    } else if (number == 4u) {
        *rate_of(c->effect, state) = (double)NAN;
    } else if (number == 5u) {
        c->ports[2] = room_set(ODD_NAN);
    } else {
        c->curves[0] = ODD_NAN;
    }
}

/* Between two accepted ticks one that is refused: its age is 0 and not the one before, and the next is as if it had not been.
   The delay glides from 32 to 16 by halves; a sweep's sines stay. */
static void refused_between(int effect, uint32_t number)
{
    static double kept[ROOM_OF_AGES];
    struct effect_state state = started_for_age(effect, 8000.0, MAXIMUM), wrong, before;
    struct effect_call c = wet_tick(effect, 100u), refused;
    const unsigned i = 10u * (unsigned)effect + number;
    double out[3] = {JUNK, JUNK, JUNK};
    uint32_t age;
    c.curves[0] = effect == ROOM_DELAY ? 4.0 : 1.0;
    age = ticked_age(&state, &c, out, 0);
    check(age > 0u && (effect != ROOM_DELAY || age == 32u), "the age before a refusal", i);
    c.curves[0] = effect == ROOM_DELAY ? 2.0 : 1.0;
    refused = c;
    memcpy(&wrong, &state, sizeof wrong);
    refuse(&refused, &wrong, number);
    memcpy(&before, &wrong, sizeof before);
    memcpy(kept, lent_for_ages, sizeof kept);
    check(ticked_age(&wrong, &refused, out, number) == 0u, "a refused tick answers the age 0", i);
    check(memcmp(&wrong, &before, sizeof wrong) == 0, "and changes no field of the state", i);
    check(memcmp(kept, lent_for_ages, sizeof kept) == 0, "and no place of the memory", i);
    ages_as(&state, &c, effect == ROOM_DELAY ? 24u : age, "the next age is as if it had not been", i);
}

void ages(void)
{
    uint32_t number;
    int effect;
    distances_of_a_delay();
    lengths_of_a_delay();
    longest_line();
    glides();
    long_glide();
    after_a_clearing();
    ages_of_sweeps();
    no_dependence();
    for (effect = ROOM_DELAY; effect < EFFECTS_END; effect++) {
        if (effect_aged(effect)) {
            weights(effect);
            distances_alone(effect);
        }
    }
    for (effect = ROOM_DELAY; effect <= ROOM_VIBRATO; effect++) {
        for (number = 3; number <= 6u; number++) {
            refused_between(effect, number);
        }
    }
}
