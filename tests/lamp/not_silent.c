/* Units that are not silent: those that would sound again by themselves, and audio that is no zero. Each is a unit just
   started in which one number is changed by hand, and counted where it is a place. */
#include "lamp.h"

/* The first tick, counted from 0, that answers anything but zeros, and its samples; NEVER if none of so many does. */
unsigned first_sound(struct unit *u, const struct effect_call *c, unsigned ticks, double out[3])
{
    uint32_t age = JUNK_AGE;
    unsigned n, i;
    for (n = 0; n < ticks; n++) {
        if (whole_tick(u, c, out, &age) != ROOM_ACCEPTED) {
            check(0, "a tick was refused", n);
            return NEVER;
        }
        for (i = 0; i < effect_samples(u->effect); i++) {
            if (!is_zero(out[i])) {
                return n;
            }
        }
    }
    return NEVER;
}

/* A tick of +0, its controls unset. */
struct effect_call plain_tick(const struct unit *u)
{
    struct effect_call c = call_of(u, TICK);
    unsigned i;
    c.ports[0] = room_set(0.0);
    for (i = 1; i < COUNT(c.ports); i++) {
        c.ports[i] = room_unset();
    }
    return c;
}

/* The reverb, at size 1. A store of 1 in a zero tank: 0 x 0.8 + 1 x 0.2 goes into its comb times the feedback, 0.28 + 0.7, and
   comes out of it a round later, an eighth as loud; the four all-passes turn its sign four times. */
static void store_returns(const struct tuning *at, unsigned comb, unsigned number)
{
    const double wet = (0.0 * (1.0 - 0.5 * 0.4) + 1.0 * (0.5 * 0.4)) * (0.28 + 1.0 * 0.7) * 0.125;
    const unsigned side = comb < RIGHT_COMB ? 0u : 1u;
    const unsigned length = line_length(at, comb);
    struct unit u = unit_at(ROOM_REVERB, at->rate, 0.0);
    struct effect_call c = plain_tick(&u);
    double out[3];
    c.ports[1] = room_set(1.0);
    check(silent(&u) == 1, "a reverb that was started is silent", number);
    *comb_store(&u.state.reverb, comb) = 1.0;
    check(silent(&u) == 0, "it is not with a store of 1", number);
    check(first_sound(&u, &c, length, out) == NEVER && silent(&u) == 0, "nor while its comb goes round", number);
    check(first_sound(&u, &c, 1, out) == 0u, "and sounds again at the tick of its comb's length, the first being 0", number);
    check(same(out[side], 0.0 * 0.5 + wet * 0.5) && is_zero(out[1u - side]), "on its own side, as loud as it should", number);
}

static void stores_return(void)
{
    unsigned i, comb;
    for (i = 0; i < TUNINGS; i++) {
        for (comb = 0; comb < STORES; comb++) {
            store_returns(&tunings[i], comb, 100u * i + comb);
        }
    }
}

/* Damping 1, 0.4 of a store: a tick answers zeros, and what is left may sound or not. In the first the store falls to 2^-1074
   and goes into the tank, in the second to 2^-1074 and times 0.28 does not; in the third it falls to 0. */
static void stores_fade(unsigned comb)
{
    static const struct {
        double store, size, store_after, place_after;
        int silent_after;
    } cases[] = {
        {0x1p-1073, 1.0, 0x1p-1074, 0x1p-1074, 0},
        {0x1p-1073, 0.0, 0x1p-1074, 0.0, 0},
        {0x1p-1074, 1.0, 0.0, 0.0, 1},
    };
    unsigned i;
    for (i = 0; i < COUNT(cases); i++) {
        struct unit u = unit_at(ROOM_REVERB, 44100.0, 0.0);
        struct effect_call c = plain_tick(&u);
        double *store = comb_store(&u.state.reverb, comb);
        double out[3];
        *store = cases[i].store;
        c.ports[1] = room_set(cases[i].size);
        c.ports[2] = room_set(1.0);
        check(silent(&u) == 0, "not silent with a subnormal store", 10u * comb + i);
        check(first_sound(&u, &c, 1, out) == NEVER, "a tick of it answers zeros", 10u * comb + i);
        check(same(*store, cases[i].store_after), "what the store is after it", 10u * comb + i);
        check(same(u.lent[line_start(comb)], cases[i].place_after), "what goes into the tank", 10u * comb + i);
        check(silent(&u) == cases[i].silent_after, "whether it is silent after the tick", 10u * comb + i);
    }
}

/* A number of an idle stage: while two run, ticks answer zeros and leave it; it sounds at once when six run. */
static void idle_number_returns(unsigned which, unsigned stage)
{
    const unsigned number = 10u * which + stage;
    struct unit u = unit_at(ROOM_PHASER, 44100.0, 0.0);
    room_phaser *s = &u.state.phaser;
    double *const numbers[] = {s->allpass_x1_l, s->allpass_x1_r, s->allpass_y1_l, s->allpass_y1_r};
    struct effect_call c = plain_tick(&u);
    double out[3];
    c.curves[1] = c.curves[2] = 0.5;
    c.ports[3] = room_set(stage < 4u ? 0.0 : 0.5);
    numbers[which][stage] = 1.0;
    check(silent(&u) == 0, "a phaser is not silent with a number of an idle stage", number);
    check(first_sound(&u, &c, 1000, out) == NEVER, "while the stage is idle it answers zeros", number);
    check(same(numbers[which][stage], 1.0) && silent(&u) == 0, "and is not silent", number);
    c.ports[3] = room_unset();
    check(first_sound(&u, &c, 1, out) == 0u, "once six run it sounds", number);
    check(is_zero(out[1]) == (which % 2u == 1u) && is_zero(out[2]) == (which % 2u == 0u), "on its own side", number);
}

/* A delay of 501 places, one of which sounds: it is heard where the tick comes to read it before it comes to write it. */
static void place_returns(unsigned place, unsigned distance)
{
    const unsigned number = 1000u * distance + place;
    const unsigned first = place + distance < 501u ? NEVER : place + distance - 501u;
    struct unit u = unit_at(ROOM_DELAY, 8000.0, 0.0625);
    struct effect_call c = plain_tick(&u);
    double out[3];
    c.curves[0] = distance / 8.0;
    put_place(&u, place, 1.0);
    check(u.places == 501u && silent(&u) == 0, "a delay is not silent with one place that sounds", number);
    check(first_sound(&u, &c, place + 1u, out) == first, "it sounds when that is read", number);
    check(first_sound(&u, &c, 501u, out) == NEVER && silent(&u) == 1, "and then no more, as it is written over", number);
}

/* NaN and the infinities are no zero audio where there is no input rule. */
static void no_input_rule(int effect)
{
    const double audios[] = {(double)NAN, ODD_NAN, (double)INFINITY, -(double)INFINITY};
    unsigned i;
    for (i = 0; i < COUNT(audios); i++) {
        struct unit u = unit_at(effect, 44100.0, 0.0);
        struct effect_call c = plain_tick(&u);
        double out[3];
        c.ports[0] = room_set(audios[i]);
        check(silent(&u) == 1, "a unit that was started is silent", i);
        check(first_sound(&u, &c, 1, out) == 0u, "audio that is no finite number is heard", i);
        check(!isnan(audios[i]) || isnan(out[0]), "NaN as NaN", i);
        check(silent(&u) == (effect == ROOM_TREMOLO), "after it a vibrato is not silent, a tremolo always", i);
    }
}

/* The smallest sound is no zero. (A tape delay's host may make one of it: tape.c.) */
static void smallest_audio(int effect, double audio)
{
    struct unit u = unit_at(effect, 8000.0, 0.0625);
    struct effect_call c = plain_tick(&u);
    double out[3];
    uint32_t age = JUNK_AGE;
    c.ports[0] = room_set(audio);
    check(silent(&u) == 1 && effect_make(&u.state, &c, out, &age) == ROOM_ACCEPTED, "the smallest sound", (unsigned)effect);
    check(silent(&u) == (effect == ROOM_TREMOLO), "after it no unit that keeps sound is silent", (unsigned)effect);
}

void not_silent(void)
{
    static const unsigned places[] = {0, 1, 250, 251, 499, 500}, distances[] = {1, 2, 250, 499, 500};
    unsigned i, k;
    int effect;
    stores_return();
    for (i = 0; i < STORES; i++) {
        stores_fade(i);
    }
    for (i = 0; i < 4u; i++) {
        for (k = 2; k < 6u; k++) {
            idle_number_returns(i, k);
        }
    }
    for (i = 0; i < COUNT(places); i++) {
        for (k = 0; k < COUNT(distances); k++) {
            place_returns(places[i], distances[k]);
        }
    }
    no_input_rule(ROOM_VIBRATO);
    no_input_rule(ROOM_TREMOLO);
    for (effect = ROOM_DELAY; effect < ROOM_TAPE_DELAY; effect++) {
        smallest_audio(effect, 0x1p-1074);
        smallest_audio(effect, -0x1p-1074);
    }
}
