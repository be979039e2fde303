/* The tape delay, whose tick is two halves: units of it, and those that are not silent. */
#include "lamp.h"

#define RATE 8000.0
#define LENGTH 96001u

/* How many ticks before it comes to write the place that sounds a unit is handed in. */
#define AHEAD 376u

int waits(const struct unit *u)
{
    return u->effect == ROOM_TAPE_DELAY && u->state.tape_delay.waiting != 0u;
}

static double any_zero(void)
{
    return one_in(2) ? -0.0 : 0.0;
}

/* A state of zeros that passes the state test, in which a read may wait. */
void hand_tape(const struct unit *u, room_tape_delay *s, uint32_t position)
{
    const double last = (double)(needed(u, u->rate) - 1u);
    const uint32_t any_flag = 1u + (uint32_t)below(UINT32_MAX);
    const double mixes[] = {0.0, -0.0, 1.0, 0x1p-1074, from_to(0.0, 1.0)};
    s->write_pos = position;
    s->delay_primed = one_in(3) ? 0u : one_in(2) ? 1u : any_flag;
    s->smoothed_delay = s->delay_primed == 0u ? 0.0 : one_in(4) ? 1.0 : one_in(3) ? last : from_to(1.0, last);
    s->sample_rate = u->rate;
    s->delay_smooth_coef = u->coefficient;
    s->waiting = one_in(2) ? 0u : one_in(2) ? 1u : any_flag;
    s->kept_audio = s->kept_read = s->kept_mix = 0.0;
    if (s->waiting != 0u) {
        s->kept_audio = any_zero();
        s->kept_read = any_zero();
        s->kept_mix = mixes[below(COUNT(mixes))];
    }
}

static struct effect_call store_of(const struct unit *u, double value)
{
    struct effect_call c = call_of(u, STORE);
    c.curves[0] = value;
    return c;
}

uint32_t whole_tick(struct unit *u, const struct effect_call *c, double out[3], uint32_t *age)
{
    uint32_t number = effect_make(&u->state, c, out, age);
    if (u->effect == ROOM_TAPE_DELAY && number == ROOM_ACCEPTED) {
        const struct effect_call half = store_of(u, saturated(out[0]));
        number = effect_make(&u->state, &half, out, age);
    }
    return number;
}

/* What an accepted call of a unit answers. */
static double answer(struct unit *u, const struct effect_call *c)
{
    double out[3] = {JUNK, JUNK, JUNK};
    uint32_t age = JUNK_AGE;
    check(effect_make(&u->state, c, out, &age) == ROOM_ACCEPTED, "a half is accepted", (unsigned)c->call);
    return out[0];
}

/* A unit just started, whose read waits, of this audio. */
static struct unit in_a_tick(double audio, double *sum)
{
    struct unit u = unit_at(ROOM_TAPE_DELAY, RATE, 0.0);
    struct effect_call c = plain_tick(&u);
    c.ports[0] = room_set(audio);
    *sum = answer(&u, &c);
    return u;
}

static double store(struct unit *u, double value)
{
    const struct effect_call c = store_of(u, value);
    return answer(u, &c);
}

/* A line of zeros and a read of zeros: nothing but the waiting makes the answer no. */
static void waiting_is_not_silent(void)
{
    const double audios[] = {0.0, -0.0, (double)NAN, ODD_NAN, (double)INFINITY, -(double)INFINITY};
    unsigned i;
    for (i = 0; i < COUNT(audios); i++) {
        double sum;
        struct unit u = in_a_tick(audios[i], &sum);
        check(is_zero(sum) && holds_zeros(&u) && silent(&u) == 0, "a tape is not silent while a read of zeros waits", i);
        check(same(saturated(sum), sum), "the formula makes a zero of a zero", i);
        check(is_zero(store(&u, saturated(sum))) && silent(&u) == 1, "its store half answers one, and the tape is silent", i);
    }
}

/* What a read that waits keeps is heard once, from a line of zeros. */
static void kept_is_heard(void)
{
    unsigned i;
    for (i = 0; i < 2u; i++) {
        double sum;
        struct unit u = in_a_tick(0.0, &sum);
        *(i == 0u ? &u.state.tape_delay.kept_audio : &u.state.tape_delay.kept_read) = 0.5;
        check(silent(&u) == 0, "a tape is not silent that keeps a sound", i);
        check(same(store(&u, 0.0), 0.25) && silent(&u) == 1, "its store half plays that, and then it is silent", i);
    }
}

/* Any other value than a zero is a sound, five times as loud. */
static void no_zero_handed(void)
{
    const double values[] = {0x1p-1074, -0x1p-1074, 0x1p-1022, 1.0, -1.0};
    unsigned i;
    for (i = 0; i < COUNT(values); i++) {
        double sum;
        struct unit u = in_a_tick(0.0, &sum);
        check(is_zero(store(&u, values[i])), "a store half that is handed a sound", i);
        check(same(u.lent[0], values[i] * 5.0) && silent(&u) == 0, "after it the tape is not silent", i);
    }
}

/* The formula makes a zero of the smallest sounds, and 2^-1074 of three times as much: a fifth of that is 0.6 x 2^-1074. */
static void smallest_audio(void)
{
    unsigned i;
    for (i = 1; i <= 6u; i++) {
        const double audio = (i % 2u == 0u ? -0x1p-1074 : 0x1p-1074) * i;
        struct unit u = unit_at(ROOM_TAPE_DELAY, RATE, 0.0);
        struct effect_call c = plain_tick(&u);
        double out[3];
        uint32_t age = JUNK_AGE;
        c.ports[0] = room_set(audio);
        check(whole_tick(&u, &c, out, &age) == ROOM_ACCEPTED, "the smallest sounds through a tape", i);
        check(silent(&u) == (i < 3u), "after it a tape is silent where the formula made a zero of it", i);
    }
}

/* A place that sounds is heard where the tick comes to read it before it comes to write it. */
static void place_returns(unsigned place, unsigned distance)
{
    const unsigned number = distance + place;
    const unsigned first = AHEAD + distance < LENGTH ? NEVER : AHEAD + distance - LENGTH;
    struct unit u = unit_at(ROOM_TAPE_DELAY, RATE, 0.0);
    struct effect_call c = plain_tick(&u);
    double out[3];
    c.ports[1] = room_set(distance / RATE);
    put_place(&u, place, 1.0);
    u.state.tape_delay.write_pos = (place + LENGTH - AHEAD) % LENGTH;
    check(u.places == LENGTH && silent(&u) == 0, "a tape is not silent with one place that sounds", number);
    check(first_sound(&u, &c, AHEAD + 1u, out) == first, "it sounds when that is read", number);
    check(first_sound(&u, &c, AHEAD + 1u, out) == NEVER && silent(&u) == 1, "and then no more, as it is written over", number);
}

void tape_not_silent(void)
{
    static const unsigned places[] = {0, 1, 375, 376, 48000, 95999, 96000}, distances[] = {1, 2, 48000, 95500, 95625, 96000};
    unsigned i, k;
    waiting_is_not_silent();
    kept_is_heard();
    no_zero_handed();
    smallest_audio();
    for (i = 0; i < COUNT(places); i++) {
        for (k = 0; k < COUNT(distances); k++) {
            place_returns(places[i], distances[k]);
        }
    }
}
