/* The delay: its clearings and its question. delay_refusals.c has the state test and the refusals, delay_ticks.c the accepted
   ticks. */
#include "delay.h"

const struct length delay_lengths[DELAY_LENGTHS] = {
    {8000.0, 501}, {44100.0, 2757}, {192000.0, 12001}, {11025.0, 690}, {48000.0, 3001}};

struct tick_of_delay delay_tick(double audio, double mix, double milliseconds)
{
    struct tick_of_delay t;
    t.audio = room_set(audio);
    t.time = room_set(0.25);
    t.feedback = room_set(0.0);
    t.mix = room_set(mix);
    t.milliseconds = milliseconds;
    return t;
}

struct tick_of_delay linear_tick(double audio, double mix, double seconds)
{
    struct tick_of_delay t = delay_tick(audio, mix, (double)NAN);
    t.time = room_set(seconds);
    return t;
}

uint32_t ticked(room_delay *state, uint64_t places, const struct tick_of_delay *t, double out[1], uint32_t *age)
{
    return room_delay_tick(state, memory, places, t->audio, t->time, t->feedback, t->mix, t->milliseconds, out, age);
}

/* States */

room_delay fresh(void)
{
    const room_delay state = {0, 0, 0.0, 8000.0, 0.5, MAXIMUM, 0, 0};
    return state;
}

room_delay unprimed_at(uint32_t write_pos)
{
    room_delay state = fresh();
    state.write_pos = write_pos;
    state.nonzero_places = 7;
    return state;
}

room_delay primed_at(uint32_t write_pos, double distance)
{
    room_delay state = unprimed_at(write_pos);
    state.smoothed_delay = distance;
    state.delay_primed = 1;
    return state;
}

room_delay linear_of(room_delay state)
{
    state.linear_time = 1;
    return state;
}

room_delay counting_of(room_delay state, uint32_t count)
{
    state.nonzero_places = count;
    return state;
}

static room_delay junk_delay(void)
{
    const room_delay state = {12345u, 12345u, JUNK, JUNK, JUNK, JUNK, 12345u, 12345u};
    return state;
}

int delay_is(const room_delay *is, room_delay should)
{
    return is->write_pos == should.write_pos && is->nonzero_places == should.nonzero_places &&
           same(is->smoothed_delay, should.smoothed_delay) && is->delay_primed == should.delay_primed &&
           same(is->sample_rate, should.sample_rate) && same(is->delay_smooth_coef, should.delay_smooth_coef) &&
           same(is->max_delay_secs, should.max_delay_secs) && is->linear_time == should.linear_time;
}

/* Start */

static void start_accepted(double rate, double maximum, double coefficient, uint32_t linear, unsigned places, unsigned i)
{
    room_delay state = junk_delay();
    room_delay should = fresh();
    should.sample_rate = rate;
    should.max_delay_secs = maximum;
    should.delay_smooth_coef = coefficient;
    should.linear_time = linear != 0u;
    fill();
    check(room_delay_start(&state, memory, places, rate, maximum, coefficient, linear) == 0, "start is accepted", i);
    check(delay_is(&state, should), "start leaves a state that is not primed, with its settings", i);
    check(cleared(places), "start puts +0 into every place that it is lent, and into no other", i);
}

static void start_refused(double rate, double maximum, double coefficient, unsigned places, uint32_t number, const char *what,
                          unsigned i)
{
    const room_delay blank = {0, 0, 0.0, 0.0, 0.0, 0.0, 0, 0};
    room_delay state = junk_delay();
    fill();
    check(room_delay_start(&state, memory, places, rate, maximum, coefficient, 1u) == number, what, i);
    check(delay_is(&state, blank), "a refused start writes a state of zeros", i);
    check(memory_kept(), "a refused start leaves the memory", i);
}

static void starts(void)
{
    const struct numbers rates = rates_accepted();
    const struct numbers good = coefficients_accepted();
    const struct numbers wrong = coefficients_refused();
    const struct numbers wrong_rates = rates_refused();
    const double nan_ = (double)NAN;
    unsigned i;
    for (i = 0; i < DELAY_LENGTHS; i++) {
        const double rate = delay_lengths[i].rate;
        const unsigned places = delay_lengths[i].length;
        start_accepted(rate, MAXIMUM, 0.5, 0u, places, i);
        start_accepted(rate, MAXIMUM, 0.5, 1u, places + 17u, 100u + i);
        start_refused(rate, MAXIMUM, 0.5, places - 1u, 3, "start wants its places", i);
        start_refused(rate, MAXIMUM, 0.5, 0, 3, "start wants places", i);
        start_accepted(8000.0, MAXIMUM, 0.5, flags_on[i], LENGTH, 200u + i);
    }
    for (i = 0; i < rates.count; i++) {
        start_accepted(rates.list[i], MAXIMUM, 0.5, 0u, ROOM, 300u + i);
    }
    for (i = 0; i < good.count; i++) {
        start_accepted(8000.0, MAXIMUM, good.list[i], 1u, ROOM, 400u + i);
    }
    for (i = 0; i < wrong.count; i++) {
        start_refused(8000.0, MAXIMUM, wrong.list[i], ROOM, 2, "the coefficient is refused with 2", i);
        start_refused(8000.0, nan_, wrong.list[i], 0, 2, "start: 2 before 3", i);
    }
    for (i = 0; i < wrong_rates.count; i++) {
        start_refused(wrong_rates.list[i], MAXIMUM, 0.5, ROOM, 1, "the rate is refused with 1", i);
        start_refused(wrong_rates.list[i], MAXIMUM, nan_, ROOM, 1, "start: 1 before 2", i);
        start_refused(wrong_rates.list[i], nan_, 0.5, 0, 1, "start: 1 before 3", i);
        start_refused(wrong_rates.list[i], nan_, 1.0, 0, 1, "start: 1 before 2 and 3", i);
    }
}

/* As many places as 60 s take at 8,000, and one more. */
static double wide[480002];

/* A start at this rate holds this maximum, and then needs so many places. */
static void held(double rate, double maximum, double should, unsigned places, unsigned i)
{
    room_delay state = junk_delay();
    wide[0] = wide[places - 1u] = wide[places] = JUNK;
    check(room_delay_start(&state, wide, places - 1u, rate, maximum, 0.5, 0u) == 3, "a held maximum: one place short", i);
    check(same(wide[0], JUNK) && same(wide[places - 1u], JUNK), "a held maximum: nothing is cleared", i);
    check(room_delay_start(&state, wide, places, rate, maximum, 0.5, 0u) == 0, "a held maximum: enough places", i);
    check(same(state.max_delay_secs, should), "the maximum that is held", i);
    check(same(wide[0], 0.0) && same(wide[places - 1u], 0.0) && same(wide[places], JUNK), "a held maximum: cleared", i);
}

static void maxima(void)
{
    const double infinity = (double)INFINITY;
    const double low[] = {0.001, nearer(0.001), SMALLEST, 0.0, -0.0, -SMALLEST, -1.0, -DBL_MAX};
    const double high[] = {60.0, farther(60.0), 61.0, 1e308, DBL_MAX};
    const double none[] = {infinity, -infinity, (double)NAN, ODD_NAN, 2.0};
    unsigned i;
    for (i = 0; i < COUNT(low); i++) {
        held(8000.0, low[i], 0.001, 9u, i);
    }
    for (i = 0; i < COUNT(high); i++) {
        held(8000.0, high[i], 60.0, 480001u, 100u + i);
    }
    for (i = 0; i < COUNT(none); i++) {
        held(44100.0, none[i], 2.0, 88201u, 200u + i);
    }
    held(8000.0, farther(0.001), farther(0.001), 9u, 300u);
    held(8000.0, nearer(60.0), nearer(60.0), 480000u, 301u);
    /* rate x maximum: by maximum x 1000 x rate / 1000 it would be one more. */
    held(10260.0, 0.35, 0.35, 3591u, 302u);
}

/* Retune and reset */

static void retune_accepted(room_delay state, unsigned places, double rate, double coefficient, unsigned i)
{
    room_delay should = fresh();
    should.sample_rate = rate;
    should.delay_smooth_coef = coefficient;
    should.max_delay_secs = state.max_delay_secs;
    should.linear_time = state.linear_time;
    fill();
    check(room_delay_retune(&state, memory, places, rate, coefficient) == 0, "retune is accepted", i);
    check(delay_is(&state, should), "retune leaves a state that is not primed, the new rate and coefficient", i);
    check(cleared(places), "retune puts +0 into every place that it is lent, and into no other", i);
}

static void retunes(void)
{
    const struct numbers good = coefficients_accepted();
    const struct numbers wrong = coefficients_refused();
    const struct numbers wrong_rates = rates_refused();
    const room_delay state = linear_of(primed_at(LENGTH - 1u, 250.0));
    const double nan_ = (double)NAN;
    room_delay high = primed_at(6u, 12000.0);
    unsigned i;
    high.sample_rate = 192000.0;
    for (i = 0; i < DELAY_LENGTHS; i++) {
        const double rate = delay_lengths[i].rate;
        const unsigned places = delay_lengths[i].length;
        retune_accepted(state, places, rate, 0.25, i);
        retune_accepted(unprimed_at(7u), ROOM, rate, 0.25, 100u + i);
        /* It is the new rate's places that count: those of the state's own rate are more. */
        retune_accepted(high, places, rate, 0.5, 200u + i);
        delay_retune_refused(state, places - 1u, rate, 0.25, 3, "retune wants the places of the new rate", i);
        delay_retune_refused(state, 0, rate, 0.25, 3, "retune wants places", i);
    }
    for (i = 0; i < good.count; i++) {
        retune_accepted(state, ROOM, 8000.0, good.list[i], 300u + i);
    }
    for (i = 0; i < wrong.count; i++) {
        delay_retune_refused(state, ROOM, 8000.0, wrong.list[i], 2, "the new coefficient is refused with 2", i);
        delay_retune_refused(state, 0, 8000.0, wrong.list[i], 2, "retune: 2 before 3", i);
    }
    for (i = 0; i < wrong_rates.count; i++) {
        delay_retune_refused(state, ROOM, wrong_rates.list[i], 0.5, 1, "the new rate is refused with 1", i);
        delay_retune_refused(state, ROOM, wrong_rates.list[i], nan_, 1, "retune: 1 before 2", i);
        delay_retune_refused(state, 0, wrong_rates.list[i], 0.5, 1, "retune: 1 before 3", i);
        delay_retune_refused(state, 0, wrong_rates.list[i], 1.0, 1, "retune: 1 before 2 and 3", i);
    }
}

static void resets(void)
{
    const room_delay states[] = {fresh(), unprimed_at(LENGTH - 1u), primed_at(0, 1.0), linear_of(primed_at(9u, LENGTH - 1u))};
    const unsigned lent[] = {LENGTH, LENGTH + 1u, ROOM, LENGTH};
    unsigned i;
    for (i = 0; i < COUNT(states); i++) {
        room_delay state = states[i];
        room_delay should = fresh();
        should.linear_time = state.linear_time;
        fill();
        check(room_delay_reset(&state, memory, lent[i]) == 0, "reset is accepted", i);
        check(delay_is(&state, should), "reset leaves what start left", i);
        check(cleared(lent[i]), "reset puts +0 into every place that it is lent, and into no other", i);
        delay_reset_refused(states[i], LENGTH - 1u, 3, "reset wants its places", i);
        delay_reset_refused(states[i], 0, 3, "reset wants places", i);
    }
}

/* Silent */

/* The answer is the count's: no memory is handed over. */
static void silent_is(room_delay state, int yes, const char *what, unsigned i)
{
    int silent = 7;
    check(room_delay_silent(&state, &silent) == 0 && silent == yes, what, i);
}

static void questions(void)
{
    const uint32_t sounds[] = {1, 2, 256, LENGTH - 1u, LENGTH};
    const room_delay states[] = {fresh(), unprimed_at(LENGTH - 1u), primed_at(5u, 250.0), linear_of(primed_at(0, 1.0))};
    unsigned i, k;
    for (i = 0; i < COUNT(states); i++) {
        silent_is(counting_of(states[i], 0u), 1, "a count of 0 is silent", i);
        for (k = 0; k < COUNT(sounds); k++) {
            silent_is(counting_of(states[i], sounds[k]), 0, "any other sounds", 10u * i + k);
        }
    }
}

void delay(void)
{
    starts();
    maxima();
    retunes();
    resets();
    questions();
    delay_refusals();
    delay_ticks();
}
