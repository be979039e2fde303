/* The refused calls of the delay, their order, and the state test; a refused call leaves everything as it was. */
#include "delay.h"

/* A tick with nothing wrong in it, and one with every control and the curve number wrong. */
static struct tick_of_delay good_tick(void)
{
    return delay_tick(4.0, 0.5, 2.0);
}

static struct tick_of_delay wrong_tick(void)
{
    struct tick_of_delay t = delay_tick(4.0, ODD_NAN, (double)NAN);
    t.time = room_set((double)NAN);
    t.feedback = room_set(ODD_NAN);
    return t;
}

static struct numbers maxima_refused(void)
{
    const double infinity = (double)INFINITY;
    const struct numbers n = {11, {0.0, -0.0, SMALLEST, nearer(0.001), -MAXIMUM, farther(60.0), DBL_MAX, infinity, -infinity,
                                   (double)NAN, ODD_NAN}};
    return n;
}

/* Distances that a primed state of LENGTH places can't have, and those that an unprimed one can't. */
static struct numbers primed_refused(void)
{
    const double infinity = (double)INFINITY;
    const struct numbers n = {12, {0.0, -0.0, SMALLEST, nearer(1.0), -1.0, LENGTH, farther(LENGTH - 1u), DBL_MAX, infinity,
                                   -infinity, (double)NAN, ODD_NAN}};
    return n;
}

static struct numbers unprimed_refused(void)
{
    const struct numbers n = {9, {-0.0, SMALLEST, -SMALLEST, 1.0, 250.0, LENGTH - 1u, (double)INFINITY, (double)NAN,
                                  ODD_NAN}};
    return n;
}

/* Refusals: each number, and everything left as it was. */

void delay_retune_refused(room_delay before, uint64_t places, double rate, double coefficient, uint32_t number,
                          const char *what, unsigned i)
{
    room_delay state = before;
    fill();
    check(room_delay_retune(&state, memory, places, rate, coefficient) == number, what, i);
    check(delay_is(&state, before) && memory_kept(), what, i);
}

void delay_reset_refused(room_delay before, uint64_t places, uint32_t number, const char *what, unsigned i)
{
    room_delay state = before;
    fill();
    check(room_delay_reset(&state, memory, places) == number, what, i);
    check(delay_is(&state, before) && memory_kept(), what, i);
}

static void silent_refused(room_delay before, uint32_t number, const char *what, unsigned i)
{
    room_delay state = before;
    int silent = 7;
    check(room_delay_silent(&state, &silent) == number && silent == 0, what, i);
    check(delay_is(&state, before), what, i);
}

static void tick_refused(room_delay before, uint64_t places, struct tick_of_delay t, uint32_t number, const char *what,
                         unsigned i)
{
    room_delay state = before;
    double out[1] = {JUNK};
    uint32_t age = JUNK_AGE;
    fill();
    check(ticked(&state, places, &t, out, &age) == number, what, i);
    check(delay_is(&state, before) && memory_kept(), what, i);
    check(same(out[0], 0.0) && age == 0u, "a refused tick plays +0 and answers the age 0", i);
}

/* The state test */

/* All calls but start refuse this state with 4, in either mode, whatever else there is to refuse. */
static void state_refused(room_delay state, unsigned i)
{
    const double nan_ = (double)NAN;
    delay_reset_refused(state, ROOM, 4, "reset is refused with 4", i);
    delay_reset_refused(state, 0, 4, "reset: 4 before 3", i);
    silent_refused(state, 4, "silent is refused with 4", i);
    delay_retune_refused(state, ROOM, 44100.0, 0.5, 4, "retune is refused with 4", i);
    delay_retune_refused(state, ROOM, 0.0, 0.5, 4, "retune: 4 before 1", i);
    delay_retune_refused(state, ROOM, 44100.0, 1.0, 4, "retune: 4 before 2", i);
    delay_retune_refused(state, 0, 44100.0, 0.5, 4, "retune: 4 before 3", i);
    delay_retune_refused(state, 0, nan_, nan_, 4, "retune: 4 before 1, 2 and 3", i);
    tick_refused(state, ROOM, good_tick(), 4, "tick is refused with 4", i);
    tick_refused(linear_of(state), ROOM, good_tick(), 4, "tick is refused with 4 in linear mode", i);
    tick_refused(state, 0, good_tick(), 4, "tick: 4 before 3", i);
    tick_refused(state, ROOM, wrong_tick(), 4, "tick: 4 before 5 and 6", i);
    tick_refused(state, 0, wrong_tick(), 4, "tick: 4 before 3, 5 and 6", i);
}

static void positions_refused(void)
{
    const uint32_t positions[] = {LENGTH, LENGTH + 1u, 2u * LENGTH, UINT32_C(1) << 31, UINT32_MAX};
    unsigned i;
    for (i = 0; i < COUNT(positions); i++) {
        state_refused(unprimed_at(positions[i]), i);
        state_refused(primed_at(positions[i], 250.0), 10u + i);
    }
}

static void settings_refused(void)
{
    const struct numbers rates = rates_refused();
    const struct numbers coefficients = coefficients_refused();
    const struct numbers wrong_maxima = maxima_refused();
    room_delay state;
    unsigned i;
    for (i = 0; i < rates.count; i++) {
        state = fresh();
        state.sample_rate = rates.list[i];
        state_refused(state, 100u + i);
    }
    for (i = 0; i < coefficients.count; i++) {
        state = primed_at(3u, 250.0);
        state.delay_smooth_coef = coefficients.list[i];
        state_refused(state, 200u + i);
    }
    for (i = 0; i < wrong_maxima.count; i++) {
        state = fresh();
        state.max_delay_secs = wrong_maxima.list[i];
        state_refused(state, 300u + i);
    }
}

static void distances_refused(void)
{
    const struct numbers primed = primed_refused();
    const struct numbers unprimed = unprimed_refused();
    room_delay state;
    unsigned i;
    for (i = 0; i < primed.count; i++) {
        state = primed_at(3u, primed.list[i]);
        state.delay_primed = flags_on[i % FLAGS_ON];
        state_refused(state, 400u + i);
    }
    for (i = 0; i < unprimed.count; i++) {
        state = unprimed_at(3u);
        state.smoothed_delay = unprimed.list[i];
        state_refused(state, 500u + i);
    }
}

/* More than the places in use, which go by rate and maximum. */
static void counts_refused(void)
{
    const uint32_t above[] = {LENGTH + 1u, LENGTH + 2u, 2u * LENGTH, UINT32_C(1) << 31, UINT32_MAX};
    room_delay shortest = unprimed_at(8u);
    unsigned i;
    for (i = 0; i < COUNT(above); i++) {
        state_refused(counting_of(unprimed_at(3u), above[i]), 600u + i);
        state_refused(counting_of(linear_of(primed_at(3u, 250.0)), above[i]), 610u + i);
    }
    shortest.max_delay_secs = 0.001;
    state_refused(counting_of(shortest, 10u), 620u);
    for (i = 0; i < DELAY_LENGTHS; i++) {
        room_delay state = primed_at(3u, 250.0);
        state.sample_rate = delay_lengths[i].rate;
        state_refused(counting_of(state, delay_lengths[i].length + 1u), 630u + i);
    }
}

static void states_refused(void)
{
    const room_delay blank = {0, 0, 0.0, 0.0, 0.0, 0.0, 0, 0};
    state_refused(blank, 0);
    positions_refused();
    settings_refused();
    distances_refused();
    counts_refused();
}

/* What the test lets pass: each call accepts it. */
static void state_accepted(room_delay state, unsigned i)
{
    const struct tick_of_delay t = good_tick();
    room_delay given = state;
    double out[1];
    uint32_t age;
    int silent = 7;
    fill();
    check(room_delay_silent(&given, &silent) == 0 && silent == (state.nonzero_places == 0u), "silent accepts the state", i);
    check(ticked(&given, ROOM, &t, out, &age) == 0, "tick accepts the state", i);
    given = state;
    check(room_delay_reset(&given, memory, ROOM) == 0, "reset accepts the state", i);
    given = state;
    check(room_delay_retune(&given, memory, ROOM, 8000.0, 0.5) == 0, "retune accepts the state", i);
}

static void states_accepted(void)
{
    const double distances[] = {1.0, farther(1.0), 250.5, nearer(LENGTH - 1u), LENGTH - 1u};
    const struct numbers coefficients = coefficients_accepted();
    room_delay state;
    unsigned i;
    for (i = 0; i < COUNT(distances); i++) {
        state = primed_at(LENGTH - 1u, distances[i]);
        state.delay_primed = flags_on[i];
        state_accepted(state, i);
    }
    for (i = 0; i < coefficients.count; i++) {
        state = primed_at(0, 250.0);
        state.delay_smooth_coef = coefficients.list[i];
        state_accepted(state, 100u + i);
    }
    state_accepted(unprimed_at(0), 200u);
    state_accepted(unprimed_at(LENGTH - 1u), 201u);
    state = unprimed_at(8u);
    state.max_delay_secs = 0.001;
    state_accepted(state, 202u);
    state_accepted(counting_of(state, 9u), 203u);
    for (i = 0; i < DELAY_LENGTHS; i++) {
        state = primed_at(3u, 250.0);
        state.sample_rate = delay_lengths[i].rate;
        state_accepted(counting_of(state, delay_lengths[i].length), 300u + i);
        state_accepted(counting_of(state, 0u), 310u + i);
    }
}

/* Refused ticks, by what each mode reads */

static void ticks_refused(void)
{
    const double nan_ = (double)NAN;
    const room_delay states[] = {unprimed_at(7u), primed_at(7u, 250.0)};
    struct tick_of_delay t;
    unsigned i;
    for (i = 0; i < COUNT(states); i++) {
        const room_delay state = states[i];
        const room_delay linear = linear_of(state);
        tick_refused(state, LENGTH - 1u, good_tick(), 3, "tick wants its places", i);
        tick_refused(state, 0, good_tick(), 3, "tick wants places", i);
        tick_refused(state, LENGTH - 1u, wrong_tick(), 3, "3 before 5 and 6", i);
        tick_refused(state, 0, delay_tick(4.0, 0.5, nan_), 3, "3 before 6", i);
        tick_refused(linear, LENGTH - 1u, linear_tick(4.0, 0.5, nan_), 3, "3 before 5", i);
        tick_refused(state, ROOM, delay_tick(4.0, ODD_NAN, 2.0), 5, "mix of NaN is refused with 5", i);
        tick_refused(linear, ROOM, linear_tick(4.0, ODD_NAN, 0.01), 5, "mix of NaN is refused with 5 in linear mode", i);
        tick_refused(linear, ROOM, linear_tick(4.0, 0.5, ODD_NAN), 5, "time of NaN is refused with 5 in linear mode", i);
        tick_refused(state, ROOM, delay_tick(nan_, nan_, 2.0), 5, "NaN audio does not hide it", i);
        tick_refused(state, ROOM, delay_tick(4.0, nan_, nan_), 5, "5 before 6, by the mix", i);
        tick_refused(state, ROOM, wrong_tick(), 5, "5 before 6", i);
        t = good_tick();
        t.feedback = room_set(ODD_NAN);
        tick_refused(state, ROOM, t, 5, "feedback of NaN is refused with 5", i);
        tick_refused(linear, ROOM, t, 5, "feedback of NaN is refused with 5 in linear mode", i);
        t.milliseconds = nan_;
        tick_refused(state, ROOM, t, 5, "5 before 6, by the feedback", i);
        tick_refused(state, ROOM, delay_tick(4.0, 0.5, nan_), 6, "milliseconds of NaN are refused with 6", i);
        tick_refused(state, ROOM, delay_tick(4.0, 0.5, ODD_NAN), 6, "milliseconds of any NaN are refused with 6", i);
        t = delay_tick(4.0, 0.5, nan_);
        t.time = room_set(nan_);
        tick_refused(state, ROOM, t, 6, "the time that is not read is no cause", i);
    }
}

void delay_refusals(void)
{
    states_refused();
    states_accepted();
    ticks_refused();
}
