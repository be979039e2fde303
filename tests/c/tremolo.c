/* The tremolo. */
#include "calls.h"

static room_tremolo state_of(double lfo_phase, double sample_rate)
{
    room_tremolo state;
    state.lfo_phase = lfo_phase;
    state.sample_rate = sample_rate;
    return state;
}

static int state_is(const room_tremolo *state, double lfo_phase, double sample_rate)
{
    return same(state->lfo_phase, lfo_phase) && same(state->sample_rate, sample_rate);
}

/* Start */

static void start_accepted(void)
{
    const struct numbers rates = rates_accepted();
    unsigned i;
    for (i = 0; i < rates.count; i++) {
        room_tremolo state = state_of(JUNK, JUNK);
        check(room_tremolo_start(&state, rates.list[i]) == 0, "start is accepted", i);
        check(state_is(&state, 0.0, rates.list[i]), "start leaves phase +0 and the rate", i);
    }
}

static void start_refused(void)
{
    const struct numbers rates = rates_refused();
    unsigned i;
    for (i = 0; i < rates.count; i++) {
        room_tremolo state = state_of(JUNK, JUNK);
        double out[1] = {JUNK};
        int silent = 7;
        check(room_tremolo_start(&state, rates.list[i]) == 1, "start is refused with 1", i);
        check(state_is(&state, 0.0, 0.0), "a refused start writes a state of zeros", i);
        check(room_tremolo_tick(&state, room_set(1.0), room_unset(), room_unset(), 1.0, 0.0, out) == 4,
              "tick refuses the state of a refused start", i);
        check(same(out[0], 0.0), "and plays +0", i);
        check(room_tremolo_reset(&state) == 4, "reset refuses the state of a refused start", i);
        check(room_tremolo_silent(&state, &silent) == 4 && silent == 0, "silent refuses the state of a refused start", i);
        check(state_is(&state, 0.0, 0.0), "and the state stays as it is", i);
    }
}

/* Reset, silent and tick by state */

static void states_accepted(void)
{
    const struct numbers phases = phases_accepted();
    unsigned i;
    for (i = 0; i < phases.count; i++) {
        room_tremolo state = state_of(phases.list[i], 44100.0);
        double out[1] = {JUNK};
        int silent = 7;
        check(room_tremolo_silent(&state, &silent) == 0 && silent == 1, "the tremolo is silent", i);
        check(state_is(&state, phases.list[i], 44100.0), "silent changes nothing", i);
        check(room_tremolo_tick(&state, room_unset(), room_unset(), room_unset(), 0.0, 0.0, out) == 0,
              "tick accepts the state", i);
        check(same(out[0], 0.0), "unset audio is +0", i);
        state = state_of(phases.list[i], 44100.0);
        check(room_tremolo_reset(&state) == 0, "reset accepts the state", i);
        check(state_is(&state, 0.0, 44100.0), "reset leaves phase +0 and the rate", i);
    }
}

static void state_refused(double lfo_phase, double sample_rate, unsigned i)
{
    room_tremolo state = state_of(lfo_phase, sample_rate);
    double out[1] = {JUNK};
    int silent = 7;
    check(room_tremolo_reset(&state) == 4, "reset is refused with 4", i);
    check(state_is(&state, lfo_phase, sample_rate), "a refused reset changes nothing", i);
    check(room_tremolo_silent(&state, &silent) == 4 && silent == 0, "silent is refused with 4 and answers 0", i);
    check(state_is(&state, lfo_phase, sample_rate), "a refused silent changes nothing", i);
    check(room_tremolo_tick(&state, room_set(4.0), room_set(1.0), room_set(0.0), 1.0, 0.0, out) == 4,
          "tick is refused with 4", i);
    check(state_is(&state, lfo_phase, sample_rate) && same(out[0], 0.0), "a refused tick changes nothing and plays +0", i);
}

static void states_refused(void)
{
    const struct numbers phases = phases_refused();
    const struct numbers rates = rates_refused();
    unsigned i;
    for (i = 0; i < phases.count; i++) {
        state_refused(phases.list[i], 44100.0, i);
    }
    for (i = 0; i < rates.count; i++) {
        state_refused(0.25, rates.list[i], 100u + i);
        state_refused(1.0, rates.list[i], 200u + i);
    }
}

/* Ticks: what one gets, the number it must return and, if that is 0, the sample. */

struct tick {
    room_port audio, depth, shape;
    double frequency, sine;
    uint32_t number;
    double sample;
};

/* A tick with every port set. */
static struct tick tick_of(double audio, double depth, double shape, double frequency, double sine)
{
    struct tick t;
    t.audio = room_set(audio);
    t.depth = room_set(depth);
    t.shape = room_set(shape);
    t.frequency = frequency;
    t.sine = sine;
    t.number = 0;
    t.sample = 0.0;
    return t;
}

static struct tick gives(struct tick t, double sample)
{
    t.sample = sample;
    return t;
}

static struct tick refused(struct tick t, uint32_t number)
{
    t.number = number;
    return t;
}

/* Runs the tick from this phase at 8,000. */
static void run(struct tick t, double phase, double next_phase, const char *what, unsigned i)
{
    room_tremolo state = state_of(phase, 8000.0);
    double out[1] = {JUNK};
    const uint32_t number = room_tremolo_tick(&state, t.audio, t.depth, t.shape, t.frequency, t.sine, out);
    check(number == t.number, what, i);
    check(plays(out[0], t.number == 0 ? t.sample : 0.0), what, i);
    check(state_is(&state, t.number == 0 ? next_phase : phase, 8000.0), what, i);
}

static void bench_case(void)
{
    run(gives(tick_of(4.0, 1.0, 0.0, 0.0, 0.0), 2.0), 0.0, 0.0, "bench case, shape 0", 0);
    run(gives(tick_of(4.0, 1.0, 1.0, 0.0, 0.0), 0.0), 0.0, 0.0, "bench case, shape 1", 0);
}

static void phase_moves(void)
{
    const struct tick still = gives(tick_of(4.0, 0.0, 0.0, -0.0, 0.0), 4.0);
    const struct tick eighth = gives(tick_of(4.0, 0.0, 0.0, 31.25, 0.0), 4.0);
    run(still, 0.25, 0.25, "frequency -0 leaves the phase", 0);
    run(still, -0.0, -0.0, "a phase of -0 plus -0 stays -0", 1);
    run(eighth, 0.0, 0.00390625, "the phase moves on by frequency / rate", 2);
    run(eighth, 0.99609375, 0.0, "a phase that gets to 1 goes to 0", 3);
    run(eighth, 0.998046875, 0.001953125, "a phase beyond 1 loses 1", 4);
    run(gives(tick_of(4.0, 1.0, 1.0, 31.25, 0.0), 2.0), 0.25, 0.25390625, "the triangle is of the phase before", 5);
    run(gives(tick_of(4.0, 1.0, 1.0, 31.25, 0.0), 4.0), 0.5, 0.50390625, "the triangle's top is at the middle", 6);
}

static void audio_is_free(void)
{
    const double infinity = (double)INFINITY;
    run(gives(tick_of((double)NAN, 1.0, 0.0, 0.0, 0.0), (double)NAN), 0.0, 0.0, "NaN audio is accepted", 0);
    run(gives(tick_of(infinity, 1.0, 0.0, 0.0, 0.0), infinity), 0.0, 0.0, "infinite audio is accepted", 1);
    run(gives(tick_of(-infinity, 1.0, 0.0, 0.0, 0.0), -infinity), 0.0, 0.0, "infinite audio is accepted", 2);
    run(gives(tick_of(infinity, 1.0, 1.0, 0.0, 0.0), (double)NAN), 0.0, 0.0, "infinite audio times 0 is NaN", 3);
    run(gives(tick_of(-0.0, 1.0, 0.0, 0.0, 0.0), -0.0), 0.0, 0.0, "audio of -0 gives -0", 4);
    run(gives(tick_of(SMALLEST, 0.0, 0.0, 0.0, 0.0), SMALLEST), 0.0, 0.0, "subnormal audio stays", 5);
    run(gives(tick_of(DBL_MAX, 0.0, 0.0, 0.0, 0.0), DBL_MAX), 0.0, 0.0, "the largest audio stays", 6);
}

static void controls_clamped(void)
{
    const struct numbers above = at_least_one();
    const struct numbers below = at_most_zero();
    unsigned i;
    for (i = 0; i < above.count; i++) {
        run(gives(tick_of(4.0, above.list[i], 0.0, 0.0, -1.0), 0.0), 0.0, 0.0, "depth is at most 1", i);
        run(gives(tick_of(4.0, 1.0, above.list[i], 0.0, 1.0), 0.0), 0.0, 0.0, "shape is at most 1", i);
    }
    for (i = 0; i < below.count; i++) {
        run(gives(tick_of(4.0, below.list[i], 0.0, 0.0, -1.0), 4.0), 0.0, 0.0, "depth is at least 0", i);
        run(gives(tick_of(4.0, 1.0, below.list[i], 0.0, 1.0), 4.0), 0.0, 0.0, "shape is at least 0", i);
    }
}

/* An unset port takes its default, whatever number it holds. */
static void unset_ports(void)
{
    const struct numbers numbers = not_read();
    unsigned i;
    for (i = 0; i < numbers.count; i++) {
        struct tick t = gives(tick_of(4.0, 1.0, 0.0, 0.0, -1.0), 0.0);
        t.audio.set = 0;
        t.audio.value = numbers.list[i];
        run(t, 0.0, 0.0, "unset audio is +0", i);
        t = gives(tick_of(4.0, numbers.list[i], 0.0, 0.0, -1.0), 2.0);
        t.depth.set = 0;
        run(t, 0.0, 0.0, "unset depth is 0.5", i);
        t = gives(tick_of(4.0, 1.0, numbers.list[i], 0.0, 1.0), 4.0);
        t.shape.set = 0;
        run(t, 0.0, 0.0, "unset shape is 0", i);
    }
}

static void curves_accepted(void)
{
    const double frequencies[] = {0.0, -0.0, SMALLEST};
    unsigned i;
    for (i = 0; i < COUNT(frequencies); i++) {
        run(gives(tick_of(4.0, 1.0, 0.0, frequencies[i], 0.0), 2.0), 0.5, 0.5, "frequency from 0 on", i);
    }
    run(gives(tick_of(4.0, 1.0, 0.0, 32.0, 0.0), 2.0), 0.5, 0.5 + 32.0 / 8000.0, "frequency up to 32", 0);
    run(gives(tick_of(4.0, 1.0, 0.0, 0.0, -1.0), 0.0), 0.0, 0.0, "sine from -1 on", 0);
    run(gives(tick_of(4.0, 1.0, 0.0, 0.0, 1.0), 4.0), 0.0, 0.0, "sine up to 1", 0);
    run(gives(tick_of(4.0, 1.0, 0.0, 0.0, -0.0), 2.0), 0.0, 0.0, "sine of -0", 0);
}

static void controls_refused(void)
{
    run(refused(tick_of(4.0, (double)NAN, 0.0, 1.0, 0.0), 5), 0.25, 0.0, "depth of NaN is refused with 5", 0);
    run(refused(tick_of(4.0, 0.5, (double)NAN, 1.0, 0.0), 5), 0.25, 0.0, "shape of NaN is refused with 5", 1);
    run(refused(tick_of(4.0, ODD_NAN, ODD_NAN, 1.0, 0.0), 5), 0.25, 0.0, "both of NaN are refused with 5", 2);
    run(refused(tick_of((double)NAN, ODD_NAN, 0.0, 1.0, 0.0), 5), 0.25, 0.0, "NaN audio does not hide it", 3);
}

static void curves_refused(void)
{
    const struct numbers frequencies = frequencies_refused();
    const struct numbers sines = sines_refused();
    unsigned i;
    for (i = 0; i < frequencies.count; i++) {
        run(refused(tick_of(4.0, 0.5, 0.0, frequencies.list[i], 0.0), 6), 0.25, 0.0, "the frequency is refused with 6", i);
    }
    for (i = 0; i < sines.count; i++) {
        run(refused(tick_of(4.0, 0.5, 0.0, 1.0, sines.list[i]), 6), 0.25, 0.0, "the sine is refused with 6", i);
    }
}

/* Where several causes apply: 4 before 5 before 6. */
static void order(void)
{
    const double nan_ = (double)NAN;
    run(refused(tick_of(4.0, nan_, nan_, 1.0, 0.0), 4), 1.0, 0.0, "4 before 5", 0);
    run(refused(tick_of(4.0, 0.5, 0.0, 33.0, 2.0), 4), 1.0, 0.0, "4 before 6", 1);
    run(refused(tick_of(4.0, nan_, nan_, 33.0, 2.0), 4), nan_, 0.0, "4 before 5 and 6", 2);
    run(refused(tick_of(4.0, nan_, 0.0, 33.0, 0.0), 5), 0.25, 0.0, "5 before 6, by the frequency", 3);
    run(refused(tick_of(4.0, 0.5, nan_, 1.0, nan_), 5), 0.25, 0.0, "5 before 6, by the sine", 4);
}

/* The exported functions by themselves: bits of the mask beyond the three ports are not read. */
static void mask(void)
{
    double phase = 0.0;
    double out = JUNK;
    uint32_t silent = 7;
    check(room_raw_tremolo_tick(&phase, 8000.0, UINT32_C(0xffffffff), 4.0, 1.0, 0.0, 0.0, -1.0, &out) == 0, "all bits", 0);
    check(same(out, 0.0) && same(phase, 0.0), "all bits: all ports are set", 0);
    check(room_raw_tremolo_tick(&phase, 8000.0, UINT32_C(0xfffffff9), 4.0, (double)NAN, (double)NAN, 0.0, -1.0, &out) == 0,
          "audio and the other bits", 0);
    check(same(out, 2.0) && same(phase, 0.0), "audio and the other bits: controls are unset", 0);
    check(room_raw_tremolo_silent(0.0, 8000.0, &silent) == 0 && silent == 1u, "silent is 1", 0);
    check(room_raw_tremolo_silent(1.0, 8000.0, &silent) == 4 && silent == 0u, "silent is 0 on a refusal", 0);
}

void tremolo(void)
{
    start_accepted();
    start_refused();
    states_accepted();
    states_refused();
    bench_case();
    phase_moves();
    audio_is_free();
    controls_clamped();
    unset_ports();
    curves_accepted();
    controls_refused();
    curves_refused();
    order();
    mask();
}
