/* The vibrato. */
#include "lines.h"

ONE_PHASE_STATE(vibrato)
LINED_CALLS(vibrato)

static uint32_t tick(struct unit *unit, double *lent, uint64_t places, const struct tick *t, double out[MOST], uint32_t *age)
{
    room_vibrato state = state_of(unit);
    return put(unit, &state,
               room_vibrato_tick(&state, lent, places, t->audio, t->depth, t->mix, t->frequency, t->sines[0], out, age));
}

/* Lengths: 8,000 stands first. */
static const struct lined effect = {
    .lines = 1,
    .phases = 1,
    .sines = 1,
    .samples = 1,
    .start_phases = {0.0, 0.0, 0.0},
    .retune_keeps_phases = 0,
    .input_rule = 0,
    .feeds_back = 0,
    .lengths = {{8000.0, 170}, {44100.0, 892}, {192000.0, 3850}, {11025.0, 230}, {22050.0, 451}, {48000.0, 970}},
    .start = start,
    .retune = retune,
    .reset = reset,
    .tick = tick,
    .silent = silent,
};

/* Runs the tick from position 3 at 8,000, where a line has 170 places. */
static void run(struct tick t, double sample, const char *what, unsigned i)
{
    const double samples[MOST] = {sample, 0.0, 0.0};
    tick_plays(&effect, 3u, t, samples, what, i);
}

static void line_of(double value)
{
    unsigned i;
    for (i = 0; i < 170u; i++) {
        memory[i] = value;
    }
}

/* A line that holds `value` at this distance from position 3, and 0.5 elsewhere. */
static void line_with(unsigned distance, double value)
{
    line_of(0.5);
    memory[(3u + 170u - distance) % 170u] = value;
}

/* The distance in ms is 10 + sine x (depth x 9), so at 8,000 it is 8 times that in places. */
static void distances(void)
{
    line_with(80u, 4.0);
    run(tick_of(1.0, 0.0, 1.0, 0.0, 1.0), 4.0, "depth 0 reads 10 ms back", 0);
    line_with(8u, 4.0);
    run(tick_of(1.0, 1.0, 1.0, 0.0, -1.0), 4.0, "depth 1, sine -1 reads 1 ms back", 1);
    line_with(152u, 4.0);
    run(tick_of(1.0, 1.0, 1.0, 0.0, 1.0), 4.0, "depth 1, sine 1 reads 19 ms back", 2);
    line_with(84u, 4.0);
    run(tick_of(1.0, 0.5, 1.0, 0.0, 0.125), 2.25, "a distance of 84.5 is half of the place at 84", 3);
    line_with(85u, 4.0);
    run(tick_of(1.0, 0.5, 1.0, 0.0, 0.125), 2.25, "and half of the one at 85", 4);
    line_with(81u, (double)INFINITY);
    run(tick_of(1.0, 0.0, 1.0, 0.0, 0.0), (double)NAN, "the older place is multiplied by 0 too", 5);
}

static void mixes(void)
{
    const double infinity = (double)INFINITY;
    line_with(80u, 4.0);
    run(tick_of(1.0, 0.0, 0.0, 0.0, 0.0), 1.0, "mix 0 is dry", 0);
    run(tick_of(1.0, 0.0, 0.25, 0.0, 0.0), 1.75, "mix 0.25 is three parts dry", 1);
    run(tick_of(infinity, 0.0, 1.0, 0.0, 0.0), (double)NAN, "at mix 1 infinite audio is multiplied by 0", 2);
    run(tick_of((double)NAN, 0.0, 1.0, 0.0, 0.0), (double)NAN, "NaN audio gives NaN", 3);
    run(tick_of(-infinity, 0.0, 0.5, 0.0, 0.0), -infinity, "infinite audio goes out", 4);
    line_of(-0.0);
    run(tick_of(-0.0, 0.0, 1.0, 0.0, 0.0), -0.0, "all of -0 gives -0", 5);
    line_of(0.0);
    run(tick_of(-0.0, 0.0, 0.0, 0.0, 0.0), 0.0, "a mix of +0 makes +0 of audio of -0", 6);
    run(tick_of(-0.0, 0.0, -0.0, 0.0, 0.0), -0.0, "a mix of -0 leaves it -0", 7);
}

static void controls(void)
{
    const struct numbers above = at_least_one();
    const struct numbers below = at_most_zero();
    unsigned i;
    for (i = 0; i < above.count; i++) {
        line_with(152u, 4.0);
        run(tick_of(1.0, above.list[i], above.list[i], 0.0, 1.0), 4.0, "depth and mix are at most 1", i);
        line_with(80u, 4.0);
        run(tick_of(1.0, below.list[i], 1.0, 0.0, 1.0), 4.0, "depth is at least 0", i);
        run(tick_of(1.0, 0.0, below.list[i], 0.0, 1.0), 1.0, "mix is at least 0", i);
    }
}

static void unset_ports(void)
{
    const struct numbers numbers = not_read();
    unsigned i;
    for (i = 0; i < numbers.count; i++) {
        struct tick t = tick_of(numbers.list[i], 0.0, 0.5, 0.0, 0.0);
        t.audio.set = 0;
        line_with(80u, 4.0);
        run(t, 2.0, "unset audio is 0", i);
        t = tick_of(1.0, numbers.list[i], 1.0, 0.0, 1.0);
        t.depth.set = 0;
        line_with(116u, 4.0);
        run(t, 4.0, "unset depth is 0.5", i);
        t = tick_of(1.0, 0.0, numbers.list[i], 0.0, 0.0);
        t.mix.set = 0;
        line_with(80u, 4.0);
        run(t, 4.0, "unset mix is 1", i);
    }
}

/* From a start, at depth 0, a sound comes back after 80 ticks, and once; then the line is silent. */
static void echo(void)
{
    struct unit unit = unit_at(0);
    struct tick t = tick_of(1.0, 0.0, 1.0, 5.0, 0.5);
    int yes = 7;
    unsigned i;
    check(start(&unit, memory, 170, 8000.0) == 0, "start for an echo", 0);
    check(silent(&unit, &yes) == 0 && yes == 1, "silent after the start", 0);
    for (i = 0; i < 171u; i++) {
        double out[MOST] = {JUNK};
        uint32_t age;
        check(tick(&unit, memory, 170, &t, out, &age) == 0 && same(out[0], i == 80u ? 1.0 : 0.0), "echo", i);
        check(silent(&unit, &yes) == 0 && yes == (i == 170u), "sounds until the line has gone round", i);
        t.audio = room_set(0.0);
    }
}

/* The exported function by itself: bits of the mask beyond the three ports are not read. */
static void mask(void)
{
    uint32_t pos = 3, count = 3;
    double phase = 0.0;
    double out = JUNK;
    uint32_t age = JUNK_AGE;
    line_with(80u, 4.0);
    check(room_raw_vibrato_tick(&pos, &count, &phase, 8000.0, memory, 170, UINT32_C(0xfffffff9), -0.0, (double)NAN,
                                (double)NAN, 0.0, 0.0, &out, &age) == 0,
          "audio and the other bits", 0);
    check(same(out, 4.0) && pos == 4u && same(phase, 0.0), "audio and the other bits: controls are unset", 0);
    check(count == 2u, "audio and the other bits: a place that sounded is a zero", 0);
    check(age == 80u, "audio and the other bits: the age", 0);
}

void vibrato(void)
{
    lines(&effect);
    distances();
    mixes();
    controls();
    unset_ports();
    echo();
    mask();
}
