/* The chorus. */
#include "lines.h"

#include <string.h>

static room_chorus state_of(const struct unit *unit)
{
    room_chorus state;
    state.write_pos = unit->write_pos;
    state.nonzero_places = unit->nonzero_places;
    memcpy(state.lfo_phases, unit->phases, sizeof state.lfo_phases);
    state.sample_rate = unit->sample_rate;
    return state;
}

static uint32_t put(struct unit *unit, const room_chorus *state, uint32_t number)
{
    unit->write_pos = state->write_pos;
    unit->nonzero_places = state->nonzero_places;
    memcpy(unit->phases, state->lfo_phases, sizeof unit->phases);
    unit->sample_rate = state->sample_rate;
    return number;
}

LINED_CALLS(chorus)

static uint32_t tick(struct unit *unit, double *lent, uint64_t places, const struct tick *t, double out[MOST], uint32_t *age)
{
    room_chorus state = state_of(unit);
    return put(unit, &state,
               room_chorus_tick(&state, lent, places, t->audio, t->depth, t->mix, t->frequency, t->sines, out, age));
}

/* Lengths: 8,000 stands first. */
static const struct lined effect = {
    .lines = 1,
    .phases = 3,
    .sines = 3,
    .samples = 3,
    .start_phases = {0.0, 0.33, 0.67},
    .retune_keeps_phases = 1,
    .input_rule = 1,
    .feeds_back = 0,
    .lengths = {{8000.0, 266}, {44100.0, 1421}, {192000.0, 6154}, {11025.0, 362}, {22050.0, 715}, {48000.0, 1546}},
    .start = start,
    .retune = retune,
    .reset = reset,
    .tick = tick,
    .silent = silent,
};

/* At 8,000, where the line has 266 places. */
#define LENGTH 266u

/* Runs the tick from position 3. */
static void run(struct tick t, double mono, double left, double right, const char *what, unsigned i)
{
    const double samples[MOST] = {mono, left, right};
    tick_plays(&effect, 3u, t, samples, what, i);
}

static void line_of(double value)
{
    unsigned i;
    for (i = 0; i < LENGTH; i++) {
        memory[i] = value;
    }
}

/* A line of zeros but for one place, at this distance from position 3: all three voices hear it if they read there. */
static void line_with(unsigned distance, double value)
{
    line_of(0.0);
    memory[(3u + LENGTH - distance) % LENGTH] = value;
}

/* A line of zeros but for three places, at these distances from this position. */
static void line_from(unsigned write_pos, const unsigned distances[MOST], double first, double second, double third)
{
    const double values[MOST] = {first, second, third};
    unsigned i;
    line_of(0.0);
    for (i = 0; i < MOST; i++) {
        memory[(write_pos + LENGTH - distances[i]) % LENGTH] = values[i];
    }
}

/* The distance in ms is 7 + (sine x 0.5 + 0.5) x (depth x 25), so at 8,000 it is 8 times that in places: with a sine of -1, 0
   and 1 these at depth 1, and these at depth 0.5. */
static const unsigned whole[MOST] = {56, 156, 256};
static const unsigned half[MOST] = {56, 106, 156};

/* Depth 1, and a sine for each voice. */
static struct tick voiced(double audio, double mix, double first, double second, double third)
{
    struct tick t = tick_of(audio, 1.0, mix, 0.0, first);
    t.sines[1] = second;
    t.sines[2] = third;
    return t;
}

/* The first voice reads nearest, the last farthest. */
static struct tick spread(double audio, double mix)
{
    return voiced(audio, mix, -1.0, 0.0, 1.0);
}

/* Each voice hears the one line at its own distance, wherever the others read. Voice 0 goes half to each side, voice 1 left,
   voice 2 right; mono, left and right are divided by 3, 2 and 2. So 12, 24 and 72 sound otherwise for each way to hear them;
   beside a way stands what the three voices hear. */
static void voices_apart(void)
{
    const struct {
        double sines[MOST], samples[MOST];
    } ways[] = {
        {{-1.0, 0.0, 1.0}, {36.0, 15.0, 39.0}}, /* 12, 24, 72 */
        {{-1.0, 1.0, 0.0}, {36.0, 39.0, 15.0}}, /* 12, 72, 24 */
        {{0.0, -1.0, 1.0}, {36.0, 12.0, 42.0}}, /* 24, 12, 72 */
        {{0.0, 1.0, -1.0}, {36.0, 42.0, 12.0}}, /* 24, 72, 12 */
        {{1.0, -1.0, 0.0}, {36.0, 24.0, 30.0}}, /* 72, 12, 24 */
        {{1.0, 0.0, -1.0}, {36.0, 30.0, 24.0}}, /* 72, 24, 12 */
        {{-1.0, -1.0, 1.0}, {32.0, 9.0, 39.0}}, /* 12, 12, 72 */
        {{1.0, 1.0, 1.0}, {72.0, 54.0, 54.0}},  /* 72, 72, 72 */
    };
    const unsigned positions[] = {0, 3, 56, 155, 156, 265};
    unsigned i, k;
    for (i = 0; i < COUNT(ways); i++) {
        const double *sines = ways[i].sines;
        const struct tick t = voiced(1.0, 1.0, sines[0], sines[1], sines[2]);
        for (k = 0; k < COUNT(positions); k++) {
            line_from(positions[k], whole, 12.0, 24.0, 72.0);
            tick_plays(&effect, positions[k], t, ways[i].samples, "each voice hears its own place", 10u * i + k);
        }
    }
}

static void voices(void)
{
    const double nan_ = (double)NAN;
    const struct tick t = voiced(1.0, 1.0, 0.005, 0.005, -1.0);
    const unsigned next[MOST] = {57, 157, 257};
    unsigned i;
    line_with(56u, 24.0);
    run(tick_of(1.0, 0.0, 1.0, 0.0, 1.0), 24.0, 18.0, 18.0, "depth 0: all three read 7 ms back", 0);
    line_with(256u, 24.0);
    run(tick_of(1.0, 1.0, 1.0, 0.0, 1.0), 24.0, 18.0, 18.0, "depth 1, sine 1: all three read 32 ms back", 1);
    line_with(156u, 24.0);
    run(t, 8.0, 9.0, 3.0, "a distance of 156.5 is half of the place at 156", 2);
    line_with(157u, 24.0);
    run(t, 8.0, 9.0, 3.0, "and half of the one at 157", 3);
    line_with(56u, 24.0);
    run(t, 8.0, 0.0, 12.0, "and nothing of the one at 56, where the third voice reads", 4);
    for (i = 0; i < MOST; i++) {
        line_from(3u, whole, 12.0, 24.0, 36.0);
        memory[(3u + LENGTH - next[i]) % LENGTH] = (double)INFINITY;
        run(spread(1.0, 1.0), nan_, i == 2u ? 15.0 : nan_, i == 1u ? 21.0 : nan_, "a voice multiplies its older place by 0", i);
    }
}

/* Lent three times its places, it hears none behind the line and writes to none. */
static void spare_places(void)
{
    const struct tick t = spread(1.0, 1.0);
    struct unit unit = unit_at(3u);
    double out[MOST] = {JUNK, JUNK, JUNK};
    uint32_t age;
    unsigned i;
    line_from(3u, whole, 12.0, 24.0, 36.0);
    for (i = LENGTH; i < 3u * LENGTH; i++) {
        memory[i] = JUNK + i;
    }
    check(tick(&unit, memory, 3u * LENGTH, &t, out, &age) == 0, "a tick with spare places", 0);
    check(same(out[0], 24.0) && same(out[1], 15.0) && same(out[2], 21.0), "spare places are not heard", 0);
    check(same(memory[3], 1.0), "the audio is stored in the line", 0);
    for (i = LENGTH; i < 3u * LENGTH; i++) {
        check(same(memory[i], JUNK + i), "a spare place is left", i);
    }
}

static void mixes(void)
{
    const double infinity = (double)INFINITY;
    line_from(3u, whole, 12.0, 24.0, 36.0);
    run(spread(1.0, 0.0), 1.0, 1.0, 1.0, "mix 0 is dry", 0);
    run(spread(1.0, 0.25), 6.75, 4.5, 6.0, "mix 0.25 is three parts dry", 1);
    run(spread(infinity, 0.5), 12.0, 7.5, 10.5, "infinite audio counts as 0", 2);
    run(spread((double)NAN, 0.5), 12.0, 7.5, 10.5, "NaN audio counts as 0", 3);
    line_of(-0.0);
    run(spread(-0.0, 0.5), 0.0, 0.0, 0.0, "sums start at +0: a line of -0 plays +0", 4);
    run(spread(-0.0, -0.0), -0.0, -0.0, -0.0, "a mix of -0 stays -0", 5);
}

static void controls(void)
{
    const struct numbers above = at_least_one();
    const struct numbers below = at_most_zero();
    unsigned i;
    for (i = 0; i < above.count; i++) {
        line_with(256u, 24.0);
        run(tick_of(1.0, above.list[i], above.list[i], 0.0, 1.0), 24.0, 18.0, 18.0, "depth and mix are at most 1", i);
        line_with(56u, 24.0);
        run(tick_of(1.0, below.list[i], 1.0, 0.0, 1.0), 24.0, 18.0, 18.0, "depth is at least 0", i);
        run(tick_of(1.0, 0.0, below.list[i], 0.0, 1.0), 1.0, 1.0, 1.0, "mix is at least 0", i);
    }
}

static void unset_ports(void)
{
    const struct numbers numbers = not_read();
    unsigned i;
    for (i = 0; i < numbers.count; i++) {
        struct tick t = spread(numbers.list[i], 0.5);
        t.audio.set = 0;
        line_from(3u, whole, 12.0, 24.0, 36.0);
        run(t, 12.0, 7.5, 10.5, "unset audio is 0", i);
        t = spread(1.0, 1.0);
        t.depth = room_set(numbers.list[i]);
        t.depth.set = 0;
        line_from(3u, half, 12.0, 24.0, 36.0);
        run(t, 24.0, 15.0, 21.0, "unset depth is 0.5", i);
        t = spread(1.0, numbers.list[i]);
        t.mix.set = 0;
        line_from(3u, whole, 12.0, 24.0, 36.0);
        run(t, 12.5, 8.0, 11.0, "unset mix is 0.5", i);
    }
}

/* Voice i moves on by frequency x (1 + (i - 1) x 0.1) / rate. */
static void phases_move(void)
{
    const double still[MOST] = {0.25, 0.25, 0.25};
    double next[MOST];
    unsigned i;
    tick_moves(&effect, 0.25, -0.0, still, "frequency -0 leaves the phases", 0);
    for (i = 0; i < 3u; i++) {
        next[i] = 0.25 + 31.25 * (1.0 + ((double)i - 1.0) * 0.1) / 8000.0;
    }
    tick_moves(&effect, 0.25, 31.25, next, "each phase moves on by its own multiple", 1);
    for (i = 0; i < 3u; i++) {
        const double sum = 0.99609375 + 31.25 * (1.0 + ((double)i - 1.0) * 0.1) / 8000.0;
        next[i] = i == 0u ? sum : sum - 1.0;
    }
    check(next[0] < 1.0 && same(next[1], 0.0) && next[2] > 0.0, "one short of 1, one at 1, one beyond", 2);
    tick_moves(&effect, 0.99609375, 31.25, next, "a phase that gets to 1 loses 1", 2);
}

/* From a start, each voice at its own distance: a sound comes back after 56, 156 and 256 ticks; then the line is silent. */
static void echo(void)
{
    struct unit unit = unit_at(0);
    struct tick t = spread(12.0, 1.0);
    int yes = 7;
    unsigned i;
    check(start(&unit, memory, LENGTH, 8000.0) == 0, "start for an echo", 0);
    check(silent(&unit, &yes) == 0 && yes == 1, "silent after the start", 0);
    for (i = 0; i < 267u; i++) {
        const double mono = i == 56u || i == 156u || i == 256u ? 4.0 : 0.0;
        const double left = i == 56u ? 3.0 : i == 156u ? 6.0 : 0.0;
        const double right = i == 56u ? 3.0 : i == 256u ? 6.0 : 0.0;
        double out[MOST] = {JUNK, JUNK, JUNK};
        uint32_t age;
        check(tick(&unit, memory, LENGTH, &t, out, &age) == 0, "tick of an echo", i);
        check(same(out[0], mono) && same(out[1], left) && same(out[2], right), "echo", i);
        check(silent(&unit, &yes) == 0 && yes == (i == 266u), "sounds until the line has gone round", i);
        t.audio = room_set(0.0);
    }
}

/* The exported function by itself: bits of the mask beyond the three ports are not read. */
static void mask(void)
{
    uint32_t pos = 3, count = 3;
    double phases[3] = {0.0, 0.33, 0.67};
    double out[3] = {JUNK, JUNK, JUNK};
    uint32_t age = JUNK_AGE;
    line_from(3u, half, 12.0, 24.0, 36.0);
    check(room_raw_chorus_tick(&pos, &count, phases, 8000.0, memory, LENGTH, UINT32_C(0xfffffff9), 1.0, (double)NAN,
                               (double)NAN, 0.0, -1.0, 0.0, 1.0, out, &age) == 0,
          "audio and the other bits", 0);
    check(same(out[0], 12.5) && same(out[1], 8.0) && same(out[2], 11.0), "audio and the other bits: controls are unset", 0);
    check(pos == 4u && count == 4u && same(phases[1], 0.33), "audio and the other bits: the state", 0);
    check(age == half[2], "audio and the other bits: the age of the third voice", 0);
}

void chorus(void)
{
    lines(&effect);
    voices_apart();
    voices();
    spare_places();
    mixes();
    controls();
    unset_ports();
    phases_move();
    echo();
    mask();
}
