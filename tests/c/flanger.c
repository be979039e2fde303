/* The flanger. */
#include "lines.h"

ONE_PHASE_STATE(flanger)
LINED_CALLS(flanger)

static uint32_t tick(struct unit *unit, double *lent, uint64_t places, const struct tick *t, double out[MOST], uint32_t *age)
{
    room_flanger state = state_of(unit);
    return put(unit, &state,
               room_flanger_tick(&state, lent, places, t->audio, t->depth, t->feedback, t->mix, t->frequency, t->sines,
                                 out, age));
}

/* Lengths: 8,000 stands first. */
static const struct lined effect = {
    .lines = 2,
    .phases = 1,
    .sines = 2,
    .samples = 3,
    .start_phases = {0.0, 0.0, 0.0},
    .retune_keeps_phases = 1,
    .input_rule = 1,
    .feeds_back = 1,
    .lengths = {{8000.0, 90}, {44100.0, 451}, {192000.0, 1930}, {11025.0, 120}, {22050.0, 230}, {48000.0, 490}},
    .start = start,
    .retune = retune,
    .reset = reset,
    .tick = tick,
    .silent = silent,
};

/* Runs the tick from position 3 at 8,000, where a line has 90 places. Mono is left. */
static void run(struct tick t, double left, double right, const char *what, unsigned i)
{
    const double samples[MOST] = {left, left, right};
    tick_plays(&effect, 3u, t, samples, what, i);
}

static void lines_of(double value)
{
    unsigned i;
    for (i = 0; i < 2u * 90u; i++) {
        memory[i] = value;
    }
}

/* Lines of 0.5 but for one place in each, at this distance from position 3. */
static void lines_with(unsigned distance, double first, double second)
{
    const unsigned place = (3u + 90u - distance) % 90u;
    lines_of(0.5);
    memory[place] = first;
    memory[90u + place] = second;
}

/* The distance in ms is 1 + (sine + 1) x 0.5 x (depth x 9), so at 8,000 it is 8 times that in places. */
static void distances(void)
{
    struct tick t = tick_of(1.0, 1.0, 1.0, 0.0, -1.0);
    lines_with(8u, 12.0, 24.0);
    run(tick_of(1.0, 0.0, 1.0, 0.0, 1.0), 12.0, 24.0, "depth 0 reads 1 ms back", 0);
    lines_with(8u, 12.0, 24.0);
    run(t, 12.0, 24.0, "depth 1, sine -1 reads 1 ms back", 1);
    lines_with(44u, 12.0, 24.0);
    run(tick_of(1.0, 1.0, 1.0, 0.0, 0.0), 12.0, 24.0, "depth 1, sine 0 reads 5.5 ms back", 2);
    lines_with(80u, 12.0, 24.0);
    run(tick_of(1.0, 1.0, 1.0, 0.0, 1.0), 12.0, 24.0, "depth 1, sine 1 reads 10 ms back", 3);
    lines_with(80u, 12.0, 24.0);
    t.sines[1] = 1.0;
    run(t, 0.5, 24.0, "each line has its own sine", 4);
    lines_with(12u, 4.0, 8.0);
    run(tick_of(1.0, 0.5, 1.0, 0.0, -0.75), 2.25, 4.25, "a distance of 12.5 is half of the place at 12", 5);
    lines_with(13u, 4.0, 8.0);
    run(tick_of(1.0, 0.5, 1.0, 0.0, -0.75), 2.25, 4.25, "and half of the one at 13", 6);
    lines_with(9u, 0.5, (double)INFINITY);
    run(tick_of(1.0, 0.0, 1.0, 0.0, 0.0), 0.5, (double)NAN, "the older place is multiplied by 0 too", 7);
}

static void mixes(void)
{
    lines_with(8u, 12.0, 24.0);
    run(tick_of(1.0, 0.0, 0.0, 0.0, 0.0), 1.0, 1.0, "mix 0 is dry", 0);
    run(tick_of(1.0, 0.0, 0.25, 0.0, 0.0), 3.75, 6.75, "mix 0.25 is three parts dry", 1);
    run(tick_of((double)INFINITY, 0.0, 0.5, 0.0, 0.0), 6.0, 12.0, "infinite audio counts as 0", 2);
    run(tick_of((double)NAN, 0.0, 0.5, 0.0, 0.0), 6.0, 12.0, "NaN audio counts as 0", 3);
    lines_of(-0.0);
    run(tick_of(-0.0, 0.0, 1.0, 0.0, 0.0), -0.0, -0.0, "all of -0 gives -0", 4);
    lines_of(0.0);
    run(tick_of(-0.0, 0.0, 0.0, 0.0, 0.0), 0.0, 0.0, "a mix of +0 makes +0 of audio of -0", 5);
    run(tick_of(-0.0, 0.0, -0.0, 0.0, 0.0), -0.0, -0.0, "a mix of -0 leaves it -0", 6);
}

static void controls(void)
{
    const struct numbers above = at_least_one();
    const struct numbers below = at_most_zero();
    unsigned i;
    for (i = 0; i < above.count; i++) {
        lines_with(80u, 12.0, 24.0);
        run(tick_of(1.0, above.list[i], above.list[i], 0.0, 1.0), 12.0, 24.0, "depth and mix are at most 1", i);
        lines_with(8u, 12.0, 24.0);
        run(tick_of(1.0, below.list[i], 1.0, 0.0, 1.0), 12.0, 24.0, "depth is at least 0", i);
        run(tick_of(1.0, 0.0, below.list[i], 0.0, 1.0), 1.0, 1.0, "mix is at least 0", i);
    }
}

/* Each line plays its own number and stores the audio plus that times `counts`, which the feedback counts as. */
static void feeds(double audio, double first, double second, room_port feedback, double counts, unsigned i)
{
    struct tick t = tick_of(audio, 0.0, 1.0, 0.0, 0.0);
    t.feedback = feedback;
    lines_with(8u, first, second);
    run(t, first, second, "feedback doesn't change what plays now", i);
    check(plays(memory[3], audio + first * counts), "the first line stores audio + its own read x feedback", i);
    check(plays(memory[93], audio + second * counts), "the second line stores audio + its own read x feedback", i);
}

static void feedbacks(void)
{
    const struct numbers above = at_least_one();
    const struct numbers unread = not_read();
    const double within[] = {0.5, -0.5, 0.1, nearer(0.95), -nearer(0.95), 0.95, -0.95, SMALLEST};
    const double infinity = (double)INFINITY;
    unsigned i;
    for (i = 0; i < COUNT(within); i++) {
        feeds(1.0, 4.0, 7.0, room_set(within[i]), within[i], i);
    }
    for (i = 0; i < above.count; i++) {
        feeds(1.0, 4.0, 7.0, room_set(above.list[i]), 0.95, 100u + i);
        feeds(1.0, 4.0, 7.0, room_set(-above.list[i]), -0.95, 200u + i);
    }
    feeds(1.0, 4.0, 7.0, room_set(farther(0.95)), 0.95, 300u);
    feeds(1.0, 4.0, 7.0, room_set(farther(-0.95)), -0.95, 301u);
    feeds(0.0, 4.0, -7.0, room_set(0.0), 0.0, 302u);
    feeds(0.0, 4.0, -7.0, room_set(-0.0), -0.0, 303u);
    feeds(-0.0, 4.0, -7.0, room_set(0.0), 0.0, 304u);
    feeds(-0.0, 4.0, -7.0, room_set(-0.0), -0.0, 305u);
    feeds(DBL_MAX, DBL_MAX, -DBL_MAX, room_set(0.5), 0.5, 306u);
    for (i = 0; i < unread.count; i++) {
        room_port port = room_set(unread.list[i]);
        port.set = 0;
        feeds(-0.0, 4.0, 7.0, port, 0.0, 400u + i);
    }
    /* What is not finite in a line stays in it; even a feedback of 0 multiplies. */
    lines_of(infinity);
    run(tick_of(1.0, 0.5, 0.5, 0.0, -0.75), infinity, infinity, "lines of infinity, read between two places, play it", 0);
    check(isnan(memory[3]) && isnan(memory[93]), "and store infinity x 0", 0);
    lines_of((double)NAN);
    run(tick_of(1.0, 0.0, 0.0, 0.0, 0.0), (double)NAN, (double)NAN, "lines of NaN play it at mix 0 too", 0);
    check(isnan(memory[3]) && isnan(memory[93]), "and store it", 0);
}

static void unset_ports(void)
{
    const struct numbers numbers = not_read();
    unsigned i;
    for (i = 0; i < numbers.count; i++) {
        struct tick t = tick_of(numbers.list[i], 0.0, 0.5, 0.0, 0.0);
        t.audio.set = 0;
        lines_with(8u, 12.0, 24.0);
        run(t, 6.0, 12.0, "unset audio is 0", i);
        t = tick_of(1.0, numbers.list[i], 1.0, 0.0, 1.0);
        t.depth.set = 0;
        lines_with(44u, 12.0, 24.0);
        run(t, 12.0, 24.0, "unset depth is 0.5", i);
        t = tick_of(1.0, 0.0, numbers.list[i], 0.0, 0.0);
        t.mix.set = 0;
        lines_with(8u, 12.0, 24.0);
        run(t, 6.5, 12.5, "unset mix is 0.5", i);
    }
}

/* What a line with feedback 0.5 that is read at this distance plays i ticks after a sound of 1. */
static double echoed(unsigned i, unsigned distance)
{
    return i > 0u && i % distance == 0u ? ldexp(1.0, 1 - (int)(i / distance)) : 0.0;
}

/* From a start, the lines at 8 and 80: a sound comes back, each time half as loud; without feedback it goes in a round. */
static void echo(void)
{
    struct unit unit = unit_at(0);
    struct tick t = tick_of(1.0, 1.0, 1.0, 5.0, -1.0);
    double out[MOST] = {JUNK, JUNK, JUNK};
    uint32_t age;
    int yes = 7;
    unsigned i;
    t.feedback = room_set(0.5);
    t.sines[1] = 1.0;
    check(start(&unit, memory, 2 * 90, 8000.0) == 0, "start for an echo", 0);
    check(silent(&unit, &yes) == 0 && yes == 1, "silent after the start", 0);
    for (i = 0; i < 250u; i++) {
        const double left = echoed(i, 8u);
        check(tick(&unit, memory, 2 * 90, &t, out, &age) == 0, "tick of an echo", i);
        check(same(out[0], left) && same(out[1], left) && same(out[2], echoed(i, 80u)), "echo", i);
        check(silent(&unit, &yes) == 0 && yes == 0, "an echo sounds", i);
        t.audio = room_set(0.0);
    }
    t.feedback = room_unset();
    for (i = 0; i < 90u; i++) {
        check(tick(&unit, memory, 2 * 90, &t, out, &age) == 0, "tick without feedback", i);
    }
    check(silent(&unit, &yes) == 0 && yes == 1, "silent a round later", 0);
}

/* The exported function by itself: bits of the mask beyond the four ports are not read. */
static void mask(void)
{
    uint32_t pos = 3, count = 178;
    double phase = 0.0;
    double out[3] = {JUNK, JUNK, JUNK};
    uint32_t age = JUNK_AGE;
    const double nan_ = (double)NAN;
    lines_with(44u, 12.0, 24.0);
    memory[3] = memory[93] = 0.0;
    check(room_raw_flanger_tick(&pos, &count, &phase, 8000.0, memory, 2 * 90, UINT32_C(0xfffffff1), 1.0, nan_, nan_, nan_,
                                0.0, 1.0, 1.0, out, &age) == 0,
          "audio and the other bits", 0);
    check(same(out[0], 6.5) && same(out[1], 6.5) && same(out[2], 12.5), "audio and the other bits: controls are unset", 0);
    check(pos == 4u && count == 180u && same(phase, 0.0) && same(memory[3], 1.0), "audio and the other bits: what is left", 0);
    check(age == 44u, "audio and the other bits: the age", 0);
}

void flanger(void)
{
    lines(&effect);
    distances();
    mixes();
    controls();
    feedbacks();
    unset_ports();
    echo();
    mask();
}
