/* The accepted ticks of the delay. */
#include "delay.h"

#include <string.h>

/* A line of 0.5 but for one place, at this distance from the position. */
static void line_with(uint32_t write_pos, unsigned distance, double value)
{
    unsigned i;
    fill();
    for (i = 0; i < LENGTH; i++) {
        memory[i] = 0.5;
    }
    memory[(write_pos + LENGTH - distance) % LENGTH] = value;
}

/* What a tick leaves of the count of this state, where so many places in use were no zeros before it. */
static uint32_t counted(room_delay state, uint32_t before)
{
    return count_after(state.nonzero_places, before, nonzero_in(memory, LENGTH), LENGTH);
}

/* Runs the tick from this state in the memory as it is: the sample, a NaN standing for any, the distance it leaves, its age by
   that, and the count. */
static void plays_at(room_delay state, struct tick_of_delay t, double sample, double distance, const char *what, unsigned i)
{
    const uint32_t before = nonzero_in(memory, LENGTH);
    room_delay should = state;
    double out[1] = {JUNK};
    uint32_t age;
    should.write_pos = (state.write_pos + 1u) % LENGTH;
    should.smoothed_delay = distance;
    should.delay_primed = 1;
    check(ticked(&state, LENGTH, &t, out, &age) == 0, what, i);
    check(plays(out[0], sample), what, i);
    check(age == age_at(distance), "a tick's age is that of the distance it leaves", i);
    should.nonzero_places = counted(should, before);
    check(delay_is(&state, should), "a tick leaves the next position, the count, its distance, primed, and the settings", i);
}

/* At 8,000 a millisecond is 8 places. */
static void distances(void)
{
    const double nan_ = (double)NAN;
    const double infinity = (double)INFINITY;
    const double past_the_end[] = {62.5, farther(62.5), 63.0, 1e308, DBL_MAX, infinity};
    const double before_one[] = {0.125, nearer(0.125), 0.0, -0.0, SMALLEST, -1.0, -DBL_MAX, -infinity};
    unsigned i;
    line_with(3u, 16u, 12.0);
    plays_at(unprimed_at(3u), delay_tick(1.0, 1.0, 2.0), 12.0, 16.0, "2 ms read 16 places back", 0);
    line_with(3u, 16u, 12.0);
    plays_at(unprimed_at(3u), delay_tick(1.0, 1.0, 2.0625), 6.25, 16.5, "2.0625 ms are half of the place at 16", 1);
    line_with(3u, 17u, 12.0);
    plays_at(unprimed_at(3u), delay_tick(1.0, 1.0, 2.0625), 6.25, 16.5, "and half of the one at 17", 2);
    for (i = 0; i < COUNT(past_the_end); i++) {
        line_with(3u, LENGTH - 1u, 12.0);
        plays_at(unprimed_at(3u), delay_tick(1.0, 1.0, past_the_end[i]), 12.0, LENGTH - 1u, "L - 1 is the farthest", i);
    }
    for (i = 0; i < COUNT(before_one); i++) {
        line_with(3u, 1u, 12.0);
        plays_at(unprimed_at(3u), delay_tick(1.0, 1.0, before_one[i]), 12.0, 1.0, "1 is the nearest", i);
    }
    /* The older place is multiplied by 0 too; at L - 1 it is the one that the tick writes. */
    line_with(3u, 17u, infinity);
    plays_at(unprimed_at(3u), delay_tick(1.0, 1.0, 2.0), nan_, 16.0, "the older place is multiplied by 0 too: infinity", 0);
    line_with(3u, 17u, nan_);
    plays_at(unprimed_at(3u), delay_tick(1.0, 1.0, 2.0), nan_, 16.0, "the older place is multiplied by 0 too: NaN", 1);
    line_with(3u, LENGTH, infinity);
    plays_at(unprimed_at(3u), delay_tick(1.0, 1.0, 62.5), nan_, LENGTH - 1u, "at L - 1 the older one is the position's", 2);
    /* In exponential mode no one reads the time. */
    for (i = 0; i < 2u; i++) {
        struct tick_of_delay t = delay_tick(1.0, 1.0, 2.0);
        t.time = room_set(i == 0u ? nan_ : infinity);
        line_with(3u, 16u, 12.0);
        plays_at(unprimed_at(3u), t, 12.0, 16.0, "exponential mode takes a time of NaN", i);
    }
}

/* Linear mode: seconds, 0 to the maximum. */
static void seconds(void)
{
    const double nan_ = (double)NAN;
    const double infinity = (double)INFINITY;
    const double most[] = {MAXIMUM, farther(MAXIMUM), 1.0, DBL_MAX, infinity};
    const double least[] = {0.0, -0.0, SMALLEST, -SMALLEST, -1.0, -infinity};
    const double unread[] = {nan_, ODD_NAN, infinity, -infinity, 2.0};
    const struct numbers unset = not_read();
    struct tick_of_delay t;
    unsigned i;
    for (i = 0; i < COUNT(unread); i++) {
        t = linear_tick(1.0, 1.0, 0.03125);
        t.milliseconds = unread[i];
        line_with(3u, 250u, 12.0);
        plays_at(linear_of(unprimed_at(3u)), t, 12.0, 250.0, "linear mode takes milliseconds of NaN", i);
    }
    for (i = 0; i < COUNT(most); i++) {
        line_with(3u, LENGTH - 1u, 12.0);
        plays_at(linear_of(unprimed_at(3u)), linear_tick(1.0, 1.0, most[i]), 12.0, LENGTH - 1u, "the maximum is the most", i);
    }
    for (i = 0; i < COUNT(least); i++) {
        line_with(3u, 1u, 12.0);
        plays_at(linear_of(unprimed_at(3u)), linear_tick(1.0, 1.0, least[i]), 12.0, 1.0, "a time of 0 reads one back", i);
    }
    for (i = 0; i < unset.count; i++) {
        t = linear_tick(1.0, 1.0, unset.list[i]);
        t.time.set = 0;
        line_with(3u, LENGTH - 1u, 12.0);
        plays_at(linear_of(unprimed_at(3u)), t, 12.0, LENGTH - 1u, "unset time is 0.5, here more than the maximum", i);
    }
    for (i = 0; i < FLAGS_ON; i++) {
        room_delay state = unprimed_at(3u);
        state.linear_time = flags_on[i];
        line_with(3u, 250u, 12.0);
        plays_at(state, linear_tick(1.0, 1.0, 0.03125), 12.0, 250.0, "any number but 0 is linear", i);
    }
}

/* Where the maximum is more, unset time is 0.5 s: at 8,000 4,000 places. */
static void half_a_second(void)
{
    room_delay state = linear_of(unprimed_at(4003u));
    struct tick_of_delay t = linear_tick(1.0, 1.0, (double)NAN);
    double out[1] = {JUNK};
    uint32_t age;
    unsigned i;
    state.max_delay_secs = 1.0;
    t.time.set = 0;
    for (i = 0; i < ROOM; i++) {
        memory[i] = 0.5;
    }
    memory[3] = 12.0;
    check(ticked(&state, 8001, &t, out, &age) == 0 && same(out[0], 12.0) && same(state.smoothed_delay, 4000.0),
          "unset time is 0.5", 0);
}

/* target + (last distance - target) x coefficient */
static void glides(void)
{
    const struct {
        double last, coefficient, milliseconds, distance;
    } moves[] = {
        {32.0, 0.5, 2.0, 24.0},
        {8.0, 0.75, 2.0, 10.0},
        {32.0, 0.0, 2.0, 16.0},  /* jumps */
        {32.0, -0.0, 2.0, 16.0}, /* likewise */
        {16.0, 0.5, 2.0, 16.0},
        {1.0, 0.5, 1e308, 250.5}, /* the target is clamped before the glide */
        {500.0, 0.5, 0.0, 250.5},
        {500.0, 0.5, 62.5, 500.0},
    };
    unsigned i;
    for (i = 0; i < COUNT(moves); i++) {
        const double distance = moves[i].distance;
        const unsigned whole = (unsigned)distance;
        const double sample = 12.5 - 12.0 * (distance - whole);
        room_delay state = primed_at(3u, moves[i].last);
        state.delay_smooth_coef = moves[i].coefficient;
        line_with(3u, whole, 12.5);
        plays_at(state, delay_tick(1.0, 1.0, moves[i].milliseconds), sample, distance, "a glide", i);
        state.delay_primed = flags_on[i % FLAGS_ON];
        line_with(3u, whole, 12.5);
        plays_at(state, delay_tick(1.0, 1.0, moves[i].milliseconds), sample, distance, "any number but 0 is primed", i);
    }
}

/* From end to end with a coefficient that hardly lets it move, a glide stays in the line. */
static void slow_glides(void)
{
    const double almost = nearer(1.0);
    unsigned i, k;
    for (k = 0; k < 2u; k++) {
        room_delay state = primed_at(0, k == 0u ? 1.0 : LENGTH - 1u);
        const struct tick_of_delay t = delay_tick(1.0, 1.0, k == 0u ? 1e308 : 0.0);
        state.delay_smooth_coef = almost;
        for (i = 0; i < 2000u; i++) {
            double out[1];
            uint32_t age;
            check(ticked(&state, LENGTH, &t, out, &age) == 0, "a slow glide goes on", i);
            check(state.smoothed_delay >= 1.0 && state.smoothed_delay <= LENGTH - 1u, "a slow glide stays in the line", i);
        }
    }
}

static void mixes(void)
{
    const struct numbers above = at_least_one();
    const struct numbers below = at_most_zero();
    const struct numbers unset = not_read();
    const double nan_ = (double)NAN;
    struct tick_of_delay t;
    unsigned i;
    line_with(3u, 16u, 12.0);
    plays_at(unprimed_at(3u), delay_tick(1.0, 0.0, 2.0), 1.0, 16.0, "mix 0 is dry", 0);
    plays_at(unprimed_at(3u), delay_tick(1.0, 0.25, 2.0), 3.75, 16.0, "mix 0.25 is three parts dry", 1);
    plays_at(unprimed_at(3u), delay_tick((double)INFINITY, 0.5, 2.0), 6.0, 16.0, "infinite audio counts as 0", 2);
    plays_at(unprimed_at(3u), delay_tick(nan_, 0.5, 2.0), 6.0, 16.0, "NaN audio counts as 0", 3);
    for (i = 0; i < above.count; i++) {
        plays_at(unprimed_at(3u), delay_tick(1.0, above.list[i], 2.0), 12.0, 16.0, "mix is at most 1", i);
        plays_at(unprimed_at(3u), delay_tick(1.0, below.list[i], 2.0), 1.0, 16.0, "mix is at least 0", i);
    }
    for (i = 0; i < unset.count; i++) {
        t = delay_tick(1.0, unset.list[i], 2.0);
        t.mix.set = 0;
        plays_at(unprimed_at(3u), t, 6.5, 16.0, "unset mix is 0.5", i);
        t = delay_tick(unset.list[i], 0.5, 2.0);
        t.audio.set = 0;
        plays_at(unprimed_at(3u), t, 6.0, 16.0, "unset audio is 0", i);
    }
    memset(memory, 0, sizeof memory);
    plays_at(unprimed_at(3u), delay_tick(-0.0, 0.0, 2.0), 0.0, 16.0, "a mix of +0 makes +0 of audio of -0", 4);
    plays_at(unprimed_at(3u), delay_tick(-0.0, -0.0, 2.0), -0.0, 16.0, "a mix of -0 leaves it -0", 5);
}

/* Runs a tick at a line that plays `wet`: it stores this, at the position and nowhere else, spare places among them, which do
   not count. */
static void stores(uint32_t write_pos, double wet, struct tick_of_delay t, unsigned places, double stored, unsigned i)
{
    room_delay state = unprimed_at(write_pos);
    double out[1];
    double kept[ROOM];
    uint32_t age, before;
    line_with(write_pos, 16u, wet);
    memcpy(kept, memory, sizeof kept);
    before = nonzero_in(memory, LENGTH);
    check(ticked(&state, places, &t, out, &age) == 0, "a tick that stores", i);
    check(state.nonzero_places == counted(unprimed_at(write_pos), before), "a tick that stores counts what it changes", i);
    check(plays(memory[write_pos], stored), "a tick stores audio + read x feedback", i);
    kept[write_pos] = memory[write_pos];
    check(all_same(memory, kept, ROOM), "a tick writes to no other place", i);
}

static void feedbacks(void)
{
    const struct numbers above = at_least_one();
    const struct numbers below = at_most_zero();
    const double within[] = {0.5, 0.1, nearer(0.99), 0.99, SMALLEST};
    const uint32_t positions[] = {0, 1, 250, LENGTH - 2u, LENGTH - 1u};
    struct tick_of_delay t = delay_tick(1.0, 1.0, 2.0);
    unsigned i;
    for (i = 0; i < COUNT(within); i++) {
        t.feedback = room_set(within[i]);
        stores(3u, 4.0, t, LENGTH, 1.0 + 4.0 * within[i], i);
        stores(positions[i], 4.0, t, ROOM, 1.0 + 4.0 * within[i], 100u + i);
    }
    for (i = 0; i < above.count; i++) {
        t.feedback = room_set(above.list[i]);
        stores(3u, 4.0, t, LENGTH, 1.0 + 4.0 * 0.99, 200u + i);
        t.feedback = room_set(below.list[i]);
        stores(3u, 4.0, t, LENGTH, 1.0, 300u + i);
    }
    t.feedback = room_set(farther(0.99));
    stores(3u, 4.0, t, LENGTH, 1.0 + 4.0 * 0.99, 400u);
    t = delay_tick(-0.0, 1.0, 2.0);
    stores(3u, 4.0, t, LENGTH, 0.0, 401u);
    t.feedback = room_set(-0.0);
    stores(3u, 4.0, t, LENGTH, -0.0, 402u);
}

/* An unset feedback is 0, whatever number stands beside it; audio that is not finite counts as +0, samples are taken as they are. */
static void unset_and_not_finite(void)
{
    const struct numbers unset = not_read();
    const double not_finite[] = {(double)NAN, ODD_NAN, (double)INFINITY, -(double)INFINITY};
    struct tick_of_delay t = delay_tick(-0.0, 1.0, 2.0);
    unsigned i;
    for (i = 0; i < unset.count; i++) {
        t.feedback = room_set(unset.list[i]);
        t.feedback.set = 0;
        stores(3u, 4.0, t, LENGTH, 0.0, 500u + i);
    }
    for (i = 0; i < COUNT(not_finite); i++) {
        t = delay_tick(not_finite[i], 1.0, 2.0);
        t.feedback = room_set(0.5);
        stores(3u, 4.0, t, LENGTH, 2.0, 600u + i);
        stores(3u, not_finite[i], t, LENGTH, 0.0 + not_finite[i] * 0.5, 700u + i);
    }
    t = delay_tick(DBL_MAX, 1.0, 2.0);
    t.feedback = room_set(0.5);
    stores(3u, DBL_MAX, t, LENGTH, (double)INFINITY, 800u);
}

/* Document 01: linear, coefficient 0, time 0, feedback 0, mix 1: audio 3 then 7 gives 0 then 3. */
static void bench_case(void)
{
    const struct tick_of_delay first = linear_tick(3.0, 1.0, 0.0);
    const struct tick_of_delay second = linear_tick(7.0, 1.0, 0.0);
    room_delay state;
    double out[1] = {JUNK};
    uint32_t age;
    check(room_delay_start(&state, memory, LENGTH, 8000.0, MAXIMUM, 0.0, 1u) == 0, "start of the bench case", 0);
    check(ticked(&state, LENGTH, &first, out, &age) == 0 && same(out[0], 0.0), "audio 3 gives 0", 0);
    check(ticked(&state, LENGTH, &second, out, &age) == 0 && same(out[0], 3.0), "audio 7 gives 3", 0);
}

/* From a start, at 16 places: a sound comes back, each time half as loud; without feedback it is gone a round later. */
static void echo(void)
{
    struct tick_of_delay t = delay_tick(1.0, 1.0, 2.0);
    room_delay state;
    double out[1] = {JUNK};
    uint32_t age;
    int yes = 7;
    unsigned i;
    fill();
    check(room_delay_start(&state, memory, ROOM, 8000.0, MAXIMUM, 0.9, 0u) == 0, "start for an echo", 0);
    check(room_delay_silent(&state, &yes) == 0 && yes == 1, "silent after the start", 0);
    t.feedback = room_set(0.5);
    for (i = 0; i < 1100u; i++) {
        const double should = i > 0u && i % 16u == 0u ? ldexp(1.0, 1 - (int)(i / 16u)) : 0.0;
        check(ticked(&state, ROOM, &t, out, &age) == 0, "tick of an echo", i);
        check(same(out[0], should), "echo", i);
        check(room_delay_silent(&state, &yes) == 0 && yes == 0, "an echo sounds", i);
        t.audio = room_set(0.0);
    }
    t.feedback = room_unset();
    for (i = 0; i < LENGTH; i++) {
        check(ticked(&state, ROOM, &t, out, &age) == 0, "tick without feedback", i);
    }
    check(room_delay_silent(&state, &yes) == 0 && yes == 1, "silent a round later", 0);
    check(room_delay_reset(&state, memory, ROOM) == 0 && state.delay_primed == 0u && same(state.smoothed_delay, 0.0),
          "reset", 0);
}

/* The exported function by itself: bits of the mask beyond the four ports are not read. */
static void mask(void)
{
    const double nan_ = (double)NAN;
    uint32_t write_pos = 3, count = LENGTH;
    double smoothed_delay = 0.0;
    uint32_t delay_primed = 0;
    double out = JUNK;
    uint32_t age = JUNK_AGE;
    line_with(3u, 16u, 12.0);
    check(room_raw_delay_tick(&write_pos, &count, &smoothed_delay, 8000.0, 0.5, MAXIMUM, &delay_primed, 0u, memory, LENGTH,
                              UINT32_C(0xfffffff1), -0.0, nan_, nan_, nan_, 2.0, &out, &age) == 0,
          "audio and the other bits", 0);
    check(same(out, 6.0) && age == 16u, "audio and the other bits: controls are unset", 0);
    check(write_pos == 4u && count == LENGTH - 1u && same(smoothed_delay, 16.0) && delay_primed == 1u && same(memory[3], 0.0),
          "audio and the others: it leaves", 0);
}

void delay_ticks(void)
{
    distances();
    seconds();
    half_a_second();
    glides();
    slow_glides();
    mixes();
    feedbacks();
    unset_and_not_finite();
    bench_case();
    echo();
    mask();
}
