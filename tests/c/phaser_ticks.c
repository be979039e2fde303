/* The accepted ticks of the phaser: by hand, and beside a reading of document 02, A.1. */
#include "phaser.h"

/* What a tick must answer and leave, and how many all-passes of each chain are in use. */
struct played {
    double out[3];
    room_phaser state;
    unsigned stages;
};

static double held(double x, double low, double high)
{
    return x < low ? low : x > high ? high : x;
}

static double chained(double x1[6], double y1[6], unsigned stages, double in, double feedback, double coef)
{
    double g = in + (y1[stages - 1u] * feedback);
    unsigned i;
    for (i = 0; i < stages; i++) {
        const double y = ((coef * g) + x1[i]) - (coef * y1[i]);
        x1[i] = g;
        y1[i] = y;
        g = y;
    }
    return g;
}

static struct played by_the_paper(const room_phaser *before, const struct tick_of_phaser *t)
{
    const double audio = t->audio.set != 0 ? t->audio.value : 0.0;
    const double in = isfinite(audio) ? audio : 0.0;
    const double feedback = t->feedback.set != 0 ? held(t->feedback.value, -0.95, 0.95) : 0.0;
    const double mix = t->mix.set != 0 ? held(t->mix.value, 0.0, 1.0) : 0.5;
    const double stages = t->stages.set != 0 ? t->stages.value : 1.0;
    const double phase = before->lfo_phase + t->frequency / before->sample_rate;
    struct played p;
    p.state = *before;
    p.stages = stages < 0.33 ? 2u : stages < 0.66 ? 4u : 6u;
    p.out[1] = chained(p.state.allpass_x1_l, p.state.allpass_y1_l, p.stages, in, feedback, t->coef_l);
    p.out[2] = chained(p.state.allpass_x1_r, p.state.allpass_y1_r, p.stages, in, feedback, t->coef_r);
    p.out[1] = (in * (1.0 - mix)) + (p.out[1] * mix);
    p.out[2] = (in * (1.0 - mix)) + (p.out[2] * mix);
    p.out[0] = p.out[1];
    p.state.lfo_phase = phase >= 1.0 ? phase - 1.0 : phase;
    return p;
}

/* To the bit, but that a NaN which the tick worked out may be any NaN; what is not in use keeps its bits. */
static int left_as(room_phaser *is, struct played *should)
{
    int good = same(is->lfo_phase, should->state.lfo_phase) && same(is->sample_rate, should->state.sample_rate);
    unsigned i;
    for (i = 0; i < KEPT; i++) {
        const double a = *phaser_number(is, i);
        const double b = *phaser_number(&should->state, i);
        good = good && (i % 6u < should->stages ? plays(a, b) : same(a, b));
    }
    return good;
}

int goes_as_the_paper(room_phaser *state, struct tick_of_phaser t)
{
    struct played should = by_the_paper(state, &t);
    double out[3] = {JUNK, JUNK, JUNK};
    const uint32_t number = phaser_ticked(state, &t, out);
    return number == 0u && plays(out[0], should.out[0]) && plays(out[1], should.out[1]) && plays(out[2], should.out[2]) &&
           left_as(state, &should);
}

/* Runs the tick: the samples, a NaN standing for any. Mono is left. */
static void run(room_phaser *state, struct tick_of_phaser t, double left, double right, const char *what, unsigned i)
{
    room_phaser again = *state;
    double out[3] = {JUNK, JUNK, JUNK};
    check(phaser_ticked(state, &t, out) == 0, what, i);
    check(plays(out[0], left) && plays(out[1], left) && plays(out[2], right), what, i);
    check(goes_as_the_paper(&again, t), "by the paper too", i);
}

/* An impulse through two all-passes a side, by hand. With 0.5 the first plays 0.5, then 0 + 1 - 0.25 and 0 + 0 - 0.375; with
   -0.5 it plays -0.5, then 0 + 1 - 0.25 and 0 + 0 + 0.375. */
static void impulse(void)
{
    struct tick_of_phaser t = staged(phaser_tick(1.0, 0.0, 1.0, 0.5), 0.0);
    room_phaser state;
    t.coef_r = -0.5;
    check(room_phaser_start(&state, RATE) == 0, "start for an impulse", 0);
    run(&state, t, 0.25, 0.25, "an impulse: 0.5 x 0.5", 0);
    t.audio = room_set(0.0);
    run(&state, t, 0.75, -0.75, "0.375 + 0.5 - 0.125", 1);
    check(same(state.allpass_y1_l[0], 0.75) && same(state.allpass_y1_r[0], 0.75), "the first all-pass's last output", 1);
    check(same(state.allpass_x1_l[0], 0.0) && same(state.allpass_x1_l[1], 0.75), "the last inputs", 1);
    run(&state, t, 0.1875, 0.1875, "-0.1875 + 0.75 - 0.375", 2);
}

/* With a coefficient of 0 an all-pass plays its last input, so the tick plays that of the last one in use and shows what goes
   into the first: of the numbers 1 to 24 last inputs are 1 to 6 and 7 to 12, last outputs 13 to 18 and 19 to 24. */
static void stages_are(room_port stages, unsigned used, const char *what, unsigned i)
{
    struct tick_of_phaser t = phaser_tick(8.0, 0.5, 1.0, 0.0);
    const room_phaser before = counted_phaser();
    room_phaser state = before;
    unsigned k;
    t.stages = stages;
    run(&state, t, used, 6u + used, what, i);
    check(same(state.allpass_x1_l[0], 8.0 + 0.5 * (12u + used)), "fed back: the last output of the last one in use, left", i);
    check(same(state.allpass_x1_r[0], 8.0 + 0.5 * (18u + used)), "and right", i);
    for (k = 1; k < 6u; k++) {
        const double last = k < used ? k : k + 1u;
        check(same(state.allpass_x1_l[k], last) && same(state.allpass_x1_r[k], last + 6.0), "last inputs", 10u * i + k);
    }
    for (k = 0; k < 6u; k++) {
        const double last = k + (k < used ? 1u : 13u);
        const double right = last + 6.0;
        check(same(state.allpass_y1_l[k], last) && same(state.allpass_y1_r[k], right), "last outputs", 10u * i + k);
    }
}

static void stages(void)
{
    const double infinity = (double)INFINITY;
    const struct numbers two = {9, {0.0, -0.0, -SMALLEST, SMALLEST, 0.25, nearer(0.33), -1.0, -DBL_MAX, -infinity}};
    const struct numbers four = {6, {0.33, farther(0.33), 0.332, 0.5, 0.65, nearer(0.66)}};
    const struct numbers six = {9, {0.66, farther(0.66), 0.665, 0.75, 1.0, farther(1.0), 2.0, DBL_MAX, infinity}};
    const struct numbers unset = not_read();
    unsigned i;
    for (i = 0; i < two.count; i++) {
        stages_are(room_set(two.list[i]), 2u, "two all-passes below 0.33", i);
    }
    for (i = 0; i < four.count; i++) {
        stages_are(room_set(four.list[i]), 4u, "four from 0.33 to below 0.66", i);
    }
    for (i = 0; i < six.count; i++) {
        stages_are(room_set(six.list[i]), 6u, "six from 0.66 on", i);
    }
    for (i = 0; i < unset.count; i++) {
        room_port port = room_set(unset.list[i]);
        port.set = 0;
        stages_are(port, 6u, "unset stages are 1", i);
    }
}

/* After ticks with two all-passes the tap of six is the number that the sixth was left with, and no last wet. */
static void stages_rise(void)
{
    struct tick_of_phaser t = phaser_tick(1.0, 0.5, 1.0, 0.0);
    room_phaser state = phaser_of_one_number(0.0, 0.0, RATE);
    unsigned i;
    state.allpass_y1_l[5] = 32.0;
    state.allpass_y1_r[5] = -64.0;
    for (i = 0; i < 3u; i++) {
        check(goes_as_the_paper(&state, staged(t, 0.0)), "ticks with two all-passes", i);
    }
    check(same(state.allpass_y1_l[5], 32.0) && same(state.allpass_y1_r[5], -64.0), "the sixth keeps its last output", 0);
    t.audio = room_set(4.0);
    run(&state, t, 0.0, 0.0, "the first tick with six again", 0);
    check(same(state.allpass_x1_l[0], 20.0) && same(state.allpass_x1_r[0], -28.0), "4 + 32 x 0.5 and 4 - 64 x 0.5 go in", 0);
    check(same(state.allpass_y1_l[5], 0.0) && same(state.allpass_y1_r[5], 0.0), "and the sixth goes on", 0);
}

/* All-passes that are not in use keep both numbers to the bit, NaNs too, and count in the question. */
static void idle(void)
{
    room_phaser state = unusual_phaser();
    int silent = 7;
    unsigned i;
    check(goes_as_the_paper(&state, staged(phaser_tick(1.0, 0.9, 0.5, 0.25), 0.0)), "a tick over odd numbers, two", 0);
    state = unusual_phaser();
    check(goes_as_the_paper(&state, staged(phaser_tick(1.0, 0.9, 0.5, 0.25), 0.5)), "a tick over odd numbers, four", 0);
    state = phaser_of_one_number(0.0, 0.0, RATE);
    check(goes_as_the_paper(&state, phaser_tick(1.0, 0.0, 0.5, 0.0)), "a sound into six", 0);
    for (i = 0; i < 10u; i++) {
        check(goes_as_the_paper(&state, phaser_tick(0.0, 0.0, 0.5, 0.0)), "it goes through six", i);
        check(room_phaser_silent(&state, &silent) == 0 && silent == (i >= 6u), "and is gone after the sixth", i);
    }
    state.allpass_x1_r[3] = SMALLEST;
    for (i = 0; i < 3u; i++) {
        run(&state, staged(phaser_tick(0.0, 0.0, 1.0, 0.0), 0.0), 0.0, 0.0, "two of six play +0", i);
        check(room_phaser_silent(&state, &silent) == 0 && silent == 0, "an idle one keeps it from silence", i);
    }
    run(&state, staged(phaser_tick(0.0, 0.0, 1.0, 0.0), 0.5), 0.0, SMALLEST, "and sounds once it is in use again", 0);
}

/* One all-pass: ((c x g) + x1) - (c x y1), each operation rounded once, in this order. */
static void one_allpass(double coef, double g, double x1, double y1, double y, const char *what, unsigned i)
{
    room_phaser state = phaser_of_one_number(0.0, 0.0, RATE);
    struct tick_of_phaser t = staged(phaser_tick(g, 0.0, 0.0, coef), 0.0);
    state.allpass_x1_l[0] = state.allpass_x1_r[0] = x1;
    state.allpass_y1_l[0] = state.allpass_y1_r[0] = y1;
    check(goes_as_the_paper(&state, t), what, i);
    check(plays(state.allpass_y1_l[0], y) && plays(state.allpass_y1_r[0], y), what, i);
    check(same(state.allpass_x1_l[0], g) && same(state.allpass_x1_r[0], g), "its input is kept", i);
}

static void operations(void)
{
    const double large = 9007199254740992.0; /* 2^53: plus 1 it is a tie, which goes to 2^53 */
    one_allpass(0.5, 4.0, 1.0, 8.0, -1.0, "0.5 x 4 + 1 - 0.5 x 8", 0);
    one_allpass(-0.25, 4.0, 1.0, 8.0, 2.0, "-0.25 x 4 + 1 + 0.25 x 8", 1);
    one_allpass(1.0, 1.0, large, 1.0, large - 1.0, "(1 x 1 + 2^53) - 1 x 1", 2);
    one_allpass(0.5, SMALLEST, 0.0, -SMALLEST, 0.0, "each product is rounded", 3);
    one_allpass(1.0, DBL_MAX, DBL_MAX, DBL_MAX, (double)INFINITY, "the sum overflows before the difference", 4);
    one_allpass(0.0, 1.0, 1.0, (double)INFINITY, (double)NAN, "0 x infinity", 5);
    one_allpass(-1.0, 1.0, 4.0, 2.0, 5.0, "a coefficient of -1", 6);
    one_allpass(1.0, 1.0, 4.0, 2.0, 3.0, "a coefficient of 1", 7);
    one_allpass(-0.0, -1.0, -0.0, 1.0, 0.0, "a coefficient of -0: 0 + -0 - -0", 8);
    one_allpass(0.0, -1.0, -0.0, 1.0, -0.0, "a coefficient of 0: -0 + -0 - 0", 9);
}

/* A unit with distinct numbers plays 6 and 12 with a coefficient of 0. */
static void mixes(void)
{
    const struct numbers above = at_least_one();
    const struct numbers below = at_most_zero();
    const struct numbers unset = not_read();
    room_phaser state = counted_phaser();
    struct tick_of_phaser t;
    unsigned i;
    run(&state, phaser_tick(2.0, 0.0, 0.25, 0.0), 3.0, 4.5, "mix 0.25 is three parts dry", 0);
    for (i = 0; i < above.count; i++) {
        state = counted_phaser();
        run(&state, phaser_tick(2.0, 0.0, above.list[i], 0.0), 6.0, 12.0, "mix is at most 1", i);
        state = counted_phaser();
        run(&state, phaser_tick(2.0, 0.0, below.list[i], 0.0), 2.0, 2.0, "mix is at least 0", i);
    }
    for (i = 0; i < unset.count; i++) {
        state = counted_phaser();
        t = phaser_tick(2.0, 0.0, unset.list[i], 0.0);
        t.mix.set = 0;
        run(&state, t, 4.0, 7.0, "unset mix is 0.5", i);
    }
    state = phaser_of_one_number(1.0, 0.0, RATE);
    run(&state, phaser_tick(-0.0, 0.0, -0.0, 0.0), -0.0, -0.0, "a mix of -0 leaves audio of -0", 0);
    state = phaser_of_one_number(1.0, 0.0, RATE);
    run(&state, phaser_tick(-0.0, 0.0, 0.0, 0.0), 0.0, 0.0, "a mix of +0 makes it +0", 1);
}

/* What goes into a chain is seen in the first last input; a last output of 2 is fed back. */
static void goes_in(struct tick_of_phaser t, double first, const char *what, unsigned i)
{
    room_phaser state = phaser_of_one_number(2.0, 0.0, RATE);
    check(goes_as_the_paper(&state, t), what, i);
    check(same(state.allpass_x1_l[0], first) && same(state.allpass_x1_r[0], first), what, i);
}

static void inputs(void)
{
    const double infinity = (double)INFINITY;
    const struct numbers not_finite = {4, {(double)NAN, ODD_NAN, infinity, -infinity}};
    const struct numbers above = {6, {0.95, farther(0.95), 0.99, 1.0, DBL_MAX, infinity}};
    const struct numbers below = {6, {-0.95, farther(-0.95), -0.99, -1.0, -DBL_MAX, -infinity}};
    const struct numbers unset = not_read();
    unsigned i;
    for (i = 0; i < not_finite.count; i++) {
        room_phaser state = counted_phaser();
        goes_in(phaser_tick(not_finite.list[i], 0.5, 0.5, 0.5), 1.0, "audio that is not finite counts as +0", i);
        run(&state, phaser_tick(not_finite.list[i], 0.5, 0.0, 0.0), 0.0, 0.0, "dry too", i);
    }
    goes_in(phaser_tick(DBL_MAX, 0.0, 0.5, 0.5), DBL_MAX, "the largest audio", 0);
    goes_in(phaser_tick(-SMALLEST, 0.0, 0.5, 0.5), -SMALLEST, "the smallest audio", 0);
    goes_in(phaser_tick(-0.0, -0.0, 0.5, 0.5), -0.0, "audio of -0, and a feedback that stays -0", 0);
    goes_in(phaser_tick(-0.0, 0.0, 0.5, 0.5), 0.0, "audio of -0, and a feedback of +0", 0);
    goes_in(phaser_tick(1.0, -0.5, 0.5, 0.5), 0.0, "a feedback below 0", 0);
    for (i = 0; i < above.count; i++) {
        goes_in(phaser_tick(1.0, above.list[i], 0.5, 0.5), 1.0 + 2.0 * 0.95, "feedback is at most 0.95", i);
        goes_in(phaser_tick(1.0, below.list[i], 0.5, 0.5), 1.0 - 2.0 * 0.95, "feedback is at least -0.95", i);
    }
    for (i = 0; i < unset.count; i++) {
        struct tick_of_phaser t = phaser_tick(1.0, unset.list[i], 0.5, 0.5);
        t.feedback.set = 0;
        goes_in(t, 1.0, "unset feedback is 0", i);
        t = phaser_tick(unset.list[i], 0.5, 0.5, 0.5);
        t.audio.set = 0;
        goes_in(t, 1.0, "unset audio is 0", i);
    }
}

/* Ends of the curve numbers; the phase moves on by frequency / rate and goes round. */
static void curves(void)
{
    const double ends[] = {-1.0, 1.0, 0.0, -0.0, SMALLEST, nearer(1.0), nearer(-1.0)};
    const struct {
        double phase, frequency, next;
    } moves[] = {
        {0.25, 0.0, 0.25},
        {0.25, -0.0, 0.25},
        {0.25, SMALLEST, 0.25},
        {-0.0, -0.0, -0.0},
        {0.25, 31.25, 0.25390625},
        {0.5, 32.0, 0.5 + 32.0 / 8000.0},
        {0.99609375, 31.25, 0.0},          /* to 1 and so to 0 */
        {0.998046875, 31.25, 0.001953125}, /* beyond 1 */
    };
    unsigned i, k;
    for (i = 0; i < COUNT(ends); i++) {
        for (k = 0; k < COUNT(ends); k++) {
            room_phaser state = counted_phaser();
            struct tick_of_phaser t = phaser_tick(4.0, 0.5, 0.5, ends[i]);
            t.coef_r = ends[k];
            check(goes_as_the_paper(&state, t), "coefficients from -1 to 1", 10u * i + k);
        }
    }
    for (i = 0; i < COUNT(moves); i++) {
        room_phaser state = counted_phaser();
        struct tick_of_phaser t = phaser_tick(4.0, 0.5, 0.5, 0.5);
        t.frequency = moves[i].frequency;
        state.lfo_phase = moves[i].phase;
        check(goes_as_the_paper(&state, t) && same(state.lfo_phase, moves[i].next), "the phase moves on and goes round", i);
    }
}

/* The exported function by itself: bits of the mask beyond the four ports are not read. */
static void mask(void)
{
    const double nan_ = (double)NAN;
    const uint32_t unread = UINT32_C(0xfffffff0);
    room_phaser s = counted_phaser();
    double out[3] = {JUNK, JUNK, JUNK};
    check(room_raw_phaser_tick(s.allpass_x1_l, s.allpass_x1_r, s.allpass_y1_l, s.allpass_y1_r, &s.lfo_phase, RATE, unread | 1u,
                               2.0, nan_, nan_, nan_, 0.0, 0.0, 0.0, out) == 0,
          "audio and the other bits", 0);
    check(same(out[0], 4.0) && same(out[1], 4.0) && same(out[2], 7.0), "audio and the other bits: controls are unset", 0);
    s = counted_phaser();
    check(room_raw_phaser_tick(s.allpass_x1_l, s.allpass_x1_r, s.allpass_y1_l, s.allpass_y1_r, &s.lfo_phase, RATE, 8u | 4u,
                               nan_, nan_, 1.0, 0.0, 0.0, 0.0, 0.0, out) == 0,
          "mix and stages alone", 0);
    check(same(out[0], 2.0) && same(out[2], 8.0) && same(s.allpass_x1_l[0], 0.0), "mix and stages alone: the rest is unset", 0);
}

void phaser_ticks(void)
{
    impulse();
    stages();
    stages_rise();
    idle();
    operations();
    mixes();
    inputs();
    curves();
    mask();
}
