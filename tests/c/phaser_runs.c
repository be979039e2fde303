/* Long runs of the phaser: random ticks beside the paper, and numbers that overflow. */
#include "phaser.h"

static uint64_t stream = 1;

static uint64_t drawn(uint64_t n)
{
    stream = stream * UINT64_C(6364136223846793005) + UINT64_C(1442695040888963407);
    return (stream >> 33) % n;
}

static double from_to(double low, double high)
{
    return low + (high - low) * ((double)drawn(UINT64_C(1) << 31) / 2147483648.0);
}

/* Of four in five a number in the range, else one that clamps, tests and roundings have to get right. */
static double number(double low, double high)
{
    const double unusual[] = {0.0, -0.0, 0.33, 0.66, 0.95, -0.95, 1.0, -1.0, SMALLEST, -SMALLEST};
    return drawn(5) == 0u ? unusual[drawn(COUNT(unusual))] : from_to(low, high);
}

static room_port port(double value)
{
    room_port p = room_set(value);
    p.set = drawn(8) != 0u;
    return p;
}

static struct tick_of_phaser random_tick(void)
{
    const double audio[] = {(double)NAN, (double)INFINITY, -(double)INFINITY, DBL_MAX, 1e-310, 1e300};
    struct tick_of_phaser t;
    t.audio = port(drawn(100) == 0u ? audio[drawn(COUNT(audio))] : number(-5.0, 5.0));
    t.feedback = port(number(-1.2, 1.2));
    t.mix = port(number(-0.2, 1.2));
    t.stages = port(number(-0.2, 1.2));
    t.frequency = from_to(0.0, 32.0);
    t.coef_l = number(-1.0, 1.0);
    t.coef_r = number(-1.0, 1.0);
    return t;
}

/* Chains of ticks, from a start and from unusual numbers; a chain ends before most of it is NaN. */
static void random_ticks(void)
{
    room_phaser state = unusual_phaser();
    unsigned wrong = 0;
    unsigned i;
    for (i = 0; i < 200000u; i++) {
        if (drawn(100) == 0u) {
            state = drawn(4) == 0u ? unusual_phaser()
                                   : phaser_of_one_number(number(-2.0, 2.0), from_to(0.0, 1.0), from_to(8000.0, 192000.0));
        }
        wrong += goes_as_the_paper(&state, random_tick()) == 0;
    }
    check(wrong == 0u, "random ticks go as the paper has them: so many do not", wrong);
}

static int is_silent(const room_phaser *state)
{
    int silent = 7;
    check(room_phaser_silent(state, &silent) == 0, "silent after an overflow", 0);
    return silent;
}

/* Two ticks of the largest audio overflow, the third is NaN; so it stays, whatever comes, until a reset. */
static void overflow(void)
{
    const double infinity = (double)INFINITY;
    const double nan_ = (double)NAN;
    const double should[] = {DBL_MAX, infinity, nan_, nan_};
    const struct tick_of_phaser quiet = phaser_tick(0.0, 0.0, 0.5, 0.25);
    room_phaser state;
    double out[3];
    unsigned i;
    check(room_phaser_start(&state, RATE) == 0, "start for an overflow", 0);
    for (i = 0; i < COUNT(should); i++) {
        const struct tick_of_phaser t = phaser_tick(DBL_MAX, 0.0, 1.0, 1.0);
        check(phaser_ticked(&state, &t, out) == 0, "ticks of the largest audio", i);
        check(plays(out[0], should[i]) && plays(out[1], should[i]) && plays(out[2], should[i]), "they overflow", i);
    }
    for (i = 0; i < 1000u; i++) {
        const struct tick_of_phaser t = phaser_tick(0.0, 0.0, i % 2u == 0u ? 0.0 : 1.0, 0.25);
        check(phaser_ticked(&state, &t, out) == 0 && isnan(out[0]) && isnan(out[1]) && isnan(out[2]), "it stays NaN", i);
    }
    check(is_silent(&state) == 0, "NaN is not silent", 0);
    check(room_phaser_reset(&state) == 0 && is_silent(&state) == 1, "a reset ends it", 0);
    check(phaser_ticked(&state, &quiet, out) == 0, "tick after that reset", 0);
    check(same(out[0], 0.0) && same(out[1], 0.0) && same(out[2], 0.0), "which plays +0", 0);
}

/* Coefficients that jump, with the largest feedback: audio from -5 to 5 overflows too. */
static void jumps(void)
{
    room_phaser state = phaser_of_one_number(0.0, 0.0, RATE);
    double out[3] = {0.0, 0.0, 0.0};
    uint32_t refused = 0;
    unsigned i;
    for (i = 0; i < 100000u && isfinite(out[1]) && isfinite(out[2]); i++) {
        struct tick_of_phaser t = phaser_tick(from_to(-5.0, 5.0), 0.95, 0.5, from_to(-1.0, 1.0));
        t.coef_r = from_to(-1.0, 1.0);
        refused |= phaser_ticked(&state, &t, out);
    }
    check(refused == 0u, "ticks with coefficients that jump", i);
    check(!isfinite(out[1]) || !isfinite(out[2]), "they overflow too", i);
}

void phaser_runs(void)
{
    random_ticks();
    overflow();
    jumps();
}
