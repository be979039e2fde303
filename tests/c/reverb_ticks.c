/* The accepted ticks of the reverb. */
#include "reverb.h"

/* Controls by which a comb's damping is 0.25 and its feedback 0.5, each rounded once. */
#define QUARTER 0.625
#define HALF (0.22 / 0.7)

/* +0 in every place of the tank, and junk behind it. */
static void quiet_tank(void)
{
    unsigned i;
    fill_tank();
    for (i = 0; i < TANK; i++) {
        tank[i] = 0.0;
    }
}

/* The place at which a line stands. */
static double *at_pos(room_reverb *state, unsigned line)
{
    return &tank[line_start(line) + *line_pos(state, line)];
}

/* Runs the tick in the tank as it is: the samples, a NaN standing for any. */
static void tick_plays(room_reverb *state, struct tick_of_reverb t, double left, double right, const char *what, unsigned i)
{
    double out[2] = {JUNK, JUNK};
    check(reverb_ticked(state, TANK, &t, out) == 0, what, i);
    check(plays(out[0], left) && plays(out[1], right), what, i);
}

/* Document 01: a comb that holds 4, store 0, damping 0.25, feedback 0.5, input 1 answers 4, store 3, writes 2.5; an all-pass
   that holds 1, input 2, answers -1 and writes 2.5. The combs that hold 4 and 12 sum to 2, on the right 1 and 15. */
static void bench_cases(void)
{
    const room_reverb before = cleared_reverb(8000.0);
    room_reverb state = before;
    quiet_tank();
    *at_pos(&state, 0) = 4.0;
    *at_pos(&state, 1u) = 12.0;
    *at_pos(&state, RIGHT_COMB) = 1.0;
    *at_pos(&state, RIGHT_COMB + 7u) = 15.0;
    *at_pos(&state, LEFT_ALLPASS) = 1.0;
    *at_pos(&state, RIGHT_ALLPASS) = 1.0;
    tick_plays(&state, reverb_tick(1.0, HALF, QUARTER, 1.0), 1.0, 1.0, "the bench cases play", 0);
    check(same(state.comb_filter_state_l[0], 3.0) && same(tank[0], 2.5), "a comb that holds 4: store 3, writes 2.5", 0);
    check(same(state.comb_filter_state_l[1], 9.0) && same(tank[4096], 5.5), "a comb that holds 12", 0);
    check(same(state.comb_filter_state_r[0], 0.75) && same(tank[32768], 1.375), "a comb that holds 1", 0);
    check(same(state.comb_filter_state_r[7], 11.25) && same(tank[61440], 6.625), "a comb that holds 15", 0);
    check(same(state.comb_filter_state_l[7], 0.0) && same(tank[28672], 1.0), "a comb that holds 0", 0);
    check(same(tank[65536], 2.5) && same(tank[71536], 2.5), "an all-pass that holds 1, input 2, writes 2.5", 0);
    check(same(tank[67036], -1.0) && same(tank[73036], -1.0), "it answers -1, which the second gets and writes", 0);
    check(same(tank[68536], 1.0) && same(tank[70036], -1.0), "the second answers 1, the third -1", 0);
    check(same(tank[77536], 1.0), "the predelay holds the audio", 0);
    state = before;
    quiet_tank();
    state.comb_filter_state_l[3] = 8.0;
    *at_pos(&state, 3u) = 4.0;
    tick_plays(&state, reverb_tick(0.0, HALF, QUARTER, 1.0), 0.5, 0.0, "a store is damped", 1);
    check(same(state.comb_filter_state_l[3], 5.0) && same(tank[3u * 4096u], 2.5), "4 x 0.75 + 8 x 0.25, fed back", 1);
}

/* Each line written at its position and nowhere else; each position one on, and from the last place in use back to 0; and the
   count by the places in use, of which all that are written sound before. */
static void moves_at(const struct tuning *at, unsigned which)
{
    const struct tick_of_reverb t = reverb_tick(4.0, 0.5, 0.25, 0.5);
    room_reverb states[3];
    unsigned i, line, k;
    states[0] = cleared_reverb(at->rate);
    states[1] = varied_reverb(at);
    states[2] = varied_reverb(at);
    for (line = 0; line < LINES; line++) {
        *line_pos(&states[2], line) = line_length(at, line) - 1u;
    }
    for (i = 0; i < COUNT(states); i++) {
        room_reverb state = states[i];
        double out[2] = {JUNK, JUNK};
        uint32_t count;
        fill_tank();
        for (line = 0; line < LINES; line++) {
            *at_pos(&states[i], line) = 0.25;
        }
        count = nonzero_in_tank(at, tank);
        check(reverb_ticked(&state, TANK + 1u, &t, out) == 0, "tick at positions", 10u * which + i);
        count = count_after(states[i].nonzero_places, count, nonzero_in_tank(at, tank), tank_in_use(at));
        check(state.nonzero_places == count, "the count goes by the places in use", 10u * which + i);
        for (line = 0; line < LINES; line++) {
            const uint32_t next = (*line_pos(&states[i], line) + 1u) % line_length(at, line);
            check(*line_pos(&state, line) == next, "a position moves on", 1000u * which + 10u * line + i);
            check(!same(*at_pos(&states[i], line), 0.25), "a line is written", 1000u * which + 10u * line + i);
            *at_pos(&states[i], line) = filled(line_start(line) + *line_pos(&states[i], line));
        }
        check(tank_kept(), "no other place is written", 10u * which + i);
        check(same(state.sample_rate, at->rate), "the rate stays", 10u * which + i);
        for (k = 0; k < 8u; k++) {
            const double store_l = 0.25 * (1.0 - 0.25 * 0.4) + states[i].comb_filter_state_l[k] * (0.25 * 0.4);
            const double store_r = 0.25 * (1.0 - 0.25 * 0.4) + states[i].comb_filter_state_r[k] * (0.25 * 0.4);
            check(plays(state.comb_filter_state_l[k], store_l) && plays(state.comb_filter_state_r[k], store_r),
                  "a store moves", 100u * which + 10u * i + k);
        }
    }
}

/* What the combs get: a predelay of so many samples from this position at this rate, where the place `back` holds 9. */
static void predelayed(double rate, double control, uint32_t pos, unsigned back, const char *what, unsigned i)
{
    room_reverb state = cleared_reverb(rate);
    struct tick_of_reverb t = reverb_tick(2.0, 0.5, 0.5, 0.0);
    unsigned k;
    quiet_tank();
    for (k = 0; k < 9600u; k++) {
        tank[77536u + k] = 5.0;
    }
    state.predelay_pos = pos;
    t.predelay = room_set(control);
    tank[77536u + (pos + 9600u - back) % 9600u] = 9.0;
    tick_plays(&state, t, 2.0, 2.0, what, i);
    check(same(tank[0], back == 0u ? 2.0 : 9.0) && same(tank[61440], back == 0u ? 2.0 : 9.0), what, i);
    check(same(tank[77536u + pos], 2.0), "the predelay holds the audio", i);
}

static void predelays(void)
{
    const double none[] = {0.0, -0.0, SMALLEST, -SMALLEST, -1.0, -(double)INFINITY, 0.00124};
    const double all[] = {1.0, nearer(1.0), farther(1.0), 2.0, DBL_MAX, (double)INFINITY};
    const uint32_t positions[] = {0, 3u, 501u, 502u, 9598u, 9599u};
    unsigned i, k;
    for (k = 0; k < COUNT(positions); k++) {
        const uint32_t pos = positions[k];
        for (i = 0; i < COUNT(none); i++) {
            predelayed(8000.0, none[i], pos, 0, "a delay of 0 samples passes the audio itself", 10u * k + i);
        }
        predelayed(8000.0, 0.00126, pos, 1u, "one sample back", k);
        predelayed(8000.0, 0.0065, pos, 5u, "5 samples back", k);
        predelayed(8000.0, 0.6275, pos, 502u, "control x 0.1 comes first: 502 samples", k);
        predelayed(8000.0, 1.0, pos, 800u, "800 samples at 8,000", k);
        predelayed(44100.0, 1.0, pos, 4410u, "4,410 samples at 44,100", k);
        predelayed(95990.0, 1.0, pos, 9599u, "9,599 samples at 95,990", k);
        for (i = 0; i < COUNT(all); i++) {
            predelayed(96000.0, all[i], pos, 9599u, "9,599 samples at 96,000, one less than 9,600", 10u * k + i);
            predelayed(192000.0, all[i], pos, 9599u, "9,599 samples at 192,000", 10u * k + i);
        }
        predelayed(192000.0, 0.25, pos, 4800u, "4,800 samples at 192,000", k);
    }
    predelayed(8000.0, 0.0065, 3u, 5u, "position 3, 5 samples back", 0);
    check(same(tank[77536u + 9598u], 9.0), "that is place 9,598", 0);
}

/* The tank plays 12 left and 20 right, and stores what the controls say. */
static room_reverb playing(void)
{
    room_reverb state = cleared_reverb(8000.0);
    quiet_tank();
    *at_pos(&state, 0) = 96.0;
    *at_pos(&state, RIGHT_COMB) = 160.0;
    return state;
}

static void mixes(void)
{
    const struct numbers above = at_least_one();
    const struct numbers below = at_most_zero();
    const struct numbers unset = not_read();
    const double audios[] = {(double)NAN, ODD_NAN, (double)INFINITY, -(double)INFINITY};
    room_reverb state;
    struct tick_of_reverb t;
    unsigned i;
    state = playing();
    tick_plays(&state, reverb_tick(1.0, 0.5, 0.5, 0.25), 3.75, 5.75, "mix 0.25 is three parts dry", 0);
    for (i = 0; i < above.count; i++) {
        state = playing();
        tick_plays(&state, reverb_tick(1.0, 0.5, 0.5, above.list[i]), 12.0, 20.0, "mix is at most 1", i);
        state = playing();
        tick_plays(&state, reverb_tick(1.0, 0.5, 0.5, below.list[i]), 1.0, 1.0, "mix is at least 0", i);
    }
    for (i = 0; i < COUNT(audios); i++) {
        state = playing();
        tick_plays(&state, reverb_tick(audios[i], 0.5, 0.5, 0.5), 6.0, 10.0, "audio that is not finite counts as 0", i);
        check(same(tank[77536], 0.0) && same(tank[4096], 0.0), "and is stored as +0", i);
    }
    for (i = 0; i < unset.count; i++) {
        state = playing();
        t = reverb_tick(1.0, 0.5, 0.5, unset.list[i]);
        t.mix.set = 0;
        tick_plays(&state, t, 6.5, 10.5, "unset mix is 0.5", i);
        state = playing();
        t = reverb_tick(unset.list[i], 0.5, 0.5, 0.5);
        t.audio.set = 0;
        tick_plays(&state, t, 6.0, 10.0, "unset audio is 0", i);
        check(same(tank[77536], 0.0), "unset audio is stored as +0", i);
        state = playing();
        t = reverb_tick(1.0, 0.5, 0.5, 0.5);
        t.predelay = room_set(unset.list[i]);
        t.predelay.set = 0;
        tick_plays(&state, t, 6.5, 10.5, "unset predelay", i);
        check(same(tank[4096], 1.0), "unset predelay is 0", i);
    }
}

/* Size and damping are seen by what a comb stores and writes, here of an answer of 96 and a store of 8. */
static void comb_goes(struct tick_of_reverb t, double damp, double feedback, const char *what, unsigned i)
{
    const double store = 96.0 * (1.0 - damp) + 8.0 * damp;
    room_reverb state = playing();
    state.comb_filter_state_l[0] = 8.0;
    tick_plays(&state, t, 6.5, 10.5, what, i);
    check(same(state.comb_filter_state_l[0], store), what, i);
    check(same(tank[0], 1.0 + store * feedback), what, i);
}

static void combs(void)
{
    const struct numbers above = at_least_one();
    const struct numbers below = at_most_zero();
    const struct numbers unset = not_read();
    unsigned i;
    for (i = 0; i < above.count; i++) {
        comb_goes(reverb_tick(1.0, above.list[i], 0.0, 0.5), 0.0, 0.28 + 0.7, "size is at most 1: feedback 0.98", i);
        comb_goes(reverb_tick(1.0, below.list[i], 0.0, 0.5), 0.0, 0.28, "size is at least 0: feedback 0.28", i);
        comb_goes(reverb_tick(1.0, 0.0, above.list[i], 0.5), 0.4, 0.28, "damping is at most 1: 0.4", i);
        comb_goes(reverb_tick(1.0, 0.0, below.list[i], 0.5), 0.0, 0.28, "damping is at least 0", i);
    }
    comb_goes(reverb_tick(1.0, 0.5, 0.25, 0.5), 0.25 * 0.4, 0.28 + 0.5 * 0.7, "size 0.5, damping 0.25", 0);
    comb_goes(reverb_tick(1.0, 0.25, 0.5, 0.5), 0.5 * 0.4, 0.28 + 0.25 * 0.7, "size 0.25, damping 0.5", 1);
    for (i = 0; i < unset.count; i++) {
        struct tick_of_reverb t = reverb_tick(1.0, unset.list[i], 0.25, 0.5);
        t.size.set = 0;
        comb_goes(t, 0.25 * 0.4, 0.28 + 0.5 * 0.7, "unset size is 0.5", i);
        t = reverb_tick(1.0, 0.25, unset.list[i], 0.5);
        t.damping.set = 0;
        comb_goes(t, 0.5 * 0.4, 0.28 + 0.25 * 0.7, "unset damping is 0.5", i);
    }
}

/* Zeros by their signs: the sum of the combs starts from +0, and a control of -0 stays -0. */
static void zeros(void)
{
    room_reverb state = cleared_reverb(8000.0);
    unsigned i;
    quiet_tank();
    for (i = 0; i < PREDELAY; i++) {
        *at_pos(&state, i) = -0.0;
    }
    tick_plays(&state, reverb_tick(-0.0, 0.5, 0.0, 1.0), 0.0, 0.0, "combs of -0 sum to +0", 0);
    check(same(tank[65536], 0.0) && same(tank[71536], 0.0), "+0 goes into the first all-passes", 0);
    check(same(tank[77536], -0.0), "audio of -0 is stored", 0);
    check(same(tank[0], 0.0), "-0 + (-0 x 1 + 0 x 0) x feedback", 0);
    state = cleared_reverb(8000.0);
    quiet_tank();
    tick_plays(&state, reverb_tick(-0.0, 0.5, 0.5, 0.0), 0.0, 0.0, "a mix of +0 makes +0 of audio of -0", 1);
    state = cleared_reverb(8000.0);
    quiet_tank();
    tick_plays(&state, reverb_tick(-0.0, 0.5, 0.5, -0.0), -0.0, -0.0, "a mix of -0 leaves it -0", 2);
    state = cleared_reverb(8000.0);
    quiet_tank();
    state.comb_filter_state_l[0] = 1.0;
    *at_pos(&state, 0) = -0.0;
    tick_plays(&state, reverb_tick(0.0, 0.5, -0.0, 0.5), 0.0, 0.0, "a damping of -0", 3);
    check(same(state.comb_filter_state_l[0], -0.0), "-0 x 1 + 1 x -0", 3);
    state = cleared_reverb(8000.0);
    quiet_tank();
    state.comb_filter_state_l[0] = 1.0;
    *at_pos(&state, 0) = -0.0;
    tick_plays(&state, reverb_tick(0.0, 0.5, 0.0, 0.5), 0.0, 0.0, "a damping of +0", 4);
    check(same(state.comb_filter_state_l[0], 0.0), "-0 x 1 + 1 x +0", 4);
}

/* Samples and stores that are not finite are taken as they are. */
static void not_finite_combs(void)
{
    const double infinity = (double)INFINITY;
    room_reverb state;
    unsigned line;
    for (line = 0; line < LEFT_ALLPASS; line++) {
        const int left = line < RIGHT_COMB;
        double *store;
        state = cleared_reverb(8000.0);
        store = left ? &state.comb_filter_state_l[line] : &state.comb_filter_state_r[line - RIGHT_COMB];
        quiet_tank();
        *store = infinity;
        tick_plays(&state, reverb_tick(0.0, 0.5, 0.5, 0.5), 0.0, 0.0, "a store of infinity is not heard at once", line);
        check(same(*store, infinity) && same(tank[line_start(line)], infinity), "it stays and is fed back", line);
        *line_pos(&state, line) = 0;
        tick_plays(&state, reverb_tick(0.0, 0.5, 0.5, 0.5), left ? infinity : 0.0, left ? 0.0 : infinity,
                   "a sample of infinity is played", line);
        state = cleared_reverb(8000.0);
        store = left ? &state.comb_filter_state_l[line] : &state.comb_filter_state_r[line - RIGHT_COMB];
        quiet_tank();
        *store = ODD_NAN;
        tick_plays(&state, reverb_tick(0.0, 0.5, 0.0, 0.5), 0.0, 0.0, "a store of NaN is not heard at once", line);
        check(isnan(*store) && isnan(tank[line_start(line)]), "a store of NaN stays, at a damping of 0 too", line);
    }
}

static void not_finite_allpasses(void)
{
    const double nan_ = (double)NAN;
    unsigned line;
    for (line = LEFT_ALLPASS; line < PREDELAY; line++) {
        const int left = line < RIGHT_ALLPASS;
        room_reverb state = cleared_reverb(8000.0);
        quiet_tank();
        *at_pos(&state, line) = nan_;
        tick_plays(&state, reverb_tick(1.0, 0.5, 0.5, 0.0), left ? nan_ : 1.0, left ? 1.0 : nan_,
                   "a sample of NaN is multiplied by a mix of 0 too", line);
        check(isnan(tank[line_start(line)]), "it stays in its all-pass", line);
    }
}

static void huge_samples(void)
{
    const double infinity = (double)INFINITY;
    room_reverb state = cleared_reverb(8000.0);
    quiet_tank();
    *at_pos(&state, 0) = DBL_MAX;
    *at_pos(&state, 1u) = DBL_MAX;
    tick_plays(&state, reverb_tick(DBL_MAX, 1.0, 0.0, 0.5), infinity, DBL_MAX / 2.0, "huge samples overflow in the sum", 0);
    check(same(tank[0], infinity), "and in the feedback", 0);
}

/* From a start: an impulse comes out of each side's shortest comb first, an eighth as loud, the right one later by the spread,
   both later by the predelay; then it dies away, and the unit is silent at last. */
static void echo(void)
{
    const double controls[] = {0.0, 0.0065};
    unsigned k, i;
    for (k = 0; k < COUNT(controls); k++) {
        const unsigned later = 5u * k;
        struct tick_of_reverb t = reverb_tick(1.0, 0.0, 0.0, 1.0);
        room_reverb state;
        double out[2] = {JUNK, JUNK};
        int yes = 7;
        fill_tank();
        t.predelay = room_set(controls[k]);
        check(room_reverb_start(&state, tank, TANK, 8000.0) == 0, "start for an echo", k);
        check(room_reverb_silent(&state, &yes) == 0 && yes == 1, "silent after the start", k);
        for (i = 0; i <= 206u + later; i++) {
            const double left = i == 202u + later ? 0.125 : 0.0;
            const double right = i == 206u + later ? 0.125 : 0.0;
            check(reverb_ticked(&state, TANK, &t, out) == 0, "tick of an echo", i);
            check(same(out[0], left) && same(out[1], right), "an impulse comes out by the shortest comb", i);
            t.audio = room_set(0.0);
        }
        check(room_reverb_silent(&state, &yes) == 0 && yes == 0, "an echo sounds", k);
        for (i = 0; i < 1000u && yes == 0; i++) {
            unsigned n;
            uint32_t refused = 0;
            for (n = 0; n < 1000u; n++) {
                refused |= reverb_ticked(&state, TANK, &t, out);
            }
            check(refused == 0, "ticks of a dying echo", i);
            check(room_reverb_silent(&state, &yes) == 0, "whether it still sounds", i);
        }
        check(yes == 1 && i > 100u, "it dies away", i);
        check(room_reverb_reset(&state, tank, TANK) == 0, "reset of an echo", k);
    }
}

/* The exported function by itself: bits of the mask beyond the five ports are not read. */
static void mask(void)
{
    const double nan_ = (double)NAN;
    room_reverb state = playing();
    double out[2] = {JUNK, JUNK};
    check(room_raw_reverb_tick(state.comb_pos_l, state.comb_pos_r, state.allpass_pos_l, state.allpass_pos_r,
                               &state.predelay_pos, &state.nonzero_places, state.comb_filter_state_l,
                               state.comb_filter_state_r, 8000.0, tank, TANK, UINT32_C(0xffffffe1), 1.0, nan_, nan_, nan_,
                               nan_, out) == 0,
          "audio and the other bits", 0);
    check(same(out[0], 6.5) && same(out[1], 10.5), "audio and the other bits: controls are unset", 0);
    check(state.predelay_pos == 1u && same(tank[77536], 1.0), "audio and the others: it leaves", 0);
    check(state.nonzero_places == 23u, "of the 25 places written two sounded before", 0);
}

void reverb_ticks(void)
{
    unsigned i;
    bench_cases();
    for (i = 0; i < TUNINGS; i++) {
        moves_at(&tunings[i], i);
    }
    predelays();
    mixes();
    combs();
    zeros();
    not_finite_combs();
    not_finite_allpasses();
    huge_samples();
    echo();
    mask();
}
