/* The reverb: its clearings, its refusals and their order. reverb_silent.c has the question, reverb_ticks.c the ticks. */
#include "reverb.h"

#include <string.h>

double tank[TANK_ROOM];
static double as_filled[TANK_ROOM];

double filled(unsigned place)
{
    return place % 7u == 3u ? ODD_NAN : place % 5u == 0u ? -0.0 : 1000.0 + place;
}

void fill_tank(void)
{
    if (!same(as_filled[1], filled(1u))) {
        unsigned i;
        for (i = 0; i < TANK_ROOM; i++) {
            as_filled[i] = filled(i);
        }
    }
    memcpy(tank, as_filled, sizeof tank);
}

int tank_kept(void)
{
    return all_same(tank, as_filled, TANK_ROOM);
}

/* Whether these places hold +0, and those beyond them what `fill_tank` left. */
static int tank_cleared(unsigned places)
{
    unsigned i;
    for (i = 0; i < places; i++) {
        if (!same(tank[i], 0.0)) {
            return 0;
        }
    }
    return all_same(tank + places, as_filled + places, TANK_ROOM - places);
}

/* States */

/* Every number of it the same, but for the rate. */
static room_reverb even_reverb(uint32_t whole, double store, double rate)
{
    room_reverb state;
    unsigned i;
    for (i = 0; i < LINES; i++) {
        *line_pos(&state, i) = whole;
    }
    state.nonzero_places = whole;
    for (i = 0; i < 8u; i++) {
        state.comb_filter_state_l[i] = state.comb_filter_state_r[i] = store;
    }
    state.sample_rate = rate;
    return state;
}

room_reverb cleared_reverb(double rate)
{
    return even_reverb(0, 0.0, rate);
}

static room_reverb junk_reverb(void)
{
    return even_reverb(12345u, JUNK, JUNK);
}

room_reverb varied_reverb(const struct tuning *at)
{
    const double stores[] = {1.5, -0.0, ODD_NAN, (double)INFINITY, -(double)INFINITY, SMALLEST, DBL_MAX, -3.0};
    room_reverb state = cleared_reverb(at->rate);
    unsigned i;
    for (i = 0; i < LINES; i++) {
        *line_pos(&state, i) = 7u * i % line_length(at, i);
    }
    for (i = 0; i < 8u; i++) {
        state.comb_filter_state_l[i] = stores[i];
        state.comb_filter_state_r[i] = stores[7u - i];
    }
    return reverb_counting(state, 77u);
}

room_reverb reverb_counting(room_reverb state, uint32_t count)
{
    state.nonzero_places = count;
    return state;
}

int reverb_is(const room_reverb *is, const room_reverb *should)
{
    room_reverb a = *is;
    room_reverb b = *should;
    unsigned i;
    for (i = 0; i < LINES; i++) {
        if (*line_pos(&a, i) != *line_pos(&b, i)) {
            return 0;
        }
    }
    return a.nonzero_places == b.nonzero_places && all_same(a.comb_filter_state_l, b.comb_filter_state_l, 8u) &&
           all_same(a.comb_filter_state_r, b.comb_filter_state_r, 8u) && same(a.sample_rate, b.sample_rate);
}

/* Ticks */

struct tick_of_reverb reverb_tick(double audio, double size, double damping, double mix)
{
    struct tick_of_reverb t;
    t.audio = room_set(audio);
    t.size = room_set(size);
    t.damping = room_set(damping);
    t.mix = room_set(mix);
    t.predelay = room_set(0.0);
    return t;
}

/* A tick with nothing wrong in it, and one with every control wrong. */
static struct tick_of_reverb good_tick(void)
{
    return reverb_tick(4.0, 0.5, 0.25, 0.5);
}

static struct tick_of_reverb wrong_tick(void)
{
    struct tick_of_reverb t = reverb_tick((double)NAN, ODD_NAN, (double)NAN, ODD_NAN);
    t.predelay = room_set((double)NAN);
    return t;
}

uint32_t reverb_ticked(room_reverb *state, uint64_t places, const struct tick_of_reverb *t, double out[2])
{
    return room_reverb_tick(state, tank, places, t->audio, t->size, t->damping, t->mix, t->predelay, out);
}

/* Refusals: each number, and everything left as it was. */

static void retune_refused(room_reverb before, uint64_t places, double rate, uint32_t number, const char *what, unsigned i)
{
    room_reverb state = before;
    fill_tank();
    check(room_reverb_retune(&state, tank, places, rate) == number, what, i);
    check(reverb_is(&state, &before) && tank_kept(), what, i);
}

static void reset_refused(room_reverb before, uint64_t places, uint32_t number, const char *what, unsigned i)
{
    room_reverb state = before;
    fill_tank();
    check(room_reverb_reset(&state, tank, places) == number, what, i);
    check(reverb_is(&state, &before) && tank_kept(), what, i);
}

static void tick_refused(room_reverb before, uint64_t places, struct tick_of_reverb t, uint32_t number, const char *what,
                         unsigned i)
{
    room_reverb state = before;
    double out[2] = {JUNK, JUNK};
    fill_tank();
    check(reverb_ticked(&state, places, &t, out) == number, what, i);
    check(reverb_is(&state, &before) && tank_kept(), what, i);
    check(same(out[0], 0.0) && same(out[1], 0.0), "a refused tick plays +0", i);
}

/* Start */

static void start_accepted(double rate, unsigned places, unsigned i)
{
    const room_reverb should = cleared_reverb(rate);
    room_reverb state = junk_reverb();
    fill_tank();
    check(room_reverb_start(&state, tank, places, rate) == 0, "start is accepted", i);
    check(reverb_is(&state, &should), "start leaves positions and count 0 and stores +0", i);
    check(tank_cleared(places), "start puts +0 into every place that it is lent, and into no other", i);
}

static void start_refused(double rate, unsigned places, uint32_t number, const char *what, unsigned i)
{
    const room_reverb blank = cleared_reverb(0.0);
    room_reverb state = junk_reverb();
    fill_tank();
    check(room_reverb_start(&state, tank, places, rate) == number, what, i);
    check(reverb_is(&state, &blank), "a refused start writes a state of zeros", i);
    check(tank_kept(), "a refused start leaves the memory", i);
}

static void starts(void)
{
    const struct numbers rates = rates_accepted();
    const struct numbers wrong = rates_refused();
    unsigned i;
    for (i = 0; i < TUNINGS; i++) {
        start_accepted(tunings[i].rate, TANK, i);
        start_accepted(tunings[i].rate, TANK + 17u, 100u + i);
        start_refused(tunings[i].rate, TANK - 1u, 3, "start wants its places, the same at every rate", i);
        start_refused(tunings[i].rate, 0, 3, "start wants places", i);
    }
    for (i = 0; i < rates.count; i++) {
        start_accepted(rates.list[i], TANK_ROOM, 200u + i);
    }
    for (i = 0; i < wrong.count; i++) {
        start_refused(wrong.list[i], TANK_ROOM, 1, "the rate is refused with 1", i);
        start_refused(wrong.list[i], TANK - 1u, 1, "start: 1 before 3", i);
    }
}

/* Retune and reset */

static void retune_accepted(room_reverb state, unsigned places, double rate, unsigned i)
{
    const room_reverb should = cleared_reverb(rate);
    fill_tank();
    check(room_reverb_retune(&state, tank, places, rate) == 0, "retune is accepted", i);
    check(reverb_is(&state, &should), "retune leaves what a start leaves at the new rate", i);
    check(tank_cleared(places), "retune puts +0 into every place that it is lent, and into no other", i);
}

static void reset_accepted(room_reverb state, unsigned places, unsigned i)
{
    const room_reverb should = cleared_reverb(state.sample_rate);
    fill_tank();
    check(room_reverb_reset(&state, tank, places) == 0, "reset is accepted", i);
    check(reverb_is(&state, &should), "reset leaves what start left", i);
    check(tank_cleared(places), "reset puts +0 into every place that it is lent, and into no other", i);
}

static void clearings(void)
{
    const struct numbers wrong = rates_refused();
    const room_reverb low = varied_reverb(&tunings[0]);
    const room_reverb high = varied_reverb(&tunings[TUNINGS - 1u]);
    unsigned i;
    for (i = 0; i < TUNINGS; i++) {
        const double rate = tunings[i].rate;
        const room_reverb varied = varied_reverb(&tunings[i]);
        retune_accepted(low, TANK, rate, i);
        retune_accepted(high, TANK_ROOM, rate, 100u + i);
        retune_accepted(varied, TANK + 1u, rate, 200u + i);
        retune_refused(high, TANK - 1u, rate, 3, "retune wants its places, the same at every rate", i);
        retune_refused(low, 0, rate, 3, "retune wants places", i);
        reset_accepted(varied, TANK, i);
        reset_accepted(varied, TANK_ROOM, 100u + i);
        reset_refused(varied, TANK - 1u, 3, "reset wants its places", i);
        reset_refused(varied, 0, 3, "reset wants places", i);
    }
    for (i = 0; i < wrong.count; i++) {
        retune_refused(low, TANK_ROOM, wrong.list[i], 1, "the new rate is refused with 1", i);
        retune_refused(high, TANK - 1u, wrong.list[i], 1, "retune: 1 before 3", i);
        retune_refused(high, 0, wrong.list[i], 1, "retune: 1 before 3, with no places", i);
    }
}

/* The state test */

/* All calls but start refuse this state with 4, whatever else there is to refuse. */
static void state_refused(room_reverb state, unsigned i)
{
    reset_refused(state, TANK_ROOM, 4, "reset is refused with 4", i);
    reset_refused(state, TANK - 1u, 4, "reset: 4 before 3", i);
    reverb_silent_refused(state, 4, "silent is refused with 4", i);
    retune_refused(state, TANK_ROOM, 44100.0, 4, "retune is refused with 4", i);
    retune_refused(state, TANK_ROOM, 0.0, 4, "retune: 4 before 1", i);
    retune_refused(state, TANK - 1u, 44100.0, 4, "retune: 4 before 3", i);
    retune_refused(state, 0, (double)NAN, 4, "retune: 4 before 1 and 3", i);
    tick_refused(state, TANK_ROOM, good_tick(), 4, "tick is refused with 4", i);
    tick_refused(state, TANK - 1u, good_tick(), 4, "tick: 4 before 3", i);
    tick_refused(state, TANK_ROOM, wrong_tick(), 4, "tick: 4 before 5", i);
    tick_refused(state, 0, wrong_tick(), 4, "tick: 4 before 3 and 5", i);
}

/* What the test lets pass: each call accepts it. */
static void state_accepted(room_reverb state, unsigned i)
{
    const struct tick_of_reverb t = good_tick();
    room_reverb given = state;
    double out[2];
    int silent = 7;
    fill_tank();
    check(room_reverb_silent(&given, &silent) == 0, "silent accepts the state", i);
    check(reverb_ticked(&given, TANK, &t, out) == 0, "tick accepts the state", i);
    given = state;
    check(room_reverb_reset(&given, tank, TANK) == 0, "reset accepts the state", i);
    given = state;
    check(room_reverb_retune(&given, tank, TANK, 8000.0) == 0, "retune accepts the state", i);
}

static void states_at(const struct tuning *at, unsigned which)
{
    const room_reverb varied = varied_reverb(at);
    room_reverb last = varied;
    room_reverb state;
    unsigned line;
    for (line = 0; line < LINES; line++) {
        const uint32_t length = line_length(at, line);
        const uint32_t far[] = {length + 1u, 2u * length, 4096u * 1500u, UINT32_C(1) << 31, UINT32_MAX};
        const unsigned i = 1000u * which + 10u * line;
        state = varied;
        *line_pos(&state, line) = length;
        state_refused(state, i);
        *line_pos(&state, line) = far[(line + which) % COUNT(far)];
        state_refused(state, i + 1u);
        *line_pos(&state, line) = length - 1u;
        state_accepted(state, i);
        *line_pos(&last, line) = length - 1u;
    }
    state_accepted(last, 1000u * which + 999u);
    state_accepted(cleared_reverb(at->rate), 1000u * which + 998u);
}

/* A count goes up to all places in use, which are those of the lines together. */
static void counts_at(const struct tuning *at, unsigned which)
{
    const uint32_t all = tank_in_use(at);
    const uint32_t above[] = {all + 1u, all + 2u, 2u * all, TANK, UINT32_C(1) << 31, UINT32_MAX};
    unsigned i;
    state_accepted(reverb_counting(varied_reverb(at), 0u), 1000u * which + 997u);
    state_accepted(reverb_counting(varied_reverb(at), all), 1000u * which + 996u);
    state_accepted(reverb_counting(cleared_reverb(at->rate), all), 1000u * which + 995u);
    for (i = 0; i < COUNT(above); i++) {
        state_refused(reverb_counting(varied_reverb(at), above[i]), 1000u * which + 300u + i);
        state_refused(reverb_counting(cleared_reverb(at->rate), above[i]), 1000u * which + 310u + i);
    }
}

static void states(void)
{
    const struct numbers wrong = rates_refused();
    unsigned i;
    for (i = 0; i < TUNINGS; i++) {
        states_at(&tunings[i], i);
        counts_at(&tunings[i], i);
    }
    check(tank_in_use(&tunings[0]) == 14200u && tank_in_use(&tunings[TUNINGS - 1u]) == 86157u, "the places in use", 0);
    state_refused(cleared_reverb(0.0), 0);
    for (i = 0; i < wrong.count; i++) {
        room_reverb state = varied_reverb(&tunings[0]);
        state.sample_rate = wrong.list[i];
        state_refused(state, 100u + i);
        state_refused(cleared_reverb(wrong.list[i]), 200u + i);
    }
}

/* Refused ticks */

static void ticks_refused(void)
{
    const double nans[] = {(double)NAN, ODD_NAN};
    unsigned i, k;
    for (i = 0; i < TUNINGS; i++) {
        const room_reverb state = varied_reverb(&tunings[i]);
        tick_refused(state, TANK - 1u, good_tick(), 3, "tick wants its places", i);
        tick_refused(state, 0, good_tick(), 3, "tick wants places", i);
        tick_refused(state, TANK - 1u, wrong_tick(), 3, "3 before 5", i);
        tick_refused(state, 0, wrong_tick(), 3, "3 before 5, with no places", i);
        tick_refused(state, TANK_ROOM, wrong_tick(), 5, "controls of NaN are refused with 5", i);
        for (k = 0; k < COUNT(nans); k++) {
            struct tick_of_reverb t = good_tick();
            t.size = room_set(nans[k]);
            tick_refused(state, TANK_ROOM, t, 5, "size of NaN is refused with 5", k);
            t = good_tick();
            t.damping = room_set(nans[k]);
            tick_refused(state, TANK_ROOM, t, 5, "damping of NaN is refused with 5", k);
            t = good_tick();
            t.mix = room_set(nans[k]);
            tick_refused(state, TANK_ROOM, t, 5, "mix of NaN is refused with 5", k);
            t = good_tick();
            t.predelay = room_set(nans[k]);
            tick_refused(state, TANK_ROOM, t, 5, "predelay of NaN is refused with 5", k);
            t.audio = room_set(nans[k]);
            tick_refused(state, TANK_ROOM, t, 5, "NaN audio does not hide it", k);
        }
    }
}

void reverb(void)
{
    starts();
    clearings();
    states();
    ticks_refused();
    reverb_questions();
    reverb_ticks();
}
