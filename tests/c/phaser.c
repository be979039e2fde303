/* The phaser: its clearings, its refusals and their order, its question. phaser_ticks.c has the accepted ticks, phaser_runs.c
   long runs of them. */
#include "phaser.h"

/* States */

double *phaser_number(room_phaser *state, unsigned which)
{
    double *const sixes[] = {state->allpass_x1_l, state->allpass_x1_r, state->allpass_y1_l, state->allpass_y1_r};
    return &sixes[which / 6u][which % 6u];
}

room_phaser phaser_of_one_number(double number, double lfo_phase, double sample_rate)
{
    room_phaser state;
    unsigned i;
    for (i = 0; i < KEPT; i++) {
        *phaser_number(&state, i) = number;
    }
    state.lfo_phase = lfo_phase;
    state.sample_rate = sample_rate;
    return state;
}

room_phaser counted_phaser(void)
{
    room_phaser state = phaser_of_one_number(0.0, PHASE, RATE);
    unsigned i;
    for (i = 0; i < KEPT; i++) {
        *phaser_number(&state, i) = i + 1u;
    }
    return state;
}

room_phaser unusual_phaser(void)
{
    const double unusual[] = {1.5, -0.0, ODD_NAN, (double)INFINITY, -(double)INFINITY, SMALLEST, DBL_MAX, -3.0, (double)NAN};
    room_phaser state = phaser_of_one_number(0.0, PHASE, RATE);
    unsigned i;
    for (i = 0; i < KEPT; i++) {
        *phaser_number(&state, i) = unusual[i % COUNT(unusual)];
    }
    return state;
}

int phaser_is(const room_phaser *is, const room_phaser *should)
{
    return all_same(is->allpass_x1_l, should->allpass_x1_l, 6u) && all_same(is->allpass_x1_r, should->allpass_x1_r, 6u) &&
           all_same(is->allpass_y1_l, should->allpass_y1_l, 6u) && all_same(is->allpass_y1_r, should->allpass_y1_r, 6u) &&
           same(is->lfo_phase, should->lfo_phase) && same(is->sample_rate, should->sample_rate);
}

/* Ticks */

struct tick_of_phaser phaser_tick(double audio, double feedback, double mix, double coef)
{
    struct tick_of_phaser t;
    t.audio = room_set(audio);
    t.feedback = room_set(feedback);
    t.mix = room_set(mix);
    t.stages = room_set(1.0);
    t.frequency = 0.0;
    t.coef_l = t.coef_r = coef;
    return t;
}

struct tick_of_phaser staged(struct tick_of_phaser t, double stages)
{
    t.stages = room_set(stages);
    return t;
}

/* A tick with nothing wrong in it, and one with every control and curve number wrong. */
static struct tick_of_phaser good_tick(void)
{
    return phaser_tick(4.0, 0.5, 0.5, 0.25);
}

static struct tick_of_phaser wrong_tick(void)
{
    struct tick_of_phaser t = phaser_tick((double)NAN, ODD_NAN, (double)NAN, 2.0);
    t.stages = room_set(ODD_NAN);
    t.frequency = 33.0;
    return t;
}

uint32_t phaser_ticked(room_phaser *state, const struct tick_of_phaser *t, double out[3])
{
    return room_phaser_tick(state, t->audio, t->feedback, t->mix, t->stages, t->frequency, t->coef_l, t->coef_r, out);
}

/* Refusals: each number, and everything left as it was. */

static void reset_refused(room_phaser before, const char *what, unsigned i)
{
    room_phaser state = before;
    check(room_phaser_reset(&state) == 4 && phaser_is(&state, &before), what, i);
}

static void silent_refused(room_phaser before, const char *what, unsigned i)
{
    room_phaser state = before;
    int silent = 7;
    check(room_phaser_silent(&state, &silent) == 4 && silent == 0, what, i);
    check(phaser_is(&state, &before), "a refused silent changes nothing", i);
}

static void tick_refused(room_phaser before, struct tick_of_phaser t, uint32_t number, const char *what, unsigned i)
{
    const double zeros[3] = {0.0, 0.0, 0.0};
    room_phaser state = before;
    double out[3] = {JUNK, JUNK, JUNK};
    check(phaser_ticked(&state, &t, out) == number, what, i);
    check(phaser_is(&state, &before), "a refused tick changes nothing", i);
    check(all_same(out, zeros, 3u), "a refused tick plays +0", i);
}

/* All calls but start refuse this state with 4, whatever else there is to refuse. */
static void state_refused(room_phaser state, unsigned i)
{
    struct tick_of_phaser t = good_tick();
    reset_refused(state, "reset is refused with 4", i);
    silent_refused(state, "silent is refused with 4 and answers 0", i);
    tick_refused(state, t, 4, "tick is refused with 4", i);
    tick_refused(state, wrong_tick(), 4, "tick: 4 before 5 and 6", i);
    t.coef_r = ODD_NAN;
    tick_refused(state, t, 4, "tick: 4 before 6", i);
    t = good_tick();
    t.mix = room_set(ODD_NAN);
    tick_refused(state, t, 4, "tick: 4 before 5", i);
}

/* Start and reset: +0 in all 24 numbers, whatever the struct held. */

static void start_accepted(room_phaser state, double rate, unsigned i)
{
    const room_phaser should = phaser_of_one_number(0.0, 0.0, rate);
    check(room_phaser_start(&state, rate) == 0, "start is accepted", i);
    check(phaser_is(&state, &should), "start leaves 24 numbers of +0, phase +0 and the rate", i);
}

static void start_refused(room_phaser state, double rate, unsigned i)
{
    const room_phaser blank = phaser_of_one_number(0.0, 0.0, 0.0);
    check(room_phaser_start(&state, rate) == 1, "start is refused with 1", i);
    check(phaser_is(&state, &blank), "a refused start writes a state of zeros", i);
    state_refused(state, i);
}

static void starts(void)
{
    const struct numbers rates = rates_accepted();
    const struct numbers wrong = rates_refused();
    unsigned i;
    for (i = 0; i < rates.count; i++) {
        start_accepted(phaser_of_one_number(JUNK, JUNK, JUNK), rates.list[i], i);
        start_accepted(unusual_phaser(), rates.list[i], 100u + i);
    }
    for (i = 0; i < wrong.count; i++) {
        start_refused(phaser_of_one_number(JUNK, JUNK, JUNK), wrong.list[i], i);
        start_refused(unusual_phaser(), wrong.list[i], 100u + i);
    }
}

static void reset_accepted(room_phaser state, unsigned i)
{
    const room_phaser should = phaser_of_one_number(0.0, 0.0, state.sample_rate);
    int silent = 7;
    check(room_phaser_reset(&state) == 0, "reset is accepted", i);
    check(phaser_is(&state, &should), "reset leaves 24 numbers of +0, phase +0 and the rate", i);
    check(room_phaser_silent(&state, &silent) == 0 && silent == 1, "after a reset it is silent", i);
}

/* The state test reads phase and rate, and no other number. */

/* Each call accepts it. */
static void state_accepted(room_phaser before, unsigned i)
{
    const struct tick_of_phaser t = good_tick();
    room_phaser state = before;
    double out[3];
    int silent = 7;
    check(room_phaser_silent(&state, &silent) == 0, "silent accepts the state", i);
    check(phaser_is(&state, &before), "silent changes nothing", i);
    check(phaser_ticked(&state, &t, out) == 0, "tick accepts the state", i);
    check(same(state.lfo_phase, before.lfo_phase + 0.0) && same(state.sample_rate, before.sample_rate),
          "at frequency 0 it leaves phase and rate", i);
    reset_accepted(before, i);
}

static void states(void)
{
    const struct numbers phases = phases_accepted();
    const struct numbers rates = rates_accepted();
    const struct numbers wrong_phases = phases_refused();
    const struct numbers wrong_rates = rates_refused();
    room_phaser state = unusual_phaser();
    unsigned i;
    for (i = 0; i < phases.count; i++) {
        state.lfo_phase = phases.list[i];
        state_accepted(state, i);
        state_accepted(phaser_of_one_number(ODD_NAN, phases.list[i], RATE), 100u + i);
    }
    for (i = 0; i < wrong_phases.count; i++) {
        state.lfo_phase = wrong_phases.list[i];
        state_refused(state, i);
        state_refused(phaser_of_one_number(0.0, wrong_phases.list[i], RATE), 100u + i);
    }
    state.lfo_phase = PHASE;
    for (i = 0; i < rates.count; i++) {
        state.sample_rate = rates.list[i];
        state_accepted(state, 200u + i);
    }
    for (i = 0; i < wrong_rates.count; i++) {
        state.sample_rate = wrong_rates.list[i];
        state_refused(state, 200u + i);
        state_refused(phaser_of_one_number(0.0, 1.0, wrong_rates.list[i]), 300u + i);
    }
}

/* The question */

static void silent_is(const room_phaser *state, int yes, const char *what, unsigned i)
{
    const room_phaser before = *state;
    int silent = 7;
    check(room_phaser_silent(state, &silent) == 0 && silent == yes, what, i);
    check(phaser_is(state, &before), "silent changes nothing", i);
}

/* One of the 24 numbers sounds, at any phase and whatever stages the ticks before had. */
static void questions(void)
{
    const double sounds[] = {SMALLEST, -SMALLEST, 1.0, (double)INFINITY, -(double)INFINITY, (double)NAN, ODD_NAN};
    room_phaser state = phaser_of_one_number(-0.0, nearer(1.0), 192000.0);
    unsigned i, k;
    silent_is(&state, 1, "24 numbers of -0 are silent", 0);
    for (i = 0; i < KEPT; i++) {
        *phaser_number(&state, i) = 0.0;
        silent_is(&state, 1, "+0 and -0 are silent", i);
    }
    for (i = 0; i < KEPT; i++) {
        for (k = 0; k < COUNT(sounds); k++) {
            *phaser_number(&state, i) = sounds[k];
            silent_is(&state, 0, "one number sounds", 10u * i + k);
        }
        *phaser_number(&state, i) = -0.0;
        silent_is(&state, 1, "one number of -0 is silent", i);
    }
}

/* Refused ticks, and where several causes apply: 4 before 5 before 6. */

static void controls_refused(void)
{
    const double nans[] = {(double)NAN, ODD_NAN};
    const room_phaser state = unusual_phaser();
    unsigned i, k;
    for (i = 0; i < COUNT(nans); i++) {
        for (k = 0; k < 3u; k++) {
            struct tick_of_phaser t = good_tick();
            room_port *const controls[] = {&t.feedback, &t.mix, &t.stages};
            *controls[k] = room_set(nans[i]);
            tick_refused(state, t, 5, "a control of NaN is refused with 5", 10u * i + k);
            t.audio = room_set(nans[i]);
            tick_refused(state, t, 5, "NaN audio does not hide it", 10u * i + k);
            t.frequency = 33.0;
            tick_refused(state, t, 5, "5 before 6, by the frequency", 10u * i + k);
            t.frequency = 1.0;
            t.coef_l = nans[i];
            tick_refused(state, t, 5, "5 before 6, by the left coefficient", 10u * i + k);
            t.coef_l = 0.0;
            t.coef_r = 2.0;
            tick_refused(state, t, 5, "5 before 6, by the right coefficient", 10u * i + k);
        }
    }
    tick_refused(state, wrong_tick(), 5, "5 before 6, all at once", 0);
}

static void curves_refused(void)
{
    const struct numbers frequencies = frequencies_refused();
    const struct numbers coefs = sines_refused();
    const room_phaser state = unusual_phaser();
    unsigned i;
    for (i = 0; i < frequencies.count; i++) {
        struct tick_of_phaser t = good_tick();
        t.frequency = frequencies.list[i];
        tick_refused(state, t, 6, "the frequency is refused with 6", i);
    }
    for (i = 0; i < coefs.count; i++) {
        struct tick_of_phaser t = good_tick();
        t.coef_l = coefs.list[i];
        tick_refused(state, t, 6, "the left coefficient is refused with 6", i);
        t.coef_r = coefs.list[i];
        tick_refused(state, t, 6, "both coefficients are refused with 6", i);
        t.coef_l = -1.0;
        tick_refused(state, t, 6, "the right coefficient is refused with 6", i);
    }
}

void phaser(void)
{
    starts();
    states();
    questions();
    controls_refused();
    curves_refused();
    phaser_ticks();
    phaser_runs();
}
