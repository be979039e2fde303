/* The count that a state keeps of its places in use that are neither +0 nor -0: on every run it is what a reading of all of
   them finds, and the question is answered by it. Such a reading is made here after every call. */
#include "counts.h"

#include <string.h>

double counts_lent[COUNTS_ROOM];

const double count_rates[2] = {8000.0, 12300.0};

/* A delay has 62.5 ms. */
#define MAXIMUM 0.0625

static double rate_of(int effect, const struct effect_state *state)
{
    const double rates[EFFECTS_END] = {0.0,
                                       state->delay.sample_rate,
                                       state->chorus.sample_rate,
                                       state->flanger.sample_rate,
                                       state->vibrato.sample_rate,
                                       state->tremolo.sample_rate,
                                       state->reverb.sample_rate,
                                       state->phaser.sample_rate,
                                       state->tape_delay.sample_rate};
    return rates[effect];
}

/* By document 01's lengths, of chorus and tape delay document 02's; the reverb's are in tank.c. */
uint32_t places_in_use(int effect, const struct effect_state *state)
{
    static const uint32_t in_use[2][EFFECTS_END] = {{0, 501, 266, 2 * 90, 170, 0, 0, 0, 96001},
                                                    {0, 769, 403, 2 * 133, 256, 0, 0, 0, 147601}};
    const double rate = rate_of(effect, state);
    return effect == ROOM_REVERB ? tank_in_use(tuning_at(rate)) : in_use[same(rate, count_rates[1])][effect];
}

uint32_t full_reading(int effect, const struct effect_state *state, const double *lent)
{
    return effect == ROOM_REVERB ? nonzero_in_tank(tuning_at(rate_of(effect, state)), lent)
                                 : nonzero_in(lent, places_in_use(effect, state));
}

uint32_t *count_position(int effect, struct effect_state *state, unsigned line)
{
    uint32_t *const positions[EFFECTS_END] = {NULL,
                                              &state->delay.write_pos,
                                              &state->chorus.write_pos,
                                              &state->flanger.write_pos,
                                              &state->vibrato.write_pos,
                                              NULL,
                                              line_pos(&state->reverb, line),
                                              NULL,
                                              &state->tape_delay.write_pos};
    return positions[effect];
}

unsigned places_to_write(int effect, const struct effect_state *state, uint64_t places[LINES])
{
    const unsigned lines = effect == ROOM_REVERB ? LINES : effect == ROOM_FLANGER ? 2u : 1u;
    struct effect_state copy = *state;
    unsigned i;
    for (i = 0; i < lines; i++) {
        const uint64_t start = effect == ROOM_REVERB ? line_start(i) : i * places_in_use(effect, state) / 2u;
        places[i] = start + *count_position(effect, &copy, i);
    }
    return lines;
}

void lay_sounds(void)
{
    static const double sounds[] = {1.0, -1.0, 0x1p-1074, (double)INFINITY, (double)NAN};
    unsigned i;
    for (i = 0; i < COUNTS_ROOM; i++) {
        counts_lent[i] = sounds[i % COUNT(sounds)];
    }
}

void lay_mixed(void)
{
    static const double numbers[] = {0.0, 3.0, -0.0, -0x1p-1074};
    unsigned i;
    for (i = 0; i < COUNTS_ROOM; i++) {
        counts_lent[i] = numbers[i % COUNT(numbers)];
    }
}

/* Calls */

struct effect_call count_call(int effect, const struct effect_state *state, int call)
{
    return effect_good(effect, call, counts_lent, COUNTS_ROOM, rate_of(effect, state), MAXIMUM);
}

void made_as(struct effect_state *state, const struct effect_call *c, uint32_t number, const char *what, unsigned i)
{
    double out[3] = {JUNK, JUNK, JUNK};
    uint32_t age = JUNK_AGE;
    check(effect_make(state, c, out, &age) == number, what, i);
}

struct effect_state count_start(int effect, unsigned rate)
{
    struct effect_call c = effect_good(effect, START, counts_lent, COUNTS_ROOM, count_rates[rate], MAXIMUM);
    struct effect_state state;
    memset(&state, 0xa5, sizeof state);
    made_as(&state, &c, ROOM_ACCEPTED, "a start for a count", (unsigned)effect);
    return state;
}

void count_tick(int effect, struct effect_state *state, room_port audio, double feedback, unsigned i)
{
    struct effect_call c = count_call(effect, state, TICK);
    const double value = audio.set != 0 ? audio.value : 0.0;
    c.ports[0] = audio;
    c.ports[2] = room_set(feedback);
    made_as(state, &c, ROOM_ACCEPTED, "a tick for a count", i);
    if (effect_has(effect, STORE)) {
        c.call = STORE;
        c.curves[0] = value >= -1.0 && value <= 1.0 ? value : 0.5;
        made_as(state, &c, ROOM_ACCEPTED, "a store half for a count", i);
    }
}

int count_says_silent(int effect, const struct effect_state *state)
{
    const struct effect_call c = effect_good(effect, SILENT, NULL, 0, 0.0, 0.0);
    struct effect_state asked = *state;
    double out[3] = {JUNK, JUNK, JUNK};
    uint32_t age = JUNK_AGE;
    check(effect_make(&asked, &c, out, &age) == ROOM_ACCEPTED, "a question at a count", (unsigned)effect);
    check(memcmp(&asked, state, sizeof asked) == 0, "a question leaves the count, and all else", (unsigned)effect);
    return same(out[0], 1.0) ? 1 : same(out[0], 0.0) ? 0 : -1;
}

int keeps_no_sound(int effect, struct effect_state state)
{
    const room_reverb *r = &state.reverb;
    return effect == ROOM_REVERB ? nonzero_in(r->comb_filter_state_l, 8) + nonzero_in(r->comb_filter_state_r, 8) == 0u
                                 : effect != ROOM_TAPE_DELAY || state.tape_delay.waiting == 0u;
}

/* Runs */

/* The count beside all places in use, and the answer beside them too. */
static void is_true(int effect, struct effect_state *state, const char *what, unsigned i)
{
    const uint32_t reading = full_reading(effect, state, counts_lent);
    const int silent = reading == 0u && keeps_no_sound(effect, *state);
    check(*effect_count(effect, state) == reading, what, i);
    check(count_says_silent(effect, state) == silent, "the question answers what the places in use say", i);
}

static void cleared_to_zero(int effect, struct effect_state *state, const char *what, unsigned i)
{
    check(*effect_count(effect, state) == 0u, what, i);
    is_true(effect, state, what, i);
    check(count_says_silent(effect, state) == 1, "after it the unit is silent", i);
}

/* What the ticks of a part of a run hear, one after the other and again, and what is fed back. */
struct part {
    unsigned count;
    double audio[8];
    double feedback;
};
enum { SOUNDS, MIXED, ZEROS, EXTREMES, SINGLE, PARTS };
static struct part part_of(int which)
{
    const struct part parts[PARTS] = {
        {4, {1.0, -0.5, 0.25, SMALLEST}, 0.5},
        {7, {0.0, 1.0, -0.0, SMALLEST, -SMALLEST, -0.0, 0.0}, 0.0},
        {2, {0.0, -0.0}, 0.0},
        {8, {DBL_MAX, (double)INFINITY, -(double)INFINITY, (double)NAN, ODD_NAN, -0.0, 0.0, SMALLEST}, 0.95},
        {8, {-0.0, 0.0, 0.0, -0.0, 1.0, -0.0, 0.0, 0.0}, 0.0},
    };
    return parts[which];
}

/* More ticks than any line has places, but for a tape and a predelay. These a host winds back before each part, so that all
   parts write the same places, at both ends of the line: the position changes alone. */
static unsigned ticks_of(int effect)
{
    return effect == ROOM_TAPE_DELAY ? 40u : effect == ROOM_REVERB ? 500u : 780u;
}

static void wind_back(int effect, struct effect_state *state)
{
    if (effect == ROOM_TAPE_DELAY) {
        state->tape_delay.write_pos = places_in_use(effect, state) - ticks_of(effect) / 2u;
    } else if (effect == ROOM_REVERB) {
        state->reverb.predelay_pos = 9600u - ticks_of(effect) / 2u;
    }
}

/* Every ninth tick hears nothing at an unset port. */
static void play(int effect, struct effect_state *state, int which, unsigned i)
{
    const struct part part = part_of(which);
    unsigned k;
    wind_back(effect, state);
    for (k = 0; k < ticks_of(effect); k++) {
        const double audio = part.audio[k % part.count];
        count_tick(effect, state, k % 9u == 8u ? room_unset() : room_set(audio), part.feedback, k);
        is_true(effect, state, "after a tick the count is that of the places in use", 10000u * i + k);
    }
}

/* Whether it is silent after a round of zeros: a reverb rings on, and a NaN that a line with feedback has stays in it. */
static void falls_silent(int effect, struct effect_state *state, int after, unsigned i)
{
    const int feeds_back = effect == ROOM_DELAY || effect == ROOM_FLANGER;
    play(effect, state, ZEROS, i);
    if (effect != ROOM_REVERB && !(after == EXTREMES && feeds_back)) {
        check(*effect_count(effect, state) == 0u, "after a round of zeros the count is 0", i);
        check(count_says_silent(effect, state) == 1, "after a round of zeros it is silent", i);
    }
}

/* A call that is refused leaves the count, and a start a count of 0. */
static void refused(int effect, const struct effect_state *state, struct effect_call c, uint32_t number, unsigned i)
{
    struct effect_state after = *state;
    const uint32_t count = c.call == START ? 0u : *effect_count(effect, &after);
    made_as(&after, &c, number, "a call that is refused", i);
    check(*effect_count(effect, &after) == count, "a refused call leaves the count, a start 0", i);
}

static void refusals(int effect, const struct effect_state *state)
{
    const uint32_t most = effect == ROOM_REVERB ? 87136u : places_in_use(effect, state);
    int call;
    for (call = START; call < STORE; call++) {
        struct effect_call c = count_call(effect, state, call);
        const unsigned i = 10u * (unsigned)effect + (unsigned)call;
        c.places = most - 1u;
        if (call != SILENT) {
            refused(effect, state, c, ROOM_REFUSED_MEMORY, i);
        }
        c.places = COUNTS_ROOM;
        if (call == TICK) {
            c.ports[effect_ports(effect) - 1u] = room_set(ODD_NAN);
            refused(effect, state, c, ROOM_REFUSED_CONTROL, i);
        } else if (call == START || call == RETUNE) {
            c.rate = nearer(8000.0);
            refused(effect, state, c, ROOM_REFUSED_SAMPLE_RATE, i);
        }
    }
    if (effect_has(effect, STORE)) {
        refused(effect, state, count_call(effect, state, STORE), ROOM_REFUSED_TURN, (unsigned)effect);
    } else if (effect_can_refuse(effect, ROOM_REFUSED_CURVE)) {
        struct effect_call c = count_call(effect, state, TICK);
        c.curves[0] = ODD_NAN;
        refused(effect, state, c, ROOM_REFUSED_CURVE, (unsigned)effect);
    }
}

/* A retune to the other rate, or back; a reset. */
static void clear(int effect, struct effect_state *state, int call, unsigned rate)
{
    struct effect_call c = count_call(effect, state, call);
    c.rate = count_rates[rate];
    made_as(state, &c, ROOM_ACCEPTED, "a clearing of a count", 10u * (unsigned)effect + (unsigned)call);
    cleared_to_zero(effect, state, "after a clearing the count is 0", 10u * (unsigned)effect + (unsigned)call);
}

static void runs(int effect)
{
    struct effect_state state;
    lay_sounds();
    state = count_start(effect, 0);
    cleared_to_zero(effect, &state, "after a start the count is 0", (unsigned)effect);
    play(effect, &state, SOUNDS, 1);
    refusals(effect, &state);
    play(effect, &state, MIXED, 2);
    falls_silent(effect, &state, MIXED, 3);
    play(effect, &state, SINGLE, 4);
    clear(effect, &state, RETUNE, 0);
    play(effect, &state, MIXED, 5);
    clear(effect, &state, RETUNE, 1);
    play(effect, &state, SOUNDS, 6);
    falls_silent(effect, &state, SOUNDS, 7);
    play(effect, &state, SOUNDS, 8);
    clear(effect, &state, RESET, 1);
    play(effect, &state, EXTREMES, 9);
    falls_silent(effect, &state, EXTREMES, 10);
    play(effect, &state, SOUNDS, 11);
    clear(effect, &state, RETUNE, 0);
    play(effect, &state, SOUNDS, 12);
    state = count_start(effect, 0);
    cleared_to_zero(effect, &state, "after another start the count is 0", (unsigned)effect);
}

void counts_of(int effect)
{
    runs(effect);
    counts_handed(effect);
}

void counts(void)
{
    int effect;
    for (effect = ROOM_DELAY; effect < EFFECTS_END; effect++) {
        if (effect_lined(effect)) {
            counts_of(effect);
        }
    }
}
