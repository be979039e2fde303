/* Where several causes of a refusal apply at once the first in the call's order is given: every set of causes, for every call
   of every effect, each cause brought about in several ways. */
#include "effects.h"

#include <string.h>

#define RATE 8000.0
#define MAXIMUM 0.0625

/* A call about to be made, and the number that it must return. Its unit, at 8,000, has ticked, in memory that sounds. */
struct attempt {
    struct effect_call call;
    struct effect_state state;
    uint32_t number;
    unsigned which; /* of all attempts, for what a failure says */
};

/* The memory that all of them are lent: the most that one needs, and some more. */
#define ORDER_ROOM 96100u
static double order_lent[ORDER_ROOM];

/* The places at 8,000 by document 01, of chorus, phaser and tape delay by document 02; the delay's with that maximum. */
static const uint64_t places_at_8000[EFFECTS_END] = {0, 501, 266, 180, 170, 0, 87136, 0, 96001};

/* "start 1, 2, 3; retune 4, 1, 2, 3; reset 4, 3; tick 4, 3, 5, 6", of the tape delay the read half 4, 7, 3, 5 and the store
   half 4, 7, 3, 6, and of the question, which takes no memory, 4 alone. */
static const char *order_of(int effect, int call)
{
    static const char *const orders[CALLS] = {"123", "4123", "43", "4356", "4", "4736"};
    return effect == ROOM_TAPE_DELAY && call == TICK ? "4735" : orders[call];
}

/* In how many ways each set of causes is brought about, and from which of them on the wrong state is one by its count. */
#define WAYS 11u
#define COUNTS_FROM 8u

static void set_wrong_reverb(room_reverb *state, unsigned way)
{
    uint32_t *const positions[] = {state->comb_pos_l,    state->comb_pos_r,    state->allpass_pos_l,
                                   state->allpass_pos_r, &state->predelay_pos, &state->comb_pos_r[7]};
    if (way % 7u == 6u) {
        state->sample_rate = farther(192000.0);
    } else {
        *positions[way % 7u] = UINT32_C(9600) << way;
    }
}

static void set_wrong_delay(room_delay *state, unsigned way)
{
    switch (way % 5u) {
    case 0:
        state->write_pos = 501u;
        break;
    case 1:
        state->smoothed_delay = nearer(1.0);
        break;
    case 2:
        state->sample_rate = (double)NAN;
        break;
    case 3:
        state->delay_smooth_coef = 1.0;
        break;
    default:
        state->max_delay_secs = farther(60.0);
    }
}

static void set_wrong_tape(room_tape_delay *state, unsigned way)
{
    switch (way % 4u) {
    case 0:
        state->write_pos = 96001u;
        break;
    case 1:
        state->smoothed_delay = nearer(1.0);
        break;
    case 2:
        state->sample_rate = (double)NAN;
        break;
    default:
        state->delay_smooth_coef = 1.0;
    }
}

/* Cause 7: whether a read waits is turned, in a state that passes. */
static void set_wrong_turn(room_tape_delay *state)
{
    state->waiting = state->waiting == 0u;
    state->kept_audio = state->kept_read = 0.0;
    state->kept_mix = state->waiting != 0u ? 0.5 : 0.0;
}

/* A count above all places in use: 14,200 of the reverb, of the others all that they need. */
static void set_wrong_count(int effect, struct effect_state *s, unsigned way)
{
    const uint32_t all = effect == ROOM_REVERB ? 14200u : (uint32_t)places_at_8000[effect];
    const uint32_t above[] = {all + 1u, 2u * all, UINT32_MAX};
    *effect_count(effect, s) = above[way % 3u];
}

/* Cause 4: one number of the state that no start leads to; in the last ways of an effect with lines the count. */
static void set_wrong_state(int effect, struct effect_state *s, unsigned way)
{
    const double phases[] = {1.0, -SMALLEST, ODD_NAN};
    const double phase = phases[way % 3u];
    const uint32_t position = UINT32_C(6154) << way;
    if (effect_lined(effect) && way >= COUNTS_FROM) {
        set_wrong_count(effect, s, way);
    } else if (effect == ROOM_DELAY) {
        set_wrong_delay(&s->delay, way);
    } else if (effect == ROOM_TAPE_DELAY) {
        set_wrong_tape(&s->tape_delay, way);
    } else if (effect == ROOM_REVERB) {
        set_wrong_reverb(&s->reverb, way);
    } else if (effect == ROOM_TREMOLO) {
        *(way % 2u == 0u ? &s->tremolo.lfo_phase : &s->tremolo.sample_rate) = phase;
    } else if (effect == ROOM_PHASER) {
        *(way % 2u == 0u ? &s->phaser.lfo_phase : &s->phaser.sample_rate) = phase;
    } else if (effect == ROOM_CHORUS && way % 2u == 0u) {
        s->chorus.lfo_phases[way / 2u % 3u] = phase;
    } else if (effect == ROOM_CHORUS) {
        *(way % 4u == 1u ? &s->chorus.sample_rate : &s->chorus.lfo_phases[2]) = phase;
    } else if (effect == ROOM_FLANGER) {
        s->flanger.write_pos = way % 2u == 0u ? position : 0u;
        s->flanger.lfo_phase = way % 2u == 0u ? 0.0 : phase;
    } else {
        s->vibrato.write_pos = way % 2u == 0u ? position : 0u;
        s->vibrato.lfo_phase = way % 2u == 0u ? 0.0 : phase;
    }
}

/* The other causes, in the call's arguments. The delay is in exponential mode, where the time, its port 1, is not read. */
static void set_wrong_argument(struct effect_call *c, char cause, unsigned way)
{
    const struct numbers rates = rates_refused();
    const double coefficients[] = {1.0, -SMALLEST, ODD_NAN};
    const unsigned first = c->effect == ROOM_DELAY ? 2u : 1u;
    const unsigned curve = effect_curves(c->effect) == 0u ? 0u : way % effect_curves(c->effect);
    if (cause == '1') {
        c->rate = rates.list[way % rates.count];
    } else if (cause == '2') {
        c->coefficient = coefficients[way % 3u];
    } else if (cause == '3') {
        c->places = way % 3u == 0u ? 0u : c->places - (way % 3u == 1u ? 1u : c->places / 2u);
    } else if (cause == '5') {
        c->ports[first + way % (effect_ports(c->effect) - first)] = room_set(way % 2u == 0u ? (double)NAN : ODD_NAN);
    } else {
        c->curves[curve] = c->effect == ROOM_DELAY || way % 2u == 0u ? ODD_NAN : curve == 0u ? farther(32.0) : farther(-1.0);
    }
}

/* A state after a start and a tick, in memory that sounds from then on; of the tape delay, for a store half, with a read that
   waits. */
static void begin(int effect, int call, struct effect_state *state)
{
    struct effect_call c = effect_good(effect, START, order_lent, places_at_8000[effect], RATE, MAXIMUM);
    double out[3];
    uint32_t age;
    memset(state, 0, sizeof *state);
    check(effect_make(state, &c, out, &age) == 0, "start for an order", (unsigned)effect);
    c.call = TICK;
    check(effect_make(state, &c, out, &age) == 0, "tick for an order", (unsigned)effect);
    if (effect_has(effect, STORE)) {
        c.call = STORE;
        check(effect_make(state, &c, out, &age) == 0, "store half for an order", (unsigned)effect);
    }
    effect_take_turn(state, call);
}

/* Brings about the causes of a set, bit n for the n-th of the call's order: the number by the table, or NONE if one of them
   can't apply to the effect. */
#define NONE 99u

static uint32_t bring_about(struct effect_call *c, struct effect_state *state, unsigned set, unsigned way)
{
    const char *const causes = order_of(c->effect, c->call);
    uint32_t number = 0;
    unsigned i;
    for (i = 0; causes[i] != '\0'; i++) {
        if ((set >> i & 1u) == 0u) {
            continue;
        }
        if (!effect_can_refuse(c->effect, (unsigned)(causes[i] - '0'))) {
            return NONE;
        }
        number = number == 0u ? (uint32_t)(causes[i] - '0') : number;
        if (causes[i] == '4') {
            set_wrong_state(c->effect, state, way);
        } else if (causes[i] == '7') {
            set_wrong_turn(&state->tape_delay);
        } else {
            set_wrong_argument(c, causes[i], way);
        }
    }
    return number;
}

/* Makes the call, and looks at what it left. */
static void first_is_given(const struct attempt *a)
{
    static double as_lent[ORDER_ROOM];
    const double none[3] = {0.0, 0.0, 0.0};
    const unsigned i = a->which;
    const int effect = a->call.effect, call = a->call.call;
    struct effect_state state, left;
    double out[3] = {JUNK, JUNK, JUNK};
    uint32_t age = JUNK_AGE;
    memcpy(&state, &a->state, sizeof state);
    memcpy(&left, &a->state, sizeof left);
    memcpy(as_lent, order_lent, sizeof as_lent);
    if (call == START) {
        memset(&left, 0, sizeof left);
    }
    check(effect_make(&state, &a->call, out, &age) == a->number, "the first cause in the call's order is given", i);
    if (a->number != 0u) {
        check(memcmp(&state, &left, sizeof state) == 0, "a refused call leaves the state, of a start zeros", i);
        check(memcmp(as_lent, order_lent, sizeof as_lent) == 0, "a refused call leaves the memory", i);
        check(all_same(out, none, effect_answers(effect, call)), "a refused call plays +0 and answers 0", i);
        check(call != TICK || !effect_aged(effect) || age == 0u, "a refused tick answers the age 0", i);
    }
}

static void with_causes(int effect, int call, unsigned set, unsigned way)
{
    struct attempt a;
    a.call = effect_good(effect, call, order_lent, places_at_8000[effect], RATE, MAXIMUM);
    a.which = 100000u * (unsigned)effect + 10000u * (unsigned)call + 100u * set + way;
    begin(effect, call, &a.state);
    a.number = bring_about(&a.call, &a.state, set, way);
    if (a.number != NONE) {
        first_is_given(&a);
    }
}

static void each_set(int effect, int call)
{
    unsigned set, way;
    for (set = 0; set < 1u << strlen(order_of(effect, call)); set++) {
        for (way = 0; way < WAYS; way++) {
            with_causes(effect, call, set, way);
        }
    }
}

void order_of_causes(void)
{
    int effect, call;
    for (effect = ROOM_DELAY; effect < EFFECTS_END; effect++) {
        for (call = START; call < CALLS; call++) {
            if (effect_has(effect, call)) {
                each_set(effect, call);
            }
        }
    }
}
