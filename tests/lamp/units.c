/* Silent units: just started, cleared after they sounded, or handed in by a host that made up their state and memory. */
#include "lamp.h"

#include <string.h>

static double memory[LENT];

int is_zero(double x)
{
    return same(x, 0.0) || same(x, -0.0);
}

/* A tape delay's line is long at every rate. */
double any_rate(int effect)
{
    const double most = effect != ROOM_TAPE_DELAY ? 192000.0 : one_in(20) ? 32000.0 : 12300.0;
    double rate;
    do {
        rate = effect == ROOM_REVERB || one_in(2) ? tunings[below(TUNINGS)].rate : good_rate();
    } while (rate > most);
    return rate;
}

uint64_t needed(const struct unit *u, double rate)
{
    return room_places_needed((uint32_t)u->effect, rate, u->maximum);
}

struct effect_call call_of(const struct unit *u, int call)
{
    struct effect_call c = effect_good(u->effect, call, u->lent, u->places, u->rate, u->maximum);
    c.coefficient = u->coefficient;
    c.linear = u->linear;
    return c;
}

/* The state alone answers, and the places in use, the stores and a read that waits must say the same. */
int silent(const struct unit *u)
{
    const struct effect_call c = call_of(u, SILENT);
    struct effect_state state;
    double out[3] = {JUNK, JUNK, JUNK};
    uint32_t age = JUNK_AGE;
    int answer = -1;
    memcpy(&state, &u->state, sizeof state);
    if (effect_make(&state, &c, out, &age) == ROOM_ACCEPTED && memcmp(&state, &u->state, sizeof state) == 0) {
        answer = same(out[0], 1.0) ? 1 : same(out[0], 0.0) ? 0 : -1;
    }
    fact(u, AS_READ, answer == (holds_zeros(u) && !waits(u)), NULL);
    return answer;
}

/* The places in use: of the reverb a part of each line, of the others all that it needs. */

static unsigned parts_of(const struct unit *u)
{
    return u->effect == ROOM_REVERB ? LINES : effect_lined(u->effect) ? 1u : 0u;
}

static uint64_t part_start(const struct unit *u, unsigned part)
{
    return u->effect == ROOM_REVERB ? line_start(part) : 0u;
}

/* The reverb's rate is one of those that tests/c has the lengths of. */
static uint64_t part_length(const struct unit *u, unsigned part)
{
    unsigned i = 0;
    if (u->effect != ROOM_REVERB) {
        return needed(u, u->rate);
    }
    while (!same(tunings[i].rate, u->rate)) {
        i++;
    }
    return line_length(&tunings[i], part);
}

uint32_t places_in_use(const struct unit *u)
{
    uint64_t sum = 0;
    unsigned part;
    for (part = 0; part < parts_of(u); part++) {
        sum += part_length(u, part);
    }
    return (uint32_t)sum;
}

/* By parts: most are +0 throughout, which is soon seen. */
static int all_zero(const double *at, uint64_t count)
{
    static const double zeros[512];
    uint64_t i;
    for (i = 0; i < count; i += COUNT(zeros)) {
        const uint64_t part = count - i < COUNT(zeros) ? count - i : COUNT(zeros);
        if (memcmp(at + i, zeros, part * sizeof *at) != 0 && nonzero_in(at + i, part) > 0u) {
            return 0;
        }
    }
    return 1;
}

int holds_zeros(const struct unit *u)
{
    const room_reverb *r = &u->state.reverb;
    const room_phaser *p = &u->state.phaser;
    unsigned part;
    for (part = 0; part < parts_of(u); part++) {
        if (!all_zero(u->lent + part_start(u, part), part_length(u, part))) {
            return 0;
        }
    }
    if (u->effect == ROOM_REVERB) {
        return all_zero(r->comb_filter_state_l, 8) && all_zero(r->comb_filter_state_r, 8);
    }
    return u->effect != ROOM_PHASER || (all_zero(p->allpass_x1_l, 6) && all_zero(p->allpass_x1_r, 6) &&
                                        all_zero(p->allpass_y1_l, 6) && all_zero(p->allpass_y1_r, 6));
}

static const double sounds[] = {1.0,     -1.0,     0x1p-1074,        -0x1p-1074,
                                DBL_MAX, -DBL_MAX, (double)INFINITY, (double)NAN};

/* No call may read these places. All the sounds lie there, beginning with any of them. */
static void lay_sounds(double *at, uint64_t count)
{
    const uint64_t first = below(COUNT(sounds));
    uint64_t i;
    for (i = 0; i < count; i++) {
        at[i] = sounds[(first + i) % COUNT(sounds)];
    }
}

void lay_zeros(struct unit *u)
{
    const uint64_t how = below(3); /* all +0, all -0, or each drawn */
    unsigned part;
    uint64_t i;
    lay_sounds(u->lent, u->places);
    for (part = 0; part < parts_of(u); part++) {
        const uint64_t length = part_length(u, part);
        double *at = u->lent + part_start(u, part);
        uint64_t signs = how == 1u ? UINT64_MAX : 0u;
        for (i = 0; i < length; i++) {
            if (how == 2u && i % 64u == 0u) {
                signs = any_bits();
            }
            at[i] = (signs >> i % 64u & 1u) != 0u ? -0.0 : 0.0;
        }
    }
}

static uint32_t any_position(uint64_t length)
{
    return (uint32_t)(one_in(3) ? 0u : one_in(2) ? length - 1u : below(length));
}

void put_place(struct unit *u, uint64_t place, double x)
{
    u->lent[place] = x;
    ++*effect_count(u->effect, &u->state);
}

int put_sound(struct unit *u)
{
    room_phaser *p = &u->state.phaser;
    double *const numbers[] = {p->allpass_x1_l, p->allpass_x1_r, p->allpass_y1_l, p->allpass_y1_r};
    const double sound = sounds[below(COUNT(sounds))];
    unsigned part;
    if (u->effect == ROOM_TREMOLO) {
        return 0;
    }
    if (u->effect == ROOM_PHASER) {
        numbers[below(4)][below(6)] = sound;
    } else if (u->effect == ROOM_REVERB && one_in(2)) {
        *comb_store(&u->state.reverb, (unsigned)below(STORES)) = sound;
    } else {
        part = (unsigned)below(parts_of(u));
        put_place(u, part_start(u, part) + any_position(part_length(u, part)), sound);
    }
    return 1;
}

/* States that pass the state test, with zeros in every store and a count of 0. */

static double any_zero(void)
{
    return one_in(2) ? -0.0 : 0.0;
}

static double any_phase(void)
{
    const struct numbers phases = phases_accepted();
    return one_in(2) ? phases.list[below(phases.count)] : from_to(0.0, 1.0);
}

/* Primed, its distance is anywhere in the line, at the ends too. */
static void hand_delay(const struct unit *u, room_delay *s)
{
    const double last = (double)(needed(u, u->rate) - 1u);
    s->write_pos = any_position(needed(u, u->rate));
    s->delay_primed = one_in(3) ? 0u : one_in(2) ? 1u : 1u + (uint32_t)below(UINT32_MAX);
    s->smoothed_delay = s->delay_primed == 0u ? 0.0 : one_in(4) ? 1.0 : one_in(3) ? last : from_to(1.0, last);
    s->sample_rate = u->rate;
    s->delay_smooth_coef = u->coefficient;
    s->max_delay_secs = u->maximum;
    s->linear_time = u->linear;
}

static void hand_reverb(const struct unit *u, room_reverb *s)
{
    unsigned i;
    for (i = 0; i < LINES; i++) {
        *line_pos(s, i) = any_position(part_length(u, i));
    }
    for (i = 0; i < STORES; i++) {
        *comb_store(s, i) = any_zero();
    }
    s->sample_rate = u->rate;
}

static void hand_phaser(const struct unit *u, room_phaser *s)
{
    unsigned i;
    for (i = 0; i < 6u; i++) {
        s->allpass_x1_l[i] = any_zero();
        s->allpass_x1_r[i] = any_zero();
        s->allpass_y1_l[i] = any_zero();
        s->allpass_y1_r[i] = any_zero();
    }
    s->lfo_phase = any_phase();
    s->sample_rate = u->rate;
}

static void hand_chorus(const struct unit *u, room_chorus *s)
{
    unsigned i;
    s->write_pos = any_position(needed(u, u->rate));
    for (i = 0; i < 3u; i++) {
        s->lfo_phases[i] = any_phase();
    }
    s->sample_rate = u->rate;
}

static void hand_state(struct unit *u)
{
    struct effect_state *s = &u->state;
    switch (u->effect) {
    case ROOM_DELAY:
        hand_delay(u, &s->delay);
        break;
    case ROOM_CHORUS:
        hand_chorus(u, &s->chorus);
        break;
    case ROOM_FLANGER:
        s->flanger.write_pos = any_position(needed(u, u->rate) / 2u);
        s->flanger.lfo_phase = any_phase();
        s->flanger.sample_rate = u->rate;
        break;
    case ROOM_VIBRATO:
        s->vibrato.write_pos = any_position(needed(u, u->rate));
        s->vibrato.lfo_phase = any_phase();
        s->vibrato.sample_rate = u->rate;
        break;
    case ROOM_TREMOLO:
        s->tremolo.lfo_phase = any_phase();
        s->tremolo.sample_rate = u->rate;
        break;
    case ROOM_REVERB:
        hand_reverb(u, &s->reverb);
        break;
    case ROOM_TAPE_DELAY:
        hand_tape(u, &s->tape_delay, any_position(needed(u, u->rate)));
        break;
    default:
        hand_phaser(u, &s->phaser);
    }
}

/* Calls */

static int started(struct unit *u)
{
    const struct effect_call c = call_of(u, START);
    double out[3];
    uint32_t age = JUNK_AGE;
    lay_sounds(u->lent, u->places);
    return effect_make(&u->state, &c, out, &age) == ROOM_ACCEPTED;
}

struct unit unit_at(int effect, double rate, double maximum)
{
    struct unit u;
    memset(&u, 0, sizeof u);
    u.effect = effect;
    u.rate = rate;
    u.maximum = maximum;
    u.lent = memory;
    u.places = needed(&u, rate);
    check(u.places <= LENT && started(&u), "a start", (unsigned)effect);
    return u;
}

/* Something to clear: after it the unit is not silent, but for the tremolo. A tape delay may be in the middle of a tick. */
static int sounds_after_ticks(struct unit *u)
{
    uint64_t ticks = 1u + below(60);
    uint32_t refused = 0, age;
    double out[3];
    for (; ticks > 0u; ticks--) {
        const struct effect_call c = draw_sounding_tick(u);
        refused |= whole_tick(u, &c, out, &age);
    }
    if (u->effect == ROOM_TAPE_DELAY && one_in(2)) {
        const struct effect_call c = draw_sounding_tick(u);
        refused |= effect_make(&u->state, &c, out, &age);
    }
    return refused == 0u && silent(u) == (u->effect == ROOM_TREMOLO);
}

static int cleared(struct unit *u, int call)
{
    struct effect_call c;
    double out[3];
    uint32_t age = JUNK_AGE;
    if (!started(u) || !sounds_after_ticks(u)) {
        return 0;
    }
    if (call == RETUNE) {
        const double rate = any_rate(u->effect);
        u->rate = needed(u, rate) <= u->places ? rate : u->rate;
    }
    c = call_of(u, call);
    return effect_make(&u->state, &c, out, &age) == ROOM_ACCEPTED;
}

int make_silent(struct unit *u, int effect, enum way way)
{
    memset(u, 0, sizeof *u);
    u->effect = effect;
    u->rate = any_rate(effect);
    u->maximum = good_maximum();
    u->coefficient = good_coefficient();
    u->linear = one_in(2) ? 0u : one_in(2) ? 1u : 1u + (uint32_t)below(UINT32_MAX);
    u->lent = memory;
    u->places = needed(u, u->rate) + (effect_lined(effect) && !one_in(3) ? below(100) : 0u);
    if (way == HANDED_IN) {
        hand_state(u);
        lay_zeros(u); /* of which the state counts none */
        return 1;
    }
    return way == STARTED ? started(u) : cleared(u, way == WAS_RESET ? RESET : RETUNE);
}
