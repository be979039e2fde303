/* Draws ticks with zero audio, ticks that sound, and calls that must be refused. */
#include "lamp.h"

#include <string.h>

/* Document 01: "Delay, chorus, flanger and reverb apply it; vibrato and tremolo do not." Phaser and tape delay do. */
unsigned zero_audios(int effect)
{
    return effect == ROOM_VIBRATO || effect == ROOM_TREMOLO ? NO_NUMBER : AUDIOS;
}

/* An unset port's number is not read. */
static room_port unset(void)
{
    room_port port = room_unset();
    port.value = any_float();
    return port;
}

static room_port zero_audio(enum audio audio)
{
    const double numbers[AUDIOS] = {0.0, 0.0, -0.0, any_nan(), (double)INFINITY, -(double)INFINITY};
    return audio == UNSET ? unset() : room_set(numbers[audio]);
}

/* Any number but NaN: the ends of what a tick clamps to, numbers far beyond and around them. */
static double control(void)
{
    static const double ends[] = {0.0,  -0.0, 1.0,  -1.0, DBL_MAX,   -DBL_MAX,   (double)INFINITY, -(double)INFINITY,
                                  0.5,  0.33, 0.66, 0.99, 0x1p-1074, -0x1p-1074, DBL_MIN,          -DBL_MIN,
                                  0.95, 2.0,  -0.5, 60.0};
    return one_in(2) ? from_to(-1.2, 1.2) : ends[below(COUNT(ends))];
}

static double milliseconds(const struct unit *u)
{
    const double any = any_float();
    if (one_in(3)) {
        return one_in(2) ? (double)INFINITY : -(double)INFINITY;
    }
    return one_in(2) && !isnan(any) ? any : from_to(-1.0, 1100.0) * u->maximum;
}

/* A curve number that the tick accepts: a frequency, or a sine or coefficient; the delay's milliseconds. */
static double curve(const struct unit *u, unsigned which)
{
    static const double frequencies[] = {0.0, -0.0, 32.0, 0x1p-1074};
    static const double sines[] = {0.0, -0.0, 1.0, -1.0, 0x1p-1074, -0x1p-1074};
    if (u->effect == ROOM_DELAY) {
        return milliseconds(u);
    }
    if (which == 0u) {
        return one_in(2) ? frequencies[below(COUNT(frequencies))] : from_to(0.0, 32.0);
    }
    return one_in(2) ? sines[below(COUNT(sines))] : from_to(-1.0, 1.0);
}

/* Whether a tick reads the port, and the curve number: the delay's time is one of them, by its mode. */

static int reads_port(const struct unit *u, unsigned port)
{
    return port < effect_ports(u->effect) && !(u->effect == ROOM_DELAY && port == 1u && u->linear == 0u);
}

static int reads_curve(const struct unit *u, unsigned which)
{
    return which < effect_curves(u->effect) && !(u->effect == ROOM_DELAY && u->linear != 0u);
}

/* What the tick does not read may be anything. */
static struct effect_call with_controls(const struct unit *u)
{
    struct effect_call c = call_of(u, TICK);
    unsigned i;
    for (i = 1; i < COUNT(c.ports); i++) {
        const double width = u->effect == ROOM_TAPE_DELAY && i == 1u ? 12.0 : 1.0; /* its time goes up to that */
        c.ports[i] = one_in(5) ? unset() : room_set(reads_port(u, i) ? control() * width : any_float());
    }
    for (i = 0; i < COUNT(c.curves); i++) {
        c.curves[i] = reads_curve(u, i) ? curve(u, i) : any_float();
    }
    return c;
}

struct effect_call draw_tick(const struct unit *u, enum audio audio)
{
    struct effect_call c = with_controls(u);
    c.ports[0] = zero_audio(audio);
    return c;
}

struct effect_call draw_sounding_tick(const struct unit *u)
{
    struct effect_call c = with_controls(u);
    const double sound = from_to(0.1, 1.0);
    c.ports[0] = room_set(one_in(2) ? sound : -sound);
    return c;
}

struct effect_call draw_store(const struct unit *u)
{
    struct effect_call c = with_controls(u);
    c.call = STORE;
    c.curves[0] = one_in(2) ? -0.0 : 0.0;
    return c;
}

/* Refused calls, by their number */

/* Of a tape delay the half whose turn it is. */
static int in_turn(const struct unit *u, int call)
{
    return call == TICK && waits(u) ? STORE : call;
}

/* The call's own rate is refused, which a retune alone has here. */
static void refuse_rate(struct effect_call *c)
{
    const struct numbers rates = rates_refused();
    c->call = RETUNE;
    c->rate = rates.list[below(rates.count)];
}

static void refuse_coefficient(struct effect_call *c)
{
    static const double wrong[] = {1.0, 2.0, -0x1p-1074, (double)INFINITY, (double)NAN};
    c->call = RETUNE;
    c->coefficient = wrong[below(COUNT(wrong))];
}

/* A place short of what it needs, or no places: of a retune, a reset or a tick, or the store half where it is its turn. */
static void refuse_memory(const struct unit *u, struct effect_call *c)
{
    c->call = in_turn(u, (int)(RETUNE + below(SILENT - RETUNE)));
    c->places = one_in(8) ? 0u : needed(u, c->rate) - 1u;
}

/* What is kept while no read waits is +0 by its bits, and a mix that is kept lies from 0 to 1. */
static void refuse_kept(room_tape_delay *s)
{
    static const double kept[] = {-0.0, 0x1p-1074, 1.0, (double)NAN};
    static const double mixes[] = {-0x1p-1074, 1.5, (double)INFINITY, (double)NAN};
    double *const numbers[] = {&s->kept_audio, &s->kept_read, &s->kept_mix};
    s->waiting = (uint32_t)below(2);
    if (s->waiting != 0u) {
        s->kept_mix = mixes[below(COUNT(mixes))];
    } else {
        *numbers[below(3)] = kept[below(COUNT(kept))];
    }
}

/* The copy's rate, count, position or phase is one that no start leads to, or what a tape delay keeps is. */
static void refuse_state(const struct unit *u, struct effect_call *c, struct effect_state *s)
{
    const struct numbers rates = rates_refused();
    const struct numbers phases = phases_refused();
    const double phase = phases.list[below(phases.count)];
    double *const sample_rates[EFFECTS_END] = {
        0, &s->delay.sample_rate, &s->chorus.sample_rate, &s->flanger.sample_rate, &s->vibrato.sample_rate,
        &s->tremolo.sample_rate, &s->reverb.sample_rate, &s->phaser.sample_rate, &s->tape_delay.sample_rate};
    uint32_t *const positions[EFFECTS_END] = {
        0, &s->delay.write_pos, &s->chorus.write_pos, &s->flanger.write_pos, &s->vibrato.write_pos,
        0, line_pos(&s->reverb, (unsigned)below(LINES)), 0, &s->tape_delay.write_pos};
    double *const turns[EFFECTS_END] = {
        0, 0, &s->chorus.lfo_phases[below(3)], &s->flanger.lfo_phase, &s->vibrato.lfo_phase,
        &s->tremolo.lfo_phase, 0, &s->phaser.lfo_phase, 0};
    c->call = (int)(RETUNE + below(CALLS - RETUNE));
    c->call = effect_has(u->effect, c->call) ? c->call : TICK;
    if (effect_lined(u->effect) && one_in(4)) {
        *effect_count(u->effect, s) = one_in(2) ? UINT32_MAX : places_in_use(u) + 1u;
    } else if (u->effect == ROOM_TAPE_DELAY && one_in(2)) {
        refuse_kept(&s->tape_delay);
    } else if (positions[u->effect] != 0 && one_in(2)) {
        *positions[u->effect] = (uint32_t)needed(u, u->rate);
    } else if (turns[u->effect] != 0 && one_in(2)) {
        *turns[u->effect] = phase;
    } else {
        *sample_rates[u->effect] = rates.list[below(rates.count)];
    }
}

/* One of the controls that the tick reads. */
static void refuse_control(const struct unit *u, struct effect_call *c)
{
    unsigned port;
    do {
        port = 1u + (unsigned)below(effect_ports(u->effect) - 1u);
    } while (!reads_port(u, port));
    c->ports[port] = room_set(any_nan());
}

/* A tape delay's is a store half, of a copy in which a read waits. */
static void refuse_curve(const struct unit *u, struct effect_call *c, struct effect_state *state)
{
    const struct numbers frequencies = frequencies_refused();
    const struct numbers sines = sines_refused();
    const unsigned which = (unsigned)below(effect_curves(u->effect));
    const int saturated = u->effect == ROOM_TAPE_DELAY;
    c->call = saturated ? STORE : c->call;
    effect_take_turn(state, c->call);
    c->curves[which] = u->effect == ROOM_DELAY    ? any_nan()
                       : which == 0u && !saturated ? frequencies.list[below(frequencies.count)]
                                                   : sines.list[below(sines.count)];
}

/* A retune is the one call here that is refused by 1 and 2, and a delay reads a curve number in one mode alone. Turns are the
   tape delay's alone, whose read half, the one that has controls, is out of turn while a read waits. */
static int can_refuse(const struct unit *u, uint32_t number)
{
    return effect_can_refuse(u->effect, number) && (number != 1u || effect_has(u->effect, RETUNE)) &&
           (number != 6u || reads_curve(u, 0)) && (number != 5u || !waits(u)) &&
           (number != 7u || u->effect == ROOM_TAPE_DELAY);
}

uint32_t draw_refused(const struct unit *u, struct effect_call *c, struct effect_state *state)
{
    uint32_t number;
    do {
        number = 1u + (uint32_t)below(7);
    } while (!can_refuse(u, number));
    *c = draw_tick(u, (enum audio)below(zero_audios(u->effect)));
    memcpy(state, &u->state, sizeof *state);
    if (number == 1u) {
        refuse_rate(c);
    } else if (number == 2u) {
        refuse_coefficient(c);
    } else if (number == 3u) {
        refuse_memory(u, c);
    } else if (number == 4u) {
        refuse_state(u, c, state);
    } else if (number == 5u) {
        refuse_control(u, c);
    } else if (number == 6u) {
        refuse_curve(u, c, state);
    } else {
        c->call = waits(u) ? TICK : STORE;
    }
    return number;
}
