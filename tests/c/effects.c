/* The calls of all effects in one form. */
#include "effects.h"

#include <string.h>

unsigned effect_ports(int effect)
{
    static const unsigned counts[EFFECTS_END] = {0, 4, 3, 4, 3, 3, 5, 4, 4};
    return counts[effect];
}

unsigned effect_curves(int effect)
{
    static const unsigned counts[EFFECTS_END] = {0, 1, 4, 3, 2, 2, 0, 3, 1};
    return counts[effect];
}

unsigned effect_samples(int effect)
{
    static const unsigned counts[EFFECTS_END] = {0, 1, 3, 3, 1, 1, 2, 3, 1};
    return counts[effect];
}

int effect_lined(int effect)
{
    return effect != ROOM_TREMOLO && effect != ROOM_PHASER;
}

int effect_aged(int effect)
{
    return (effect >= ROOM_DELAY && effect <= ROOM_VIBRATO) || effect == ROOM_TAPE_DELAY;
}

uint32_t *effect_count(int effect, struct effect_state *state)
{
    uint32_t *const counts[EFFECTS_END] = {NULL,
                                           &state->delay.nonzero_places,
                                           &state->chorus.nonzero_places,
                                           &state->flanger.nonzero_places,
                                           &state->vibrato.nonzero_places,
                                           NULL,
                                           &state->reverb.nonzero_places,
                                           NULL,
                                           &state->tape_delay.nonzero_places};
    return counts[effect];
}

int effect_has(int effect, int call)
{
    return call == STORE ? effect == ROOM_TAPE_DELAY : effect_lined(effect) || call != RETUNE;
}

unsigned effect_answers(int effect, int call)
{
    return call == TICK || call == STORE ? effect_samples(effect) : call == SILENT ? 1u : 0u;
}

void effect_take_turn(struct effect_state *state, int call)
{
    if (call == STORE) {
        state->tape_delay.waiting = 1u;
        state->tape_delay.kept_mix = 0.5;
    }
}

int effect_can_refuse(int effect, unsigned number)
{
    return !((number == 2u && effect != ROOM_DELAY && effect != ROOM_TAPE_DELAY) || (number == 3u && !effect_lined(effect)) ||
             (number == 6u && effect == ROOM_REVERB));
}

struct effect_call effect_good(int effect, int call, double *lent, uint64_t places, double rate, double maximum)
{
    struct effect_call c;
    unsigned i;
    memset(&c, 0, sizeof c);
    c.effect = effect;
    c.call = call;
    c.lent = lent;
    c.places = places;
    c.rate = rate;
    c.maximum = maximum;
    c.coefficient = 0.5;
    for (i = 0; i < 5u; i++) {
        c.ports[i] = room_set(i == 0u ? 4.0 : 0.5);
    }
    c.curves[0] = 1.0;
    return c;
}

static uint32_t made_delay(room_delay *s, const struct effect_call *c, double *out, uint32_t *age, int *yes)
{
    const room_port *p = c->ports;
    switch (c->call) {
    case START:
        return room_delay_start(s, c->lent, c->places, c->rate, c->maximum, c->coefficient, c->linear);
    case RETUNE:
        return room_delay_retune(s, c->lent, c->places, c->rate, c->coefficient);
    case RESET:
        return room_delay_reset(s, c->lent, c->places);
    case TICK:
        return room_delay_tick(s, c->lent, c->places, p[0], p[1], p[2], p[3], c->curves[0], out, age);
    default:
        return room_delay_silent(s, yes);
    }
}

static uint32_t made_chorus(room_chorus *s, const struct effect_call *c, double *out, uint32_t *age, int *yes)
{
    const room_port *p = c->ports;
    switch (c->call) {
    case START:
        return room_chorus_start(s, c->lent, c->places, c->rate);
    case RETUNE:
        return room_chorus_retune(s, c->lent, c->places, c->rate);
    case RESET:
        return room_chorus_reset(s, c->lent, c->places);
    case TICK:
        return room_chorus_tick(s, c->lent, c->places, p[0], p[1], p[2], c->curves[0], c->curves + 1, out, age);
    default:
        return room_chorus_silent(s, yes);
    }
}

static uint32_t made_flanger(room_flanger *s, const struct effect_call *c, double *out, uint32_t *age, int *yes)
{
    const room_port *p = c->ports;
    switch (c->call) {
    case START:
        return room_flanger_start(s, c->lent, c->places, c->rate);
    case RETUNE:
        return room_flanger_retune(s, c->lent, c->places, c->rate);
    case RESET:
        return room_flanger_reset(s, c->lent, c->places);
    case TICK:
        return room_flanger_tick(s, c->lent, c->places, p[0], p[1], p[2], p[3], c->curves[0], c->curves + 1, out, age);
    default:
        return room_flanger_silent(s, yes);
    }
}

static uint32_t made_vibrato(room_vibrato *s, const struct effect_call *c, double *out, uint32_t *age, int *yes)
{
    const room_port *p = c->ports;
    switch (c->call) {
    case START:
        return room_vibrato_start(s, c->lent, c->places, c->rate);
    case RETUNE:
        return room_vibrato_retune(s, c->lent, c->places, c->rate);
    case RESET:
        return room_vibrato_reset(s, c->lent, c->places);
    case TICK:
        return room_vibrato_tick(s, c->lent, c->places, p[0], p[1], p[2], c->curves[0], c->curves[1], out, age);
    default:
        return room_vibrato_silent(s, yes);
    }
}

static uint32_t made_tremolo(room_tremolo *s, const struct effect_call *c, double *out, int *yes)
{
    const room_port *p = c->ports;
    switch (c->call) {
    case START:
        return room_tremolo_start(s, c->rate);
    case RESET:
        return room_tremolo_reset(s);
    case TICK:
        return room_tremolo_tick(s, p[0], p[1], p[2], c->curves[0], c->curves[1], out);
    default:
        return room_tremolo_silent(s, yes);
    }
}

static uint32_t made_reverb(room_reverb *s, const struct effect_call *c, double *out, int *yes)
{
    const room_port *p = c->ports;
    switch (c->call) {
    case START:
        return room_reverb_start(s, c->lent, c->places, c->rate);
    case RETUNE:
        return room_reverb_retune(s, c->lent, c->places, c->rate);
    case RESET:
        return room_reverb_reset(s, c->lent, c->places);
    case TICK:
        return room_reverb_tick(s, c->lent, c->places, p[0], p[1], p[2], p[3], p[4], out);
    default:
        return room_reverb_silent(s, yes);
    }
}

static uint32_t made_phaser(room_phaser *s, const struct effect_call *c, double *out, int *yes)
{
    const room_port *p = c->ports;
    switch (c->call) {
    case START:
        return room_phaser_start(s, c->rate);
    case RESET:
        return room_phaser_reset(s);
    case TICK:
        return room_phaser_tick(s, p[0], p[1], p[2], p[3], c->curves[0], c->curves[1], c->curves[2], out);
    default:
        return room_phaser_silent(s, yes);
    }
}

static uint32_t made_tape_delay(room_tape_delay *s, const struct effect_call *c, double *out, uint32_t *age, int *yes)
{
    const room_port *p = c->ports;
    switch (c->call) {
    case START:
        return room_tape_delay_start(s, c->lent, c->places, c->rate, c->coefficient);
    case RETUNE:
        return room_tape_delay_retune(s, c->lent, c->places, c->rate, c->coefficient);
    case RESET:
        return room_tape_delay_reset(s, c->lent, c->places);
    case TICK:
        return room_tape_delay_read_half(s, c->lent, c->places, p[0], p[1], p[2], p[3], out, age);
    case STORE:
        return room_tape_delay_store_half(s, c->lent, c->places, c->curves[0], out);
    default:
        return room_tape_delay_silent(s, yes);
    }
}

uint32_t effect_make(struct effect_state *state, const struct effect_call *c, double out[3], uint32_t *age)
{
    int yes = 7;
    const uint32_t number = c->effect == ROOM_DELAY     ? made_delay(&state->delay, c, out, age, &yes)
                            : c->effect == ROOM_CHORUS  ? made_chorus(&state->chorus, c, out, age, &yes)
                            : c->effect == ROOM_FLANGER ? made_flanger(&state->flanger, c, out, age, &yes)
                            : c->effect == ROOM_VIBRATO ? made_vibrato(&state->vibrato, c, out, age, &yes)
                            : c->effect == ROOM_TREMOLO ? made_tremolo(&state->tremolo, c, out, &yes)
                            : c->effect == ROOM_REVERB  ? made_reverb(&state->reverb, c, out, &yes)
                            : c->effect == ROOM_PHASER  ? made_phaser(&state->phaser, c, out, &yes)
                                                        : made_tape_delay(&state->tape_delay, c, out, age, &yes);
    if (c->call == SILENT) {
        out[0] = yes;
    }
    return number;
}
