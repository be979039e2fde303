/* Each effect's calls with the numbers a host has to work out for them, and the table of effects. */
#include "curves.h"
#include "effects.h"

#include <math.h>

/* A control's number, or what it comes to if unset: for the numbers that are the host's, which no tick has a default for. */
static double control_value(const unit *u, int which)
{
    const room_port port = u->controls[which];
    return port.set ? port.value : u->kind->controls[which].initial;
}

/* Delay. Whoever sets the time in seconds wants it linear: then the tick reads it and no power is needed. */

enum { DELAY_TIME, DELAY_SECONDS, DELAY_FEEDBACK, DELAY_MIX, DELAY_MAX };

static uint32_t delay_start(unit *u, double rate)
{
    const uint32_t linear = u->controls[DELAY_SECONDS].set ? 1u : 0u;
    const uint32_t refused = room_delay_start(&u->state.delay, u->memory, u->places, rate, control_value(u, DELAY_MAX),
                                              delay_coefficient(rate), linear);
    u->milliseconds = delay_milliseconds(u->state.delay.max_delay_secs, control_value(u, DELAY_TIME));
    return refused;
}

static uint32_t delay_retune(unit *u, double rate)
{
    return room_delay_retune(&u->state.delay, u->memory, u->places, rate, delay_coefficient(rate));
}

static uint32_t delay_reset(unit *u)
{
    return room_delay_reset(&u->state.delay, u->memory, u->places);
}

static uint32_t delay_silent(const unit *u, int *silent)
{
    return room_delay_silent(&u->state.delay, silent);
}

static uint32_t delay_tick(unit *u, double audio, double out[3])
{
    return room_delay_tick(&u->state.delay, u->memory, u->places, room_set(audio), u->controls[DELAY_SECONDS],
                           u->controls[DELAY_FEEDBACK], u->controls[DELAY_MIX], u->milliseconds, out, &u->age);
}

/* Chorus */

enum { CHORUS_RATE, CHORUS_DEPTH, CHORUS_MIX };

static uint32_t chorus_start(unit *u, double rate)
{
    u->frequency = chorus_frequency(control_value(u, CHORUS_RATE));
    return room_chorus_start(&u->state.chorus, u->memory, u->places, rate);
}

static uint32_t chorus_retune(unit *u, double rate)
{
    return room_chorus_retune(&u->state.chorus, u->memory, u->places, rate);
}

static uint32_t chorus_reset(unit *u)
{
    return room_chorus_reset(&u->state.chorus, u->memory, u->places);
}

static uint32_t chorus_silent(const unit *u, int *silent)
{
    return room_chorus_silent(&u->state.chorus, silent);
}

static uint32_t chorus_tick(unit *u, double audio, double out[3])
{
    room_chorus *state = &u->state.chorus;
    double sines[3];
    for (int voice = 0; voice < 3; voice++)
        sines[voice] = phase_sine(state->lfo_phases[voice]);
    return room_chorus_tick(state, u->memory, u->places, room_set(audio), u->controls[CHORUS_DEPTH], u->controls[CHORUS_MIX],
                            u->frequency, sines, out, &u->age);
}

/* Flanger. The spread is the host's: the second sine runs ahead by half of it, up to half a turn. */

enum { FLANGER_RATE, FLANGER_DEPTH, FLANGER_FEEDBACK, FLANGER_MIX, FLANGER_SPREAD };

static uint32_t flanger_start(unit *u, double rate)
{
    u->frequency = flanger_frequency(control_value(u, FLANGER_RATE));
    u->phase_offset = clamp(control_value(u, FLANGER_SPREAD), 0.0, 1.0) * 0.5;
    return room_flanger_start(&u->state.flanger, u->memory, u->places, rate);
}

static uint32_t flanger_retune(unit *u, double rate)
{
    return room_flanger_retune(&u->state.flanger, u->memory, u->places, rate);
}

static uint32_t flanger_reset(unit *u)
{
    return room_flanger_reset(&u->state.flanger, u->memory, u->places);
}

static uint32_t flanger_silent(const unit *u, int *silent)
{
    return room_flanger_silent(&u->state.flanger, silent);
}

static uint32_t flanger_tick(unit *u, double audio, double out[3])
{
    room_flanger *state = &u->state.flanger;
    const double sines[2] = {phase_sine(state->lfo_phase), phase_sine(state->lfo_phase + u->phase_offset)};
    return room_flanger_tick(state, u->memory, u->places, room_set(audio), u->controls[FLANGER_DEPTH],
                             u->controls[FLANGER_FEEDBACK], u->controls[FLANGER_MIX], u->frequency, sines, out, &u->age);
}

/* Vibrato */

enum { VIBRATO_RATE, VIBRATO_DEPTH, VIBRATO_MIX };

static uint32_t vibrato_start(unit *u, double rate)
{
    u->frequency = vibrato_frequency(control_value(u, VIBRATO_RATE));
    return room_vibrato_start(&u->state.vibrato, u->memory, u->places, rate);
}

static uint32_t vibrato_retune(unit *u, double rate)
{
    return room_vibrato_retune(&u->state.vibrato, u->memory, u->places, rate);
}

static uint32_t vibrato_reset(unit *u)
{
    return room_vibrato_reset(&u->state.vibrato, u->memory, u->places);
}

static uint32_t vibrato_silent(const unit *u, int *silent)
{
    return room_vibrato_silent(&u->state.vibrato, silent);
}

static uint32_t vibrato_tick(unit *u, double audio, double out[3])
{
    room_vibrato *state = &u->state.vibrato;
    return room_vibrato_tick(state, u->memory, u->places, room_set(audio), u->controls[VIBRATO_DEPTH],
                             u->controls[VIBRATO_MIX], u->frequency, phase_sine(state->lfo_phase), out, &u->age);
}

/* Tremolo. It has no lines and no retune. */

enum { TREMOLO_RATE, TREMOLO_DEPTH, TREMOLO_SHAPE };

static uint32_t tremolo_start(unit *u, double rate)
{
    u->frequency = tremolo_frequency(control_value(u, TREMOLO_RATE));
    return room_tremolo_start(&u->state.tremolo, rate);
}

static uint32_t tremolo_reset(unit *u)
{
    return room_tremolo_reset(&u->state.tremolo);
}

static uint32_t tremolo_silent(const unit *u, int *silent)
{
    return room_tremolo_silent(&u->state.tremolo, silent);
}

static uint32_t tremolo_tick(unit *u, double audio, double out[3])
{
    room_tremolo *state = &u->state.tremolo;
    return room_tremolo_tick(state, room_set(audio), u->controls[TREMOLO_DEPTH], u->controls[TREMOLO_SHAPE], u->frequency,
                             phase_sine(state->lfo_phase), out);
}

/* Reverb. It has no curve numbers. */

enum { REVERB_SIZE, REVERB_DAMPING, REVERB_MIX, REVERB_PREDELAY };

static uint32_t reverb_start(unit *u, double rate)
{
    return room_reverb_start(&u->state.reverb, u->memory, u->places, rate);
}

static uint32_t reverb_retune(unit *u, double rate)
{
    return room_reverb_retune(&u->state.reverb, u->memory, u->places, rate);
}

static uint32_t reverb_reset(unit *u)
{
    return room_reverb_reset(&u->state.reverb, u->memory, u->places);
}

static uint32_t reverb_silent(const unit *u, int *silent)
{
    return room_reverb_silent(&u->state.reverb, silent);
}

static uint32_t reverb_tick(unit *u, double audio, double out[3])
{
    return room_reverb_tick(&u->state.reverb, u->memory, u->places, room_set(audio), u->controls[REVERB_SIZE],
                            u->controls[REVERB_DAMPING], u->controls[REVERB_MIX], u->controls[REVERB_PREDELAY], out);
}

/* Phaser. It has no lines and no retune. Depth and spread are the host's: they go into the coefficients. */

enum { PHASER_RATE, PHASER_DEPTH, PHASER_FEEDBACK, PHASER_MIX, PHASER_STAGES, PHASER_SPREAD };

static uint32_t phaser_start(unit *u, double rate)
{
    u->frequency = flanger_frequency(control_value(u, PHASER_RATE));
    u->depth = clamp(control_value(u, PHASER_DEPTH), 0.0, 1.0);
    u->phase_offset = clamp(control_value(u, PHASER_SPREAD), 0.0, 1.0) * 0.5;
    return room_phaser_start(&u->state.phaser, rate);
}

static uint32_t phaser_reset(unit *u)
{
    return room_phaser_reset(&u->state.phaser);
}

static uint32_t phaser_silent(const unit *u, int *silent)
{
    return room_phaser_silent(&u->state.phaser, silent);
}

static uint32_t phaser_tick(unit *u, double audio, double out[3])
{
    room_phaser *state = &u->state.phaser;
    const double left = phase_sine(state->lfo_phase);
    const double right = phase_sine(state->lfo_phase + u->phase_offset);
    return room_phaser_tick(state, room_set(audio), u->controls[PHASER_FEEDBACK], u->controls[PHASER_MIX],
                            u->controls[PHASER_STAGES], u->frequency, phaser_coefficient(left, u->depth, state->sample_rate),
                            phaser_coefficient(right, u->depth, state->sample_rate), out);
}

/* Tape delay. A tick is its two calls, and between them what the first answers is saturated. */

enum { TAPE_TIME, TAPE_FEEDBACK, TAPE_MIX };

static uint32_t tape_start(unit *u, double rate)
{
    return room_tape_delay_start(&u->state.tape, u->memory, u->places, rate, delay_coefficient(rate));
}

static uint32_t tape_retune(unit *u, double rate)
{
    return room_tape_delay_retune(&u->state.tape, u->memory, u->places, rate, delay_coefficient(rate));
}

static uint32_t tape_reset(unit *u)
{
    return room_tape_delay_reset(&u->state.tape, u->memory, u->places);
}

static uint32_t tape_silent(const unit *u, int *silent)
{
    return room_tape_delay_silent(&u->state.tape, silent);
}

/* A refused read half answers a sum of +0, and that is played. */
static uint32_t tape_tick(unit *u, double audio, double out[3])
{
    room_tape_delay *state = &u->state.tape;
    const uint32_t refused = room_tape_delay_read_half(state, u->memory, u->places, room_set(audio), u->controls[TAPE_TIME],
                                                       u->controls[TAPE_FEEDBACK], u->controls[TAPE_MIX], out, &u->age);
    if (refused != 0)
        return refused;
    return room_tape_delay_store_half(state, u->memory, u->places, tape_saturated(out[0]), out);
}

uint64_t unit_places(const unit *u, double sample_rate)
{
    const int is_delay = u->kind->start == delay_start;
    return room_places_needed(u->kind->number, sample_rate, is_delay ? control_value(u, DELAY_MAX) : 0.0);
}

int unit_agrees(const unit *u, trouble *why)
{
    if (u->kind->start != delay_start || !u->controls[DELAY_SECONDS].set)
        return 1;
    if (u->controls[DELAY_TIME].set)
        return trouble_say(why, "delay.time and delay.seconds are both set: a delay goes by one of them");
    const double seconds = u->controls[DELAY_SECONDS].value;
    const double maximum = control_value(u, DELAY_MAX);
    if (seconds > maximum)
        return trouble_say(why, "delay.seconds=%g is more than delay.max, which is %g", seconds, maximum);
    return 1;
}

/* Names, ranges and initial settings are quiver's ports'; `seconds` and `max` are its linear time and its maximum. */
const effect effects[EFFECT_COUNT] = {
    {"delay", ROOM_DELAY, 1, delay_start, delay_retune, delay_reset, delay_silent, delay_tick,
     {{"time", 0.0, 1.0, 0.5, "1 ms to max, exponential: max in ms to this power"},
      {"seconds", 0.0, 60.0, NAN, "instead of time: the time in seconds, at most max; 0 is one sample"},
      {"feedback", 0.0, 0.99, 0.0, "how much of an echo is echoed again"},
      {"mix", 0.0, 1.0, 0.5, "0 dry to 1 wet"},
      {"max", 0.001, 60.0, 2.0, "the longest time in seconds, for which memory is lent"}}},
    {"chorus", ROOM_CHORUS, 3, chorus_start, chorus_retune, chorus_reset, chorus_silent, chorus_tick,
     {{"rate", 0.0, 1.0, 0.3, "0.1 to 5 Hz, exponential"},
      {"depth", 0.0, 1.0, 0.5, "how far the three voices move, up to 25 ms"},
      {"mix", 0.0, 1.0, 0.5, "0 dry to 1 wet"}}},
    {"flanger", ROOM_FLANGER, 3, flanger_start, flanger_retune, flanger_reset, flanger_silent, flanger_tick,
     {{"rate", 0.0, 1.0, 0.3, "0.05 to 5 Hz, exponential"},
      {"depth", 0.0, 1.0, 0.5, "how far the sweep goes, up to 9 ms"},
      {"feedback", -0.95, 0.95, 0.0, "how much is fed back, upside down if below 0"},
      {"mix", 0.0, 1.0, 0.5, "0 dry to 1 wet"},
      {"spread", 0.0, 1.0, 0.5, "how far the right sweep runs ahead of the left, up to half a turn"}}},
    {"vibrato", ROOM_VIBRATO, 1, vibrato_start, vibrato_retune, vibrato_reset, vibrato_silent, vibrato_tick,
     {{"rate", 0.0, 1.0, 0.3, "0.1 to 15 Hz, exponential"},
      {"depth", 0.0, 1.0, 0.5, "how far the pitch moves"},
      {"mix", 0.0, 1.0, 1.0, "0 dry to 1 wet"}}},
    {"tremolo", ROOM_TREMOLO, 1, tremolo_start, tremolo_start, tremolo_reset, tremolo_silent, tremolo_tick,
     {{"rate", 0.0, 1.0, 0.3, "0.1 to 20 Hz, exponential"},
      {"depth", 0.0, 1.0, 0.5, "how soft it gets"},
      {"shape", 0.0, 1.0, 0.0, "0 sine to 1 triangle"}}},
    {"reverb", ROOM_REVERB, 2, reverb_start, reverb_retune, reverb_reset, reverb_silent, reverb_tick,
     {{"size", 0.0, 1.0, 0.5, "how long the room rings"},
      {"damping", 0.0, 1.0, 0.5, "0 bright to 1 dark"},
      {"mix", 0.0, 1.0, 0.5, "0 dry to 1 wet"},
      {"predelay", 0.0, 1.0, 0.0, "0 to 100 ms"}}},
    {"phaser", ROOM_PHASER, 3, phaser_start, phaser_start, phaser_reset, phaser_silent, phaser_tick,
     {{"rate", 0.0, 1.0, 0.3, "0.05 to 5 Hz, exponential"},
      {"depth", 0.0, 1.0, 0.7, "how far the sweep goes, from 200 Hz up to 4000"},
      {"feedback", -0.95, 0.95, 0.0, "how much is fed back, upside down if below 0"},
      {"mix", 0.0, 1.0, 0.5, "0 dry to 1 wet"},
      {"stages", 0.0, 1.0, 1.0, "two all-passes a side below 0.33, four below 0.66, else six"},
      {"spread", 0.0, 1.0, 0.5, "how far the right sweep runs ahead of the left, up to half a turn"}}},
    {"tape", ROOM_TAPE_DELAY, 1, tape_start, tape_retune, tape_reset, tape_silent, tape_tick,
     {{"time", 0.0, 12.0, 0.5, "in seconds; 0 is one sample"},
      {"feedback", 0.0, 1.5, 0.0, "how much of an echo is echoed again; above 1 it grows until saturation holds it"},
      {"mix", 0.0, 1.0, 0.5, "0 dry to 1 wet"}}},
};
