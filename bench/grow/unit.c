/* Units of the effects with lines, and their calls. Every port is set; audio, controls, frequency and sines move from tick to
   tick. A delay's time stands at half its maximum, as a player leaves it, or is swept over half its line: the ordinary delay's
   and the tape's, whose maximum is 12 s. */
#include "grow.h"

#include <math.h>
#include <stdio.h>
#include <stdlib.h>

#define INPUTS 1024u

static struct {
    double audio, control, frequency, sines[3];
} inputs[INPUTS];

static void fill_inputs(void)
{
    unsigned i;
    for (i = 0; i < INPUTS; i++) {
        const double x = 6.283185307179586 * i / INPUTS;
        inputs[i].audio = 0.5 * sin(7.0 * x) + 0.25 * cos(31.0 * x);
        inputs[i].control = 0.5 + 0.25 * sin(x);
        inputs[i].frequency = 4.0 + 2.0 * cos(x);
        inputs[i].sines[0] = sin(x);
        inputs[i].sines[1] = sin(x + 1.0);
        inputs[i].sines[2] = sin(x + 2.0);
    }
}

static void accepted(uint32_t number, const char *what)
{
    if (number != 0u) {
        printf("%s was refused with %u\n", what, (unsigned)number);
        exit(1);
    }
}

void start_unit(struct unit *u)
{
    uint32_t number = 0;
    fill_inputs();
    u->places = room_places_needed((uint32_t)u->effect, u->rate, u->maximum);
    u->lent = malloc(u->places * sizeof *u->lent);
    if (u->lent == NULL) {
        puts("no memory");
        exit(1);
    }
    number = u->effect == ROOM_DELAY        ? room_delay_start(&u->delay, u->lent, u->places, u->rate, u->maximum, 0.996, 1u)
             : u->effect == ROOM_CHORUS     ? room_chorus_start(&u->chorus, u->lent, u->places, u->rate)
             : u->effect == ROOM_FLANGER    ? room_flanger_start(&u->flanger, u->lent, u->places, u->rate)
             : u->effect == ROOM_VIBRATO    ? room_vibrato_start(&u->vibrato, u->lent, u->places, u->rate)
             : u->effect == ROOM_TAPE_DELAY ? room_tape_delay_start(&u->tape, u->lent, u->places, u->rate, 0.996)
                                            : room_reverb_start(&u->reverb, u->lent, u->places, u->rate);
    accepted(number, "a start");
}

/* In linear mode; where the time is swept the inputs' control, 0.25 to 0.75, is the part of the maximum. */
static room_port time_of(const struct unit *u, room_port control)
{
    return room_set((u->swept ? control.value : 0.5) * u->maximum);
}

/* A tick of the tape delay: its halves, and a clamp between them where the host has its saturation. */
static uint32_t tape_pair(struct unit *u, room_port audio, room_port control, double *out, uint32_t *age)
{
    double sum = 0.0;
    const uint32_t read =
        room_tape_delay_read_half(&u->tape, u->lent, u->places, audio, time_of(u, control), control, control, &sum, age);
    const double v = sum / 5.0;
    return read | room_tape_delay_store_half(&u->tape, u->lent, u->places, v < -1.0 ? -1.0 : v > 1.0 ? 1.0 : v, out);
}

#define TICKS_OF(E, CALL)                                                                                               \
    static uint32_t E##_ticks(struct unit *u, unsigned ticks, double *sum)                                              \
    {                                                                                                                   \
        uint32_t refused = 0;                                                                                           \
        double out[3] = {0.0, 0.0, 0.0};                                                                                \
        uint32_t age = 0;                                                                                               \
        unsigned i;                                                                                                     \
        for (i = 0; i < ticks; i++) {                                                                                   \
            const room_port audio = room_set(inputs[i % INPUTS].audio);                                                 \
            const room_port control = room_set(inputs[i % INPUTS].control);                                             \
            const double frequency = inputs[i % INPUTS].frequency;                                                      \
            const double *sines = inputs[i % INPUTS].sines;                                                             \
            (void)frequency;                                                                                            \
            (void)sines;                                                                                                \
            (void)age;                                                                                                  \
            refused |= CALL;                                                                                            \
            *sum += out[0];                                                                                             \
        }                                                                                                               \
        return refused;                                                                                                 \
    }

TICKS_OF(delay, room_delay_tick(&u->delay, u->lent, u->places, audio, time_of(u, control), control, control, 0.0, out, &age))
TICKS_OF(tape, tape_pair(u, audio, control, out, &age))
TICKS_OF(chorus, room_chorus_tick(&u->chorus, u->lent, u->places, audio, control, control, frequency, sines, out, &age))
TICKS_OF(flanger, room_flanger_tick(&u->flanger, u->lent, u->places, audio, control, control, control, frequency, sines, out, &age))
TICKS_OF(vibrato, room_vibrato_tick(&u->vibrato, u->lent, u->places, audio, control, control, frequency, sines[0], out, &age))
TICKS_OF(reverb, room_reverb_tick(&u->reverb, u->lent, u->places, audio, control, control, control, control, out))

double tick_unit(struct unit *u, unsigned ticks)
{
    double sum = 0.0;
    accepted(u->effect == ROOM_DELAY        ? delay_ticks(u, ticks, &sum)
             : u->effect == ROOM_CHORUS     ? chorus_ticks(u, ticks, &sum)
             : u->effect == ROOM_FLANGER    ? flanger_ticks(u, ticks, &sum)
             : u->effect == ROOM_VIBRATO    ? vibrato_ticks(u, ticks, &sum)
             : u->effect == ROOM_TAPE_DELAY ? tape_ticks(u, ticks, &sum)
                                            : reverb_ticks(u, ticks, &sum),
             "a tick");
    return sum;
}

void reset_unit(struct unit *u)
{
    accepted(u->effect == ROOM_DELAY        ? room_delay_reset(&u->delay, u->lent, u->places)
             : u->effect == ROOM_CHORUS     ? room_chorus_reset(&u->chorus, u->lent, u->places)
             : u->effect == ROOM_FLANGER    ? room_flanger_reset(&u->flanger, u->lent, u->places)
             : u->effect == ROOM_VIBRATO    ? room_vibrato_reset(&u->vibrato, u->lent, u->places)
             : u->effect == ROOM_TAPE_DELAY ? room_tape_delay_reset(&u->tape, u->lent, u->places)
                                            : room_reverb_reset(&u->reverb, u->lent, u->places),
             "a reset");
}

int unit_silent(const struct unit *u)
{
    int yes = 0;
    accepted(u->effect == ROOM_DELAY        ? room_delay_silent(&u->delay, &yes)
             : u->effect == ROOM_CHORUS     ? room_chorus_silent(&u->chorus, &yes)
             : u->effect == ROOM_FLANGER    ? room_flanger_silent(&u->flanger, &yes)
             : u->effect == ROOM_VIBRATO    ? room_vibrato_silent(&u->vibrato, &yes)
             : u->effect == ROOM_TAPE_DELAY ? room_tape_delay_silent(&u->tape, &yes)
                                            : room_reverb_silent(&u->reverb, &yes),
             "a question");
    return yes;
}
