/* The units of a room: how they are started, ticked and cleared. */
#include "calls.h"
#include "hire.h"

#include <math.h>
#include <stdio.h>
#include <stdlib.h>
#include <string.h>

/* Memory that held something before. */
static double *lend(uint64_t places)
{
    double *memory = malloc(places * sizeof *memory);
    uint64_t i;
    if (memory == NULL) {
        puts("no memory");
        exit(1);
    }
    for (i = 0; i < places; i++) {
        memory[i] = i % 3u == 0u ? (double)NAN : (double)i;
    }
    return memory;
}

void open_room(struct room *room)
{
    static const uint64_t needed[LINED] = {
        DELAY_LENGTH, DELAY_LENGTH, CHORUS_LENGTH, 2u * FLANGER_LENGTH, VIBRATO_LENGTH, TAPE_LENGTH, TANK};
    const double coefficient = exp(-1.0 / (0.005 * RATE));
    double *const *m = room->lent;
    const uint64_t *n = room->places;
    uint32_t refused;
    unsigned i;
    for (i = 0; i < LINED; i++) {
        room->places[i] = needed[i] + SPARE;
        room->lent[i] = lend(room->places[i]);
    }
    refused = room_delay_start(&room->delay, m[DELAY], n[DELAY], RATE, MAXIMUM, coefficient, 0) |
              room_delay_start(&room->linear, m[LINEAR], n[LINEAR], RATE, MAXIMUM, coefficient, 1) |
              room_chorus_start(&room->chorus, m[CHORUS], n[CHORUS], RATE) |
              room_flanger_start(&room->flanger, m[FLANGER], n[FLANGER], RATE) |
              room_vibrato_start(&room->vibrato, m[VIBRATO], n[VIBRATO], RATE) |
              room_reverb_start(&room->reverb, m[REVERB], n[REVERB], RATE) | room_tremolo_start(&room->tremolo, RATE) |
              room_phaser_start(&room->phaser, RATE) |
              room_tape_delay_start(&room->tape, m[TAPE], n[TAPE], RATE, coefficient);
    fact(refused == 0u, "every start is accepted");
    room->ticks = 0;
    room->refused = 0;
    room->unsound = 0.0;
    room->aged = 0;
    memset(room->ages, 0, sizeof room->ages);
}

static void tick_delays(struct room *room, const struct controls *c)
{
    const room_port time = room_set(c->moving[0] * MAXIMUM);
    const room_port feedback = room_set(c->moving[1]);
    const room_port mix = room_set(c->moving[2]);
    room->refused |= room_delay_tick(&room->delay, room->lent[DELAY], room->places[DELAY], c->audio, time, feedback, mix,
                                     c->moving[3] * MAXIMUM * 1000.0, &room->samples[AT_DELAY], &room->ages[DELAY]);
    room->refused |= room_delay_tick(&room->linear, room->lent[LINEAR], room->places[LINEAR], c->audio, time, feedback, mix,
                                     0.0, &room->samples[AT_LINEAR], &room->ages[LINEAR]);
}

static void tick_sweeps(struct room *room, const struct controls *c)
{
    const room_port depth = room_set(c->moving[1]);
    const room_port mix = room_set(c->moving[4]);
    const double *phases = room->chorus.lfo_phases;
    const double chorus[] = {sine_of(phases[0]), sine_of(phases[1]), sine_of(phases[2])};
    const double flanger[] = {sine_of(room->flanger.lfo_phase), sine_of(room->flanger.lfo_phase + 0.25)};
    room->refused |= room_chorus_tick(&room->chorus, room->lent[CHORUS], room->places[CHORUS], c->audio, depth, mix,
                                      c->frequency, chorus, &room->samples[AT_CHORUS], &room->ages[CHORUS]);
    room->refused |= room_flanger_tick(&room->flanger, room->lent[FLANGER], room->places[FLANGER], c->audio, depth,
                                       room_set(c->moving[3] * 2.0 - 1.0), mix, c->frequency, flanger,
                                       &room->samples[AT_FLANGER], &room->ages[FLANGER]);
    room->refused |= room_vibrato_tick(&room->vibrato, room->lent[VIBRATO], room->places[VIBRATO], c->audio, depth, mix,
                                       c->frequency, sine_of(room->vibrato.lfo_phase), &room->samples[AT_VIBRATO],
                                       &room->ages[VIBRATO]);
    room->refused |= room_tremolo_tick(&room->tremolo, c->audio, depth, room_set(c->moving[5]), c->frequency,
                                       sine_of(room->tremolo.lfo_phase), &room->samples[AT_TREMOLO]);
}

static void tick_reverb(struct room *room, const struct controls *c)
{
    room->refused |= room_reverb_tick(&room->reverb, room->lent[REVERB], room->places[REVERB], c->audio,
                                      room_set(c->moving[5]), room_set(c->moving[2]), room_set(c->moving[4]),
                                      room_set(c->moving[3]), &room->samples[AT_REVERB]);
}

/* The coefficient of an all-pass that sweeps, as the header has it. */
static double coefficient(double phase, double depth)
{
    const double frequency = 200.0 + (sine_of(phase) * 0.5 + 0.5) * depth * 3800.0;
    const double t = tan(3.141592653589793 * frequency / RATE);
    return (1.0 - t) / (1.0 + t);
}

/* Its stages move fastest, so that any take goes through two, four and six. */
static void tick_phaser(struct room *room, const struct controls *c)
{
    const double depth = fmin(fmax(c->moving[2], 0.0), 1.0);
    const double phase = room->phaser.lfo_phase;
    room->refused |= room_phaser_tick(&room->phaser, c->audio, room_set(c->moving[3] * 2.0 - 1.0), room_set(c->moving[4]),
                                      room_set(c->moving[0]), c->frequency, coefficient(phase, depth),
                                      coefficient(phase + 0.25, depth), &room->samples[AT_PHASER]);
}

static uint32_t begin_tape(struct room *room, const struct controls *c, double *sum)
{
    return room_tape_delay_read_half(&room->tape, room->lent[TAPE], room->places[TAPE], c->audio, room_set(c->moving[4] * 12.0),
                                     room_set(c->moving[0] * 1.5), room_set(c->moving[3]), sum, &room->ages[TAPE]);
}

static void tick_tape(struct room *room, const struct controls *c)
{
    double sum, v;
    room->refused |= begin_tape(room, c, &sum);
    v = saturated(sum);
    room->refused |= room_tape_delay_store_half(&room->tape, room->lent[TAPE], room->places[TAPE], v,
                                                &room->samples[AT_TAPE]);
    room->taped[room->ticks % PAST] = v * 5.0;
}

void leave_in_a_tick(struct room *room)
{
    const struct controls c = next_controls(0);
    double sum;
    fact(begin_tape(room, &c, &sum) == 0u && room->tape.waiting == 1u, "the hirer leaves while a read of the tape waits");
}

/* Whether each age is one that its line can have. What a delay's tick leaves as its distance is where it read. */
static int ages_hold(const struct room *room)
{
    static const uint32_t lengths[AGED] = {DELAY_LENGTH,   DELAY_LENGTH,   CHORUS_LENGTH,
                                           FLANGER_LENGTH, VIBRATO_LENGTH, TAPE_LENGTH};
    int good = room->ages[DELAY] == (uint32_t)ceil(room->delay.smoothed_delay) &&
               room->ages[LINEAR] == (uint32_t)ceil(room->linear.smoothed_delay) &&
               room->ages[TAPE] == (uint32_t)ceil(room->tape.smoothed_delay);
    unsigned i;
    for (i = 0; i < AGED; i++) {
        good = good && room->ages[i] >= 1u && room->ages[i] <= lengths[i] - 1u;
    }
    return good;
}

void tick_room(struct room *room, const struct controls *c)
{
    const double audio = c->audio.set != 0 ? c->audio.value : 0.0;
    unsigned i;
    tick_delays(room, c);
    tick_sweeps(room, c);
    tick_reverb(room, c);
    tick_tape(room, c);
    tick_phaser(room, c);
    room->past[room->ticks % PAST] = audio;
    room->heard[room->ticks % PAST] = isfinite(audio) ? audio : 0.0;
    room->ticks++;
    room->aged += ages_hold(room) != 0;
    /* Of the phaser no bound is promised: it may overflow. */
    for (i = 0; i < AT_PHASER; i++) {
        if (i != AT_VIBRATO && i != AT_TREMOLO) {
            room->unsound += room->samples[i] - room->samples[i];
        }
    }
}

void reset_room(struct room *room)
{
    double *const *m = room->lent;
    const uint64_t *n = room->places;
    const uint32_t refused = room_delay_reset(&room->delay, m[DELAY], n[DELAY]) |
                             room_delay_reset(&room->linear, m[LINEAR], n[LINEAR]) |
                             room_chorus_reset(&room->chorus, m[CHORUS], n[CHORUS]) |
                             room_flanger_reset(&room->flanger, m[FLANGER], n[FLANGER]) |
                             room_vibrato_reset(&room->vibrato, m[VIBRATO], n[VIBRATO]) |
                             room_reverb_reset(&room->reverb, m[REVERB], n[REVERB]) |
                             room_tremolo_reset(&room->tremolo) | room_phaser_reset(&room->phaser) |
                             room_tape_delay_reset(&room->tape, m[TAPE], n[TAPE]);
    fact(refused == 0u, "every reset is accepted");
    room->ticks = 0;
    room->aged = 0;
}

uint32_t room_count(const struct room *room, unsigned unit)
{
    const uint32_t counts[LINED] = {room->delay.nonzero_places,   room->linear.nonzero_places,  room->chorus.nonzero_places,
                                    room->flanger.nonzero_places, room->vibrato.nonzero_places, room->tape.nonzero_places,
                                    room->reverb.nonzero_places};
    return counts[unit];
}

void ask_units(const struct room *room, int yes[LINED])
{
    const uint32_t refused =
        room_delay_silent(&room->delay, &yes[DELAY]) | room_delay_silent(&room->linear, &yes[LINEAR]) |
        room_chorus_silent(&room->chorus, &yes[CHORUS]) | room_flanger_silent(&room->flanger, &yes[FLANGER]) |
        room_vibrato_silent(&room->vibrato, &yes[VIBRATO]) | room_tape_delay_silent(&room->tape, &yes[TAPE]) |
        room_reverb_silent(&room->reverb, &yes[REVERB]);
    fact(refused == 0u, "every question is accepted");
}

/* How many of the units with lines, and of the phaser, say that they are silent; the tremolo, which keeps no sound, must. */
static int silent_units(const struct room *room)
{
    int yes[LINED] = {0}, phaser = 0, tremolo = 0;
    const uint32_t refused = room_tremolo_silent(&room->tremolo, &tremolo) | room_phaser_silent(&room->phaser, &phaser);
    fact(refused == 0u && tremolo == 1, "so are those of tremolo and phaser, and the tremolo is silent");
    ask_units(room, yes);
    return yes[DELAY] + yes[LINEAR] + yes[CHORUS] + yes[FLANGER] + yes[VIBRATO] + yes[TAPE] + yes[REVERB] + phaser;
}

int room_sounds(const struct room *room)
{
    return silent_units(room) == 0;
}

int room_silent(const struct room *room)
{
    return silent_units(room) == LINED + 1;
}
