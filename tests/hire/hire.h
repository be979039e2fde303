/*
 * One hire of a room at 192,000 samples a second: every effect ticks without a break, its controls moving, and the facts that
 * must hold of lines, positions, phases and distances are looked at again and again.
 */
#ifndef HIRE_H
#define HIRE_H

#include "room_effects.h"

#define RATE 192000.0
#define A_DAY (192000.0 * 86400.0)

/* Document 01's lengths at that rate; the delays have 2 s. */
#define MAXIMUM 2.0
#define DELAY_LENGTH 384001u
#define CHORUS_LENGTH 6154u
#define FLANGER_LENGTH 1930u
#define VIBRATO_LENGTH 3850u
#define TAPE_LENGTH 2304001u
#define TANK 87136u

/* Each is lent some places more than it needs. */
#define SPARE 64u

/* The units with lines: the delay stands for two, one in each mode. Tremolo and phaser have no lines. */
enum { DELAY, LINEAR, CHORUS, FLANGER, VIBRATO, TAPE, REVERB, LINED };

/* Of these the first so many answer ages. */
#define AGED 6u

/* Samples of one tick of every unit: delays, chorus, flanger, vibrato, tremolo, reverb, tape delay, phaser. */
enum {
    AT_DELAY,
    AT_LINEAR,
    AT_CHORUS,
    AT_FLANGER = 5,
    AT_VIBRATO = 8,
    AT_TREMOLO,
    AT_REVERB,
    AT_TAPE = 12,
    AT_PHASER,
    SAMPLES = 16
};

/* How many samples of the recent past are kept, a power of two and more than the longest of the lines that are compared; of the
   tape delay's as many places are. */
#define PAST 16384u

struct room {
    room_delay delay, linear;
    room_chorus chorus;
    room_flanger flanger;
    room_vibrato vibrato;
    room_tremolo tremolo;
    room_reverb reverb;
    room_phaser phaser;
    room_tape_delay tape;
    double *lent[LINED];
    uint64_t places[LINED];
    uint64_t ticks;     /* since the last clearing */
    double past[PAST];  /* audio as it came, +0 if unset: of tick t at t modulo PAST */
    double heard[PAST]; /* the same under the input rule */
    double taped[PAST]; /* what the tape delay stored */
    double samples[SAMPLES]; /* of the last tick */
    uint32_t ages[AGED];     /* likewise; each is 0 before the first */
    uint64_t aged;           /* ticks whose six ages were 1 to L - 1, the delays' those of the distances that they leave */
    uint32_t refused;        /* all numbers that ticks returned */
    double unsound;          /* NaN once an effect with the input rule, but the phaser, has played what is not finite */
};

/* What the host hands to every effect in one tick. */
struct controls {
    room_port audio;
    double moving[6]; /* from a little below 0 to a little above 1 */
    double frequency;
};

/* sounds.c: audio and controls from a seed; a silent take has audio +0, set and unset. */
void seed_sounds(uint64_t seed);
struct controls next_controls(int silent);
room_port noise(void);
double sine_of(double phase); /* of 2 pi times the phase, by a table */

/* room.c */
void open_room(struct room *room); /* every effect started in memory that held something */
void tick_room(struct room *room, const struct controls *c);
void leave_in_a_tick(struct room *room); /* the tape delay's next tick is begun, and its read waits */
void reset_room(struct room *room);
uint32_t room_count(const struct room *room, unsigned unit); /* of a unit with lines, as its state keeps it */
void ask_units(const struct room *room, int yes[LINED]); /* which units with lines say that they are silent */
int room_sounds(const struct room *room); /* whether every effect but the tremolo says that it sounds */
int room_silent(const struct room *room); /* whether every effect says that it is silent */

/* facts.c */
void fact(int holds, const char *name);
void line_facts(const struct room *room);
void count_facts(const struct room *room); /* each count beside all places in use, and each answer */
void cleared_facts(const struct room *room); /* after a clearing: every place +0, every state as a start leaves it */
int plus_zero(const double *from, uint64_t count); /* by their bits */
uint32_t nonzero(const double *from, uint64_t count); /* how many are neither +0 nor -0 */
int say_facts(void); /* prints them and the last line, `N passed, M failed`; the exit status */

/* tape.c: a tape delay's hirers, who leave after a tick or in the middle of one, and what the next one hears */
void tape_hirers(void);

#endif
