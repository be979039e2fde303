/*
 * The lamp: a unit of any effect that says it is silent, given zero audio and accepted controls, answers only zeros, of either
 * sign, and says so after the tick. A tape delay's tick is two halves, the second handed a zero of either sign; in the middle
 * of it the unit is not silent. The lamp asks, and a state answers by its count of places: so this is of runs, which begin with
 * a start in memory that nobody else writes, and of units that a host made up and counted right. What the files of this driver
 * share.
 *
 * Calls are made in the form of tests/c/effects.h, numbers drawn from the stream of tests/hostile/random.h.
 */
#ifndef LAMP_H
#define LAMP_H

#include "effects.h"
#include "random.h"
#include "tank.h"

/* A unit, the memory that it is lent, and what its start was handed. */
struct unit {
    int effect;
    struct effect_state state;
    double *lent;
    uint64_t places;
    double rate, maximum, coefficient;
    uint32_t linear;
};

/* No unit is lent more: the longest lines that are drawn are a delay's of 2 s at 192,000 and a tape delay's at 32,000, 384,001
   places. */
#define LENT 384200u

/* How a unit was made silent. */
enum way { STARTED, WAS_RESET, WAS_RETUNED, HANDED_IN, WAYS };

/* units.c: silent units, and what is asked of a unit. */
struct unit unit_at(int effect, double rate, double maximum); /* just started, lent just what it needs */
int make_silent(struct unit *u, int effect, enum way way);    /* 0 where a call on the way went wrong */
void lay_zeros(struct unit *u);         /* zeros of either sign in all places in use, sounds in the others */
int holds_zeros(const struct unit *u);  /* places in use and stores, read with no call */
void put_place(struct unit *u, uint64_t place, double x); /* a host writes there, and counts it: a sound, where a zero was */
int put_sound(struct unit *u);          /* such a sound in any place in use or store; 0 of a tremolo, which has none */
double any_rate(int effect);
uint64_t needed(const struct unit *u, double rate);
uint32_t places_in_use(const struct unit *u);
struct effect_call call_of(const struct unit *u, int call); /* of all that it is lent */
int silent(const struct unit *u); /* what it answers, 1 or 0; -1 where the question is refused or leaves another state */
int is_zero(double x);

/* draw.c: ticks, and calls that are refused. */
enum audio { UNSET, PLUS_ZERO, MINUS_ZERO, NO_NUMBER, INFINITE, MINUS_INFINITE, AUDIOS };
unsigned zero_audios(int effect); /* how many of these are zero audio: all under the input rule, else three */
struct effect_call draw_tick(const struct unit *u, enum audio audio);
struct effect_call draw_sounding_tick(const struct unit *u);
struct effect_call draw_store(const struct unit *u); /* a store half, handed a zero */
uint32_t draw_refused(const struct unit *u, struct effect_call *c, struct effect_state *state); /* the number */

/* tally.c: the facts, how often each was seen of each effect, and what was reached. */
enum fact { MADE_SILENT, ACCEPTED, ANSWERS_ZEROS, STAYS_SILENT, CLEARS, REFUSED, HOLDS_ZEROS, SOUNDS, WAITS, AS_READ, FACTS };
int fact(const struct unit *u, enum fact which, int holds, const struct effect_call *c); /* whether it holds */
unsigned facts_broken(void);
void count_tick(const struct unit *u, enum way way, enum audio audio);
void count_samples(const struct unit *u, const double *out);
void count_refusal(int effect, uint32_t number);
void count_fade(const struct unit *u, int silent); /* whether it fell silent after a sound */
void check_tally(void); /* prints the table and makes a test of each of its cells */

/* not_silent.c: units that are not silent, and audio that is no zero. */
void not_silent(void);
#define NEVER 100000u
unsigned first_sound(struct unit *u, const struct effect_call *c, unsigned ticks, double out[3]);
struct effect_call plain_tick(const struct unit *u);

/* tape.c: the tape delay. A whole tick of it is both halves, with what the header's formula makes of the sum. */
int waits(const struct unit *u); /* whether a read of the unit waits */
void hand_tape(const struct unit *u, room_tape_delay *s, uint32_t position);
uint32_t whole_tick(struct unit *u, const struct effect_call *c, double out[3], uint32_t *age); /* of any effect */
void tape_not_silent(void);

#endif
