/* What the tests of the count share: units at two rates, and the reading of all their places in use. */
#ifndef COUNTS_H
#define COUNTS_H

#include "effects.h"
#include "tank.h"

/* The memory that the units of these tests are lent: the most that one needs, a tape delay at 12,300, and some spare places. */
#define COUNTS_ROOM 147700u
extern double counts_lent[COUNTS_ROOM];

/* 8,000 and 12,300. */
extern const double count_rates[2];

/* How many places the unit of this state has in use, and how many of them are neither +0 nor -0. */
uint32_t places_in_use(int effect, const struct effect_state *state);
uint32_t full_reading(int effect, const struct effect_state *state, const double *lent);

/* The places that a tick of this state writes, one of each line: how many. */
unsigned places_to_write(int effect, const struct effect_state *state, uint64_t places[LINES]);

/* Where the state has the positions of its lines: of the flanger's two the same. */
uint32_t *count_position(int effect, struct effect_state *state, unsigned line);

/* Puts sounds into every place, spare ones too; or zeros of both signs and sounds into those that are lent. */
void lay_sounds(void);
void lay_mixed(void);

/* A call of such a unit, lent all of that, with nothing wrong in it; and making it, to this number. */
struct effect_call count_call(int effect, const struct effect_state *state, int call);
void made_as(struct effect_state *state, const struct effect_call *c, uint32_t number, const char *what, unsigned i);

/* A unit just started, at one of the rates. */
struct effect_state count_start(int effect, unsigned rate);

/* A tick that hears this, and of a tape delay's halves stores it: what is no finite number from -1 to 1 as a half. */
void count_tick(int effect, struct effect_state *state, room_port audio, double feedback, unsigned i);

/* What the question answers: it takes no memory. */
int count_says_silent(int effect, const struct effect_state *state);

/* Whether the state itself keeps no sound: no damping store that sounds, no read that waits. */
int keeps_no_sound(int effect, struct effect_state state);

/* All tests of one effect, for tests/c/broken to try them. */
void counts_of(int effect);

/* counts_handed.c: counts that a host hands in. */
void counts_handed(int effect);

#endif
