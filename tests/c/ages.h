/* What the tests of ages share. */
#ifndef AGES_H
#define AGES_H

#include "effects.h"

/* The memory of all units here: the most is lent to a delay of 1 s at 192,000. */
#define ROOM_OF_AGES 192001u
extern double lent_for_ages[ROOM_OF_AGES];

/* A delay of this maximum at 8,000 has 501 places, and a millisecond is 8 of them. */
#define MAXIMUM 0.0625
#define LAST 500u

struct effect_call tick_for_age(int effect, double rate, double maximum);
struct effect_state started_for_age(int effect, double rate, double maximum);

/* Makes the call, which gives this number: the age that it answers, JUNK_AGE if none. The numbers beside the age must stay. */
uint32_t ticked_age(struct effect_state *state, const struct effect_call *c, double out[3], uint32_t number);

/* Makes the tick: it is accepted and answers this age. */
void ages_as(struct effect_state *state, const struct effect_call *c, uint32_t age, const char *what, unsigned i);

/* Numbers from -1 to 1, all over. */
double spread_number(unsigned i);

/* A tick of an effect with sweeps, at depth 1; it reads as many of the sines as it has lines or voices to read. */
struct effect_call sweep_of(int effect, double rate, const double sines[3]);

/* The tests of chorus, flanger and vibrato. */
void ages_of_sweeps(void);

#endif
