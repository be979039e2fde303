/* The reverb's tank by document 01: its lines, how long they are, and where a state has their positions. */
#ifndef TANK_H
#define TANK_H

#include "calls.h"

/* Document 01's tank and its lines: combs left and right, all-passes left and right, predelay. */
#define TANK 87136u
#define LINES 25u
#define STORES 16u
#define RIGHT_COMB 8u
#define LEFT_ALLPASS 16u
#define RIGHT_ALLPASS 20u
#define PREDELAY 24u

/* Where a line starts, and how many places lie there for it. */
unsigned line_start(unsigned line);
unsigned line_extent(unsigned line);

/* Rates, and how long document 01 has the left lines and the spread at that rate. */
struct tuning {
    double rate;
    unsigned comb[8], allpass[4], spread;
};
#define TUNINGS 8u
extern const struct tuning tunings[TUNINGS];

/* The one at this rate. */
const struct tuning *tuning_at(double rate);

/* How long a line is there; how many places that are in all, and how many of them are neither +0 nor -0. */
unsigned line_length(const struct tuning *at, unsigned line);
uint32_t tank_in_use(const struct tuning *at);
uint32_t nonzero_in_tank(const struct tuning *at, const double *places);

/* A line's position in a state, and a comb's damping store. */
uint32_t *line_pos(room_reverb *state, unsigned line);
double *comb_store(room_reverb *state, unsigned comb);

#endif
