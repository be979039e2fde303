/* What lines.c, lines_silent.c and lines_ticks.c, the tests of every effect with sweeps, share among themselves. */
#ifndef LINES_PARTS_H
#define LINES_PARTS_H

#include "lines.h"

/* What `memory_kept` and `cleared` compare the memory with; `fill` writes it. */
extern double kept[ROOM];

/* A state with a count of 0, and one with another. */
struct unit unit_of(uint32_t write_pos, const double phases[MOST], double sample_rate);
struct unit counting(struct unit unit, uint32_t count);

int unit_is(const struct lined *e, const struct unit *is, struct unit should);

/* Length of a line and places needed, which are all in use, at 8,000; how many of them are neither +0 nor -0. */
unsigned length_of(const struct lined *e);
unsigned needed(const struct lined *e);
uint32_t nonzero_now(const struct lined *e);

/* A count that a tick leaves of the one of `unit_at`, of places of which so many were no zeros before. */
uint32_t counted(const struct lined *e, uint32_t before);

/* A tick with nothing wrong in it, and one with every control and curve number wrong. */
struct tick good_tick(void);
struct tick wrong_tick(void);

/* Refusals: the number, and everything left as it was. */
void silent_refused(const struct lined *e, struct unit unit, uint32_t number, const char *what, unsigned i);
void tick_refused(const struct lined *e, struct unit before, uint64_t places, struct tick t, uint32_t number, const char *what,
                  unsigned i);

/* The question whether a unit is silent. */
void lines_questions(const struct lined *e);

/* The ticks, accepted and refused. */
void lines_ticks(const struct lined *e);

#endif
