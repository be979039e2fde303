/* What the tests of the delay share: its states and its ticks. */
#ifndef DELAY_H
#define DELAY_H

#include "lines.h"

/* Most units here have this maximum, with which a line at 8,000 has 501 places. */
#define MAXIMUM 0.0625
#define LENGTH 501u

/* Rates, and how long document 01 has a line with that maximum. */
#define DELAY_LENGTHS 5u
extern const struct length delay_lengths[DELAY_LENGTHS];

struct tick_of_delay {
    room_port audio, time, feedback, mix;
    double milliseconds;
};

/* Every port set, feedback to 0, for exponential mode. */
struct tick_of_delay delay_tick(double audio, double mix, double milliseconds);

/* For linear mode: the time in seconds, and milliseconds of NaN, which it must not read. */
struct tick_of_delay linear_tick(double audio, double mix, double seconds);

/* In the memory that all these tests share. */
uint32_t ticked(room_delay *state, uint64_t places, const struct tick_of_delay *t, double out[1], uint32_t *age);

/* A state after a clearing, at 8,000, with a coefficient of 0.5. */
room_delay fresh(void);

/* That at another position, with a count of 7, whatever the memory holds: a tick reads at its target. */
room_delay unprimed_at(uint32_t write_pos);

/* And with a glide that stands at this distance. */
room_delay primed_at(uint32_t write_pos, double distance);

/* The same state in linear mode, and with another count. */
room_delay linear_of(room_delay state);
room_delay counting_of(room_delay state, uint32_t count);

int delay_is(const room_delay *is, room_delay should);

/* Calls that are refused with this number and leave everything as it was. */
void delay_retune_refused(room_delay before, uint64_t places, double rate, double coefficient, uint32_t number,
                          const char *what, unsigned i);
void delay_reset_refused(room_delay before, uint64_t places, uint32_t number, const char *what, unsigned i);

/* The state test, and the refusals of all calls but start and retune. */
void delay_refusals(void);

/* The accepted ticks: what they read, play, store and leave. */
void delay_ticks(void);

#endif
