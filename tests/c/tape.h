/* What the tests of the tape delay share: its states, its halves, its memory. */
#ifndef TAPE_H
#define TAPE_H

#include "calls.h"

/* The shortest line there is, at 8,000, in the memory that all these tests share. */
#define TAPE_LINE 96001u
#define TAPE_LENT 96101u
extern double tape_memory[TAPE_LENT];

/* Puts odd numbers, NaNs and -0 among them, into every place, or this one; and another into one place. */
void tape_fill(void);
void tape_lay(double value);
void tape_put(uint64_t place, double value);

/* Whether every place is as these left it; and whether all are but this one, which holds the value. */
int tape_left(void);
int tape_wrote(uint64_t place, double value);

/* How many places of the line are neither +0 nor -0. */
uint32_t tape_nonzero(void);

/* States at 8,000 with a coefficient of 0.5 in which no read waits: at this position, with a count of 0, and with a glide at
   this distance and a count of 7, whatever the memory holds. */
room_tape_delay unread_at(uint32_t write_pos);
room_tape_delay read_from(uint32_t write_pos, double distance);

/* The state with another count. */
room_tape_delay tape_counting(room_tape_delay state, uint32_t count);

/* The state with a read that waits, which has kept these. */
room_tape_delay waits_with(room_tape_delay state, double audio, double read, double mix);

/* ... and with none, which is what a store half leaves of it but for the position. */
room_tape_delay waits_not(room_tape_delay state);

int tape_is(const room_tape_delay *is, room_tape_delay should);

/* What a read half is handed: every port set, the feedback to 0. */
struct tape_ports {
    room_port audio, time, feedback, mix;
};
struct tape_ports tape_ports(double audio, double mix, double seconds);

uint32_t read_tape(room_tape_delay *state, uint64_t places, const struct tape_ports *p, double *sum, uint32_t *age);
uint32_t store_tape(room_tape_delay *state, uint64_t places, double value, double out[1]);

/* The refused calls; the accepted halves, reads and stores; whole ticks, one after the other. */
void tape_refusals(void);
void tape_reads(void);
void tape_stores(void);
void tape_runs(void);

#endif
