/* What the tests of the reverb share: its memory, its states and its ticks. */
#ifndef REVERB_H
#define REVERB_H

#include "tank.h"

/* The memory: the tank, and spare places behind it. */
#define TANK_ROOM 87200u
extern double tank[TANK_ROOM];

/* Puts odd numbers, NaNs and -0 among them, into every place. */
void fill_tank(void);

/* What `fill_tank` puts there. */
double filled(unsigned place);

/* Whether every place is as `fill_tank` left it. */
int tank_kept(void);

/* A state after a clearing at this rate. */
room_reverb cleared_reverb(double rate);

/* A state at this rate with other positions and stores, NaNs and infinities among them, and a count of 77, whatever the tank
   holds; and a state with another count. */
room_reverb varied_reverb(const struct tuning *at);
room_reverb reverb_counting(room_reverb state, uint32_t count);

int reverb_is(const room_reverb *is, const room_reverb *should);

struct tick_of_reverb {
    room_port audio, size, damping, mix, predelay;
};

/* Every port set, predelay to 0. */
struct tick_of_reverb reverb_tick(double audio, double size, double damping, double mix);

uint32_t reverb_ticked(room_reverb *state, uint64_t places, const struct tick_of_reverb *t, double out[2]);

/* The accepted ticks: what they read, play, store and leave. */
void reverb_ticks(void);

/* The question, and one that is refused with this number and leaves the state as it was. */
void reverb_questions(void);
void reverb_silent_refused(room_reverb before, uint32_t number, const char *what, unsigned i);

#endif
