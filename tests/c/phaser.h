/* What the tests of the phaser share: its states and its ticks. */
#ifndef PHASER_H
#define PHASER_H

#include "calls.h"

/* Most units here stand at this phase and this rate. */
#define PHASE 0.25
#define RATE 8000.0

/* The numbers of a state, six each: last inputs left and right, last outputs left and right. */
#define KEPT 24u
#define LAST_INPUTS 0u
#define LAST_OUTPUTS 12u
double *phaser_number(room_phaser *state, unsigned which);

/* A state with all of them the same. */
room_phaser phaser_of_one_number(double number, double lfo_phase, double sample_rate);

/* A state with other numbers in each place: 1 to 24, or also NaNs, infinities and -0. */
room_phaser counted_phaser(void);
room_phaser unusual_phaser(void);

/* Equal to the bit. */
int phaser_is(const room_phaser *is, const room_phaser *should);

struct tick_of_phaser {
    room_port audio, feedback, mix, stages;
    double frequency, coef_l, coef_r;
};

/* Every port set, all six all-passes in use, frequency 0; both sides have the coefficient. */
struct tick_of_phaser phaser_tick(double audio, double feedback, double mix, double coef);

/* The same with other stages. */
struct tick_of_phaser staged(struct tick_of_phaser t, double stages);

uint32_t phaser_ticked(room_phaser *state, const struct tick_of_phaser *t, double out[3]);

/* Makes the tick and holds it against the paper; the state goes on as the library left it. */
int goes_as_the_paper(room_phaser *state, struct tick_of_phaser t);

/* The accepted ticks: what they play and leave; and long runs of them. */
void phaser_ticks(void);
void phaser_runs(void);

#endif
