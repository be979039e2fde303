/* The calls of all effects in one form, for what the documents say of all of them at once. */
#ifndef EFFECTS_H
#define EFFECTS_H

#include "calls.h"

/* One more than the last number of the effects. */
enum { EFFECTS_END = ROOM_TAPE_DELAY + 1 };

/* The tape delay's tick is its read half, and the store half is a call that it alone has. */
enum { START, RETUNE, RESET, TICK, SILENT, STORE, CALLS };

/* One of each; an effect reads its own. */
struct effect_state {
    room_delay delay;
    room_chorus chorus;
    room_flanger flanger;
    room_vibrato vibrato;
    room_tremolo tremolo;
    room_reverb reverb;
    room_phaser phaser;
    room_tape_delay tape_delay;
};

/* A call's arguments, the state apart. What a call does not take is not read. */
struct effect_call {
    int effect, call;
    double *lent;
    uint64_t places;
    double rate, maximum, coefficient; /* of a start or a retune */
    uint32_t linear;                   /* of a start */
    room_port ports[5];                /* in the tick's order, the audio first */
    double curves[4];                  /* frequency and sines or coefficients, or milliseconds, or a saturated value */
};

/* A call with nothing wrong in it: audio 4, every control set. */
struct effect_call effect_good(int effect, int call, double *lent, uint64_t places, double rate, double maximum);

/* How many ports and curve numbers an effect's tick has, and how many samples it answers. */
unsigned effect_ports(int effect);
unsigned effect_curves(int effect);
unsigned effect_samples(int effect);

/* Whether the effect has lines, and so memory; whether its tick answers an age. */
int effect_lined(int effect);
int effect_aged(int effect);

/* Where a state keeps the count of its places that are neither +0 nor -0; NULL of an effect without lines. */
uint32_t *effect_count(int effect, struct effect_state *state);

/* Whether the effect has the call: one without lines has no retune. */
int effect_has(int effect, int call);

/* How many numbers the call puts out beside the age: samples, the sum, the answer to the question. */
unsigned effect_answers(int effect, int call);

/* A state of the tape delay in which no read waits is made one in which a read waits, if the call is a store half. */
void effect_take_turn(struct effect_state *state, int call);

/* Whether a cause of refusal, by its number, can apply to the effect: 2 is the delays' alone, tremolo and phaser are lent no
   memory, and the reverb has no curve number. */
int effect_can_refuse(int effect, unsigned number);

/* Makes the call. A tick's samples, or a read half's sum, go into `out` and its age into *age; a question's answer goes into
   out[0], as 1 or 0. What the effect or the call does not answer is left. */
uint32_t effect_make(struct effect_state *state, const struct effect_call *c, double out[3], uint32_t *age);

#endif
