/* The effects in one form: their names, their controls, and a unit with its state and the places it is lent. */
#ifndef HOST_EFFECTS_H
#define HOST_EFFECTS_H

#include "room_effects.h"
#include "trouble.h"

#include <stddef.h>

enum { MOST_CONTROLS = 6, EFFECT_COUNT = 8 };

/* A control as the command line has it. An effect's list ends where `name` is NULL. */
typedef struct control {
    const char *name;
    double low, high;
    double initial; /* what an unset control comes to; NaN where it comes to nothing */
    const char *what;
} control;

typedef struct unit unit;

/* The calls of room_effects.h, each with its curve numbers worked out. They return 0 or the refusal's number. Where an effect
   has no retune, its start stands there: a new rate means a new start. A tick is both halves of a tape delay's, so that no
   other call is made while a read waits. */
typedef struct effect {
    const char *name;
    uint32_t number; /* in room_places_needed */
    int answers;     /* samples of a tick: 1; 2 are left and right; 3 are mono, left and right */
    uint32_t (*start)(unit *, double sample_rate);
    uint32_t (*retune)(unit *, double sample_rate);
    uint32_t (*reset)(unit *);
    uint32_t (*silent)(const unit *, int *silent);
    uint32_t (*tick)(unit *, double audio, double out[3]);
    control controls[MOST_CONTROLS + 1];
} effect;

struct unit {
    const effect *kind;
    room_port controls[MOST_CONTROLS]; /* in the order of the effect's list */
    double *memory;
    uint64_t places;
    union {
        room_delay delay;
        room_chorus chorus;
        room_flanger flanger;
        room_vibrato vibrato;
        room_tremolo tremolo;
        room_reverb reverb;
        room_phaser phaser;
        room_tape_delay tape;
    } state;
    /* Curve numbers, and what goes into them, that stay while the controls do, so one power serves all ticks; the Rust keeps
       its last one likewise. */
    double frequency;
    double phase_offset;
    double depth; /* the phaser's, which its tick does not read */
    double milliseconds;
    uint32_t age; /* what the last tick answered; 0 in an effect that answers none */
};

extern const effect effects[EFFECT_COUNT];

/* NULL where there is none of that name, which has `length` characters. */
const effect *effect_named(const char *name, size_t length);

/* Which of its controls this is, or -1. */
int effect_control(const effect *kind, const char *name);

/* Whether the unit's controls go together; only the delay has some that may not. */
int unit_agrees(const unit *u, trouble *why);

/* How many places the unit needs at this rate; 2^64 - 1 where the rate is refused. */
uint64_t unit_places(const unit *u, double sample_rate);

/* Where a tick's answers have the left and the right sample; the same place where there is only one. */
int effect_left(const effect *kind);
int effect_right(const effect *kind);

/* A refusal in words. */
const char *refusal_text(uint32_t number);

#endif
