/* How costs grow with the length of the lines: what the files of this program share. */
#ifndef GROW_H
#define GROW_H

#include "room_effects.h"

/* A unit at one rate, in memory of just the places that it needs. */
struct unit {
    const char *name;
    int effect;
    double rate, maximum;
    int swept; /* of either delay: whether its time goes up and down over half its line */
    uint64_t places;
    double *lent;
    room_delay delay;
    room_tape_delay tape;
    room_chorus chorus;
    room_flanger flanger;
    room_vibrato vibrato;
    room_reverb reverb;
};

/* unit.c: each exits with a word if a call is refused. */
void start_unit(struct unit *unit);
double tick_unit(struct unit *unit, unsigned ticks); /* a sum of samples, which keeps every tick alive */
void reset_unit(struct unit *unit);
int unit_silent(const struct unit *unit);

/* times.c */
#define ROUNDS 100u
struct times {
    double list[ROUNDS];
};
double seconds(void);
double lowest(struct times *t);
double median(struct times *t);

#endif
