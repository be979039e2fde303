/* Effects one after the other, with their controls and the memory they are lent. */
#ifndef HOST_CHAIN_H
#define HOST_CHAIN_H

#include "block.h"
#include "effects.h"

enum { MOST_STAGES = 16 };

/* An effect in the chain: one unit for each channel that comes in. */
typedef struct stage {
    unsigned units;
    unit unit[2];
} stage;

typedef struct chain {
    unsigned stages;
    stage stage[MOST_STAGES];
    unsigned channels; /* that come out */
    double *memory;    /* of all units, lent once */
    uint64_t places;
    uint32_t oldest; /* the largest age of any unit's ticks so far; 0 while none was answered */
} chain;

/* Reads "chorus,delay,reverb"; "none" is a chain without effects. */
int chain_read(chain *c, const char *list, trouble *why);

/* Sets a control: "delay.time=0.4" in every delay of the chain, "delay2.time=0.4" in the second. */
int chain_set(chain *c, const char *setting, trouble *why);

/* Asks for memory for a signal of so many channels and starts every unit. Until then the chain holds none. */
int chain_start(chain *c, unsigned channels, uint32_t rate, trouble *why);

/* Plays the block through; it may come out with two channels where it went in with one. */
int chain_play(chain *c, block *sound, trouble *why);

/* How far back the oldest sample lies that any unit's reads weighed above 0 so far, in milliseconds at this rate. */
double chain_oldest_ms(const chain *c, uint32_t rate);

void chain_free(chain *c);

/* A number and nothing else, neither NaN nor infinite. */
int read_number(const char *text, double *number);

#endif
