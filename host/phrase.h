/*
 * A plucked phrase, for when there is no file: eight notes on strings by Karplus and Strong, each a ring of noise that is
 * averaged and made softer as it goes round. The same on every run: the noise comes from a counter of our own.
 */
#ifndef HOST_PHRASE_H
#define HOST_PHRASE_H

#include "block.h"

#include <stdint.h>

enum { STRING_PLACES = 4096, NOTE_COUNT = 8 };

typedef struct string {
    double ring[STRING_PLACES];
    uint32_t at;
    double period; /* in samples */
    double loss;   /* of one time round */
    double last;
} string;

typedef struct phrase {
    uint32_t rate;
    uint64_t at, frames;
    uint32_t noise;
    string strings[NOTE_COUNT];
} phrase;

/* The phrase at a rate of 8,000 to 192,000, from its beginning. */
void phrase_begin(phrase *song, uint32_t rate);

/* Fills the block with its `frames` next frames, mono. */
void phrase_read(phrase *song, block *sound);

#endif
