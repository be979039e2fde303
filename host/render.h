/* From a source, a file or the phrase, through a chain into a file. */
#ifndef HOST_RENDER_H
#define HOST_RENDER_H

#include "chain.h"
#include "phrase.h"
#include "wav.h"

typedef struct source {
    uint32_t rate;
    unsigned channels;
    uint64_t frames;
    wav_reader wav;
    phrase *song; /* NULL where it is a file */
} source;

/* Opens the file, or the phrase at this rate where `path` is NULL. Where that fails, nothing is left open. */
int source_open(source *from, const char *path, uint32_t rate, trouble *why);
void source_close(source *from);

/* What was written. */
typedef struct level {
    double peak;
    double squares;
    uint64_t samples;
    uint64_t not_finite; /* samples that are NaN or infinite as they are written; peak and squares leave them out */
} level;

double level_rms(const level *l);

/* Renders all of the source and `tail` frames of silence after it. The file is there only if all went well. */
int render(source *from, chain *through, const char *path, unsigned bytes, uint64_t tail, level *loud, trouble *why);

#endif
