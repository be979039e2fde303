/*
 * WAV files. Read: mono or stereo, 8,000 to 192,000 samples a second, PCM of 16, 24 or 32 bits or floats of 32 or 64, also
 * as WAVE_FORMAT_EXTENSIBLE. Written: floats of 32 or 64 bits. Full scale of PCM is 1; floats are taken as they are.
 *
 * Bytes are put together and taken apart one by one, so that the order of bytes in memory plays no part.
 */
#ifndef HOST_WAV_H
#define HOST_WAV_H

#include "block.h"
#include "trouble.h"

#include <stdint.h>
#include <stdio.h>

enum { LOWEST_RATE = 8000, HIGHEST_RATE = 192000 };

typedef struct wav_reader {
    FILE *file;
    const char *path;
    uint64_t size, at; /* bytes of the whole file, and how many of them are behind us */
    uint32_t rate;
    unsigned channels;
    unsigned bytes; /* of a sample */
    int is_float;
    uint64_t frames;
} wav_reader;

/* Opens the file and goes to its first frame. Where that fails, nothing is left open. */
int wav_open(wav_reader *wav, const char *path, trouble *why);

/* Fills the block with its `frames` next frames. */
int wav_read(wav_reader *wav, block *sound, trouble *why);

void wav_close(wav_reader *wav);

typedef struct wav_writer {
    FILE *file;
    const char *path;
    char *part; /* where it is written until it is whole */
    int made;   /* whether that is there, and ours to remove */
    unsigned channels;
    unsigned bytes; /* of a sample: 4 or 8 */
    uint64_t not_finite; /* samples written that are NaN or infinite */
} wav_writer;

/* Begins a file of so many frames. It lies beside `path` until wav_finish, under a name that must be free; before that, wav_drop
 * removes it. */
int wav_create(wav_writer *wav, const char *path, uint32_t rate, unsigned channels, unsigned bytes, uint64_t frames,
               trouble *why);
int wav_write(wav_writer *wav, const block *sound, trouble *why);
/* Whether a sample is a finite number as it is written: 32 bits have none for the largest doubles. */
int wav_finite(double x, unsigned bytes);
int wav_finish(wav_writer *wav, trouble *why);
void wav_drop(wav_writer *wav);

#endif
