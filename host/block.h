/* Some frames of sound, one or two channels: what goes from the source through the chain into the file at a time. */
#ifndef HOST_BLOCK_H
#define HOST_BLOCK_H

#include <stddef.h>

enum { BLOCK_FRAMES = 4096 };

typedef struct block {
    unsigned channels; /* 1 or 2 */
    size_t frames;     /* at most BLOCK_FRAMES */
    double side[2][BLOCK_FRAMES];
} block;

#endif
