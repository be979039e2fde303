/*
 * Memory between guard pages. No page beside an arena or a spot can be read or written, so that a call that goes as much as one
 * place beyond what lies at its end faults. Beside each arena lies a copy of what it must hold.
 */
#define _DEFAULT_SOURCE
#include "hostile.h"

#include <stdio.h>
#include <stdlib.h>
#include <string.h>
#include <sys/mman.h>

#define PAGE 4096u

/* So many pages that can be used, with a guard page on either side. */
static char *guarded(size_t pages)
{
    char *at = mmap(NULL, (pages + 2u) * PAGE, PROT_NONE, MAP_PRIVATE | MAP_ANONYMOUS, -1, 0);
    if (at == MAP_FAILED || mprotect(at + PAGE, pages * PAGE, PROT_READ | PROT_WRITE) != 0) {
        puts("no memory between guard pages");
        exit(1);
    }
    return at + PAGE;
}

/* The last four are for the reverb's tank, 87,136 places, for tape delays, 144,001 at 12,000 and 2,304,001 at 192,000, and for
   the longest line, 11,520,001. */
static const unsigned pages_of[] = {1, 4, 16, 40, 171, 300, 4501, 22501};

struct arena *arena_for(uint64_t places)
{
    static struct arena arenas[COUNT(pages_of)];
    unsigned i = 0;
    while (i + 1u < COUNT(pages_of) && pages_of[i] * (PAGE / sizeof(double)) < places) {
        i++;
    }
    if (arenas[i].first == NULL) {
        arenas[i].places = pages_of[i] * (PAGE / sizeof(double));
        arenas[i].first = (double *)(void *)guarded(pages_of[i]);
        arenas[i].should = malloc(arenas[i].places * sizeof(double));
        if (arenas[i].should == NULL) {
            puts("no memory");
            exit(1);
        }
        fill_arena(&arenas[i]);
    }
    return &arenas[i];
}

/* What the memory holds before a start is of no account: floats of every kind. */
void fill_arena(struct arena *arena)
{
    uint64_t i;
    for (i = 0; i < arena->places; i++) {
        arena->should[i] = i < 20480u ? any_float() : arena->should[i - 20480u];
    }
    memcpy(arena->first, arena->should, arena->places * sizeof(double));
}

int arena_as_it_should(const struct arena *arena)
{
    return memcmp(arena->first, arena->should, arena->places * sizeof(double)) == 0;
}

int window_as_it_should(const struct arena *arena, uint64_t place)
{
    const uint64_t from = place < 32u ? 0u : place - 32u;
    const uint64_t to = place + 32u < arena->places ? place + 32u : arena->places;
    return memcmp(arena->first + from, arena->should + from, (to - from) * sizeof(double)) == 0;
}

void *spot(unsigned which, unsigned bytes, int high)
{
    static char *spots[SPOTS];
    if (spots[which] == NULL) {
        spots[which] = guarded(1);
    }
    return high ? spots[which] + PAGE - bytes : spots[which];
}
