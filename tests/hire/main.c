/*
 * hire TICKS SEED: one hire of so many ticks, then a reset and the next hirer's take; then some hires of a tape delay alone.
 *
 * The last line is `N passed, M failed`, counted in facts.
 */
#include "hire.h"

#include <stdio.h>
#include <stdlib.h>
#include <string.h>

/* Prime, so that the lines stand elsewhere at every look. */
#define EVERY 9973u

/* All places in use, 3,172,024 of them, are read at every tenth look. */
#define COUNT_EVERY (10u * EVERY)

/* More than the longest line but the tape delay's, which tape.c goes round. */
#define TAKE 400000u

static struct room room, fresh;

/* A take without a sound: whatever the hire left would be heard here. */
static void silent_take(void)
{
    static const double zeros[SAMPLES];
    int good = 1;
    unsigned i;
    for (i = 0; i < TAKE; i++) {
        const struct controls c = next_controls(1);
        tick_room(&room, &c);
        good = good && memcmp(room.samples, zeros, sizeof zeros) == 0;
    }
    fact(good, "a silent take after the reset plays +0 in every sample");
    fact(room_silent(&room), "after a silent take every unit is silent");
    line_facts(&room);
    count_facts(&room);
}

/* A NaN's bits are free. */
static int plays_alike(const double *a, const double *b)
{
    unsigned i;
    for (i = 0; i < SAMPLES; i++) {
        if (memcmp(&a[i], &b[i], sizeof *a) != 0 && !(a[i] != a[i] && b[i] != b[i])) {
            return 0;
        }
    }
    return 1;
}

/* A take beside units that were never used before. */
static void next_take(void)
{
    int good = 1, aged_alike = 1;
    unsigned i;
    reset_room(&room);
    open_room(&fresh);
    for (i = 0; i < TAKE; i++) {
        const struct controls c = next_controls(0);
        tick_room(&room, &c);
        tick_room(&fresh, &c);
        good = good && plays_alike(room.samples, fresh.samples);
        aged_alike = aged_alike && memcmp(room.ages, fresh.ages, sizeof room.ages) == 0;
        if (i % COUNT_EVERY == 0u) {
            count_facts(&room);
        }
    }
    fact(good, "a take after the reset plays what fresh units play, sample by sample");
    fact(aged_alike, "a take after the reset answers the ages that fresh units answer");
    line_facts(&room);
    count_facts(&room);
}

int main(int argc, char **argv)
{
    const uint64_t ticks = argc == 3 ? strtoull(argv[1], NULL, 10) : 0u;
    const uint64_t seed = argc == 3 ? strtoull(argv[2], NULL, 10) : 0u;
    uint64_t i;
    if (ticks == 0u) {
        puts("hire TICKS SEED");
        return 2;
    }
    seed_sounds(seed);
    open_room(&room);
    fact(room_silent(&room), "after the start every unit is silent");
    for (i = 0; i < ticks; i++) {
        const struct controls c = next_controls(0);
        tick_room(&room, &c);
        if (i < 3u || i % EVERY == 0u) {
            line_facts(&room);
        }
        if (i < 3u || i % COUNT_EVERY == 0u) {
            count_facts(&room);
        }
    }
    line_facts(&room);
    leave_in_a_tick(&room);
    count_facts(&room);
    fact(room_sounds(&room), "at the end of the hire every unit but the tremolo sounds");
    reset_room(&room);
    cleared_facts(&room);
    fact(room_silent(&room), "after the reset every unit is silent");
    silent_take();
    next_take();
    tape_hirers();
    printf("%llu ticks of each unit at 192,000, %.4f of a day, seed %llu\n", (unsigned long long)ticks, (double)ticks / A_DAY,
           (unsigned long long)seed);
    return say_facts();
}
