/* What a controller asks at power-up: how many places an effect needs. */
#include "calls.h"

static const uint64_t none = UINT64_MAX;

static void needed(uint32_t effect, double rate, double maximum, uint64_t count, unsigned i)
{
    check(room_places_needed(effect, rate, maximum) == count, "the places that an effect needs", i);
}

/* Of every effect but the delay, which alone reads the maximum. */
static void by_the_rate(void)
{
    const double maxima[] = {0.0, 2.0, 60.0, -1.0, (double)NAN, (double)INFINITY};
    const struct numbers rates = rates_accepted();
    unsigned i, k;
    for (i = 0; i < COUNT(maxima); i++) {
        needed(ROOM_CHORUS, 44100.0, maxima[i], 1421u, i);
        needed(ROOM_CHORUS, 8000.0, maxima[i], 266u, i);
        needed(ROOM_CHORUS, 192000.0, maxima[i], 6154u, i);
        needed(ROOM_FLANGER, 44100.0, maxima[i], 2u * 451u, i);
        needed(ROOM_FLANGER, 8000.0, maxima[i], 2u * 90u, i);
        needed(ROOM_FLANGER, 192000.0, maxima[i], 2u * 1930u, i);
        needed(ROOM_VIBRATO, 44100.0, maxima[i], 892u, i);
        needed(ROOM_VIBRATO, 8000.0, maxima[i], 170u, i);
        needed(ROOM_VIBRATO, 192000.0, maxima[i], 3850u, i);
        needed(ROOM_TAPE_DELAY, 44100.0, maxima[i], 529201u, i);
        needed(ROOM_TAPE_DELAY, 8000.0, maxima[i], 96001u, i);
        needed(ROOM_TAPE_DELAY, 192000.0, maxima[i], 2304001u, i);
        needed(ROOM_TAPE_DELAY, 8000.0833, maxima[i], 96001u, i); /* 96,000.9996 and 96,001.0008 */
        needed(ROOM_TAPE_DELAY, 8000.0834, maxima[i], 96002u, i);
        for (k = 0; k < rates.count; k++) {
            needed(ROOM_TREMOLO, rates.list[k], maxima[i], 0u, k);
            needed(ROOM_PHASER, rates.list[k], maxima[i], 0u, k);
            needed(ROOM_REVERB, rates.list[k], maxima[i], 87136u, k);
        }
    }
}

static void by_the_maximum(void)
{
    const double infinity = (double)INFINITY;
    needed(ROOM_DELAY, 44100.0, 2.0, 88201u, 0);
    needed(ROOM_DELAY, 8000.0, 0.001, 9u, 1);
    needed(ROOM_DELAY, 192000.0, 60.0, 11520001u, 2);
    needed(ROOM_DELAY, 192000.0, 61.0, 11520001u, 3);
    needed(ROOM_DELAY, 8000.0, -1.0, 9u, 4);
    needed(ROOM_DELAY, 44100.0, (double)NAN, 88201u, 5);
    needed(ROOM_DELAY, 44100.0, infinity, 88201u, 6);
    needed(ROOM_DELAY, 44100.0, -infinity, 88201u, 7);
    needed(ROOM_DELAY, 10260.0, 0.35, 3591u, 8); /* rate x maximum */
}

void places(void)
{
    const uint32_t others[] = {0u, 9u, 10u, 256u + 8u, UINT32_C(0x80000001), UINT32_MAX};
    const struct numbers wrong = rates_refused();
    unsigned i, k;
    by_the_rate();
    by_the_maximum();
    for (i = 0; i < wrong.count; i++) {
        for (k = ROOM_DELAY; k <= ROOM_TAPE_DELAY; k++) {
            needed(k, wrong.list[i], 2.0, none, 10u * i + k);
        }
    }
    for (i = 0; i < COUNT(others); i++) {
        needed(others[i], 44100.0, 2.0, none, i);
        needed(others[i], (double)NAN, (double)NAN, none, i);
    }
}
