/* What a player and a host hand in: noise, now and then no number at all or an unset port, and controls that move slowly. */
#include "hire.h"

#include <math.h>

#define SINES 4096u

static uint64_t stream;
static double sines[SINES];
static double moves[7];

void seed_sounds(uint64_t seed)
{
    unsigned i;
    stream = seed * 2u + 1u;
    for (i = 0; i < SINES; i++) {
        sines[i] = sin(6.283185307179586 * i / SINES);
    }
    for (i = 0; i < 7u; i++) {
        moves[i] = 0.1 * i;
    }
}

double sine_of(double phase)
{
    return sines[(unsigned)(phase * SINES) % SINES];
}

/* xorshift64* */
static uint64_t any_bits(void)
{
    stream ^= stream >> 12;
    stream ^= stream << 25;
    stream ^= stream >> 27;
    return stream * UINT64_C(2685821657736338717);
}

/* One in some sixty thousand is NaN or infinite, as many are unset. */
room_port noise(void)
{
    const uint64_t u = any_bits();
    const unsigned odd = (unsigned)(u & 0xffffu);
    if (odd == 0u) {
        return room_set((u & 0x10000u) != 0u ? (double)NAN : (u & 0x20000u) != 0u ? (double)INFINITY : -(double)INFINITY);
    }
    return odd == 1u ? room_unset() : room_set((double)(u >> 11) / 4503599627370496.0 - 1.0);
}

/* Up and down, each in its own time: from 2 s to some minutes. */
static double moved(unsigned i)
{
    static const double steps[] = {2.6e-6, 1.1e-6, 4.3e-7, 1.7e-7, 7.1e-8, 2.9e-8, 3.1e-7};
    double x = moves[i] + steps[i];
    x = x < 1.0 ? x : x - 1.0;
    moves[i] = x;
    return fabs(2.0 * x - 1.0);
}

struct controls next_controls(int silent)
{
    struct controls c;
    unsigned i;
    c.audio = silent ? room_set(0.0) : noise();
    if (silent && (any_bits() & 7u) == 0u) {
        c.audio = room_unset();
    }
    for (i = 0; i < 6u; i++) {
        const double x = moved(i);
        c.moving[i] = silent ? 0.25 + 0.75 * x : x * 1.2 - 0.1; /* a mix of 0 would hide what a line plays */
    }
    c.frequency = moved(6) * 32.0;
    return c;
}
