/* Random numbers, and floats that a test at a limit could get wrong. */
#include "hostile.h"

static uint64_t stream;

void seed_random(uint64_t seed)
{
    stream = seed;
}

/* splitmix64 */
uint64_t any_bits(void)
{
    uint64_t z;
    stream += UINT64_C(0x9e3779b97f4a7c15);
    z = stream;
    z = (z ^ (z >> 30)) * UINT64_C(0xbf58476d1ce4e5b9);
    z = (z ^ (z >> 27)) * UINT64_C(0x94d049bb133111eb);
    return z ^ (z >> 31);
}

uint64_t below(uint64_t n)
{
    return any_bits() % n;
}

int one_in(uint64_t n)
{
    return below(n) == 0;
}

double from_to(double low, double high)
{
    return low + (high - low) * ((double)(any_bits() >> 11) / 9007199254740992.0);
}

/* The float itself or one up to two steps beside it. */
double near(double x)
{
    return of_bits(bits(x) + below(5) - 2u);
}

/* Where the tests and clamps of document 01 have their ends, and floats that are ends for every test. */
static double at_a_limit(void)
{
    static const double limits[] = {0.0,  1.0,   0.001, 60.0, 2.0,  0.95,   0.99,    32.0,     8000.0,     44100.0,
                                    0.33, 48000, 0.5,   0.66, 0.67, 61.0, 1000.0, 96000.0, 192000.0, 4503599627370496.0};
    const double x = limits[below(COUNT(limits))];
    if (x == 0.0) {
        return of_bits(below(3) | (any_bits() & (UINT64_C(1) << 63)));
    }
    return one_in(3) ? -near(x) : one_in(2) ? near(x) : x;
}

/* A NaN of any sign and payload, quiet or signalling. */
double any_nan(void)
{
    return of_bits(any_bits() | UINT64_C(0x7ff0000000000001));
}

double any_float(void)
{
    const uint64_t sign = any_bits() & (UINT64_C(1) << 63);
    switch (below(8)) {
    case 0:
        return of_bits(any_bits());
    case 1:
        return any_nan();
    case 2:
        return of_bits(UINT64_C(0x7ff0000000000000) | sign);
    case 3:
        return of_bits((any_bits() & UINT64_C(0xfffffffffffff)) | sign); /* below the normal ones */
    case 4:
        return of_bits(((UINT64_C(0x7fe) - below(3)) << 52) | (any_bits() & UINT64_C(0xfffffffffffff)) | sign); /* huge */
    case 5:
        return from_to(-2.0, 2.0);
    default:
        return at_a_limit();
    }
}

/* Low rates more often: their lines are short, and a whole memory is soon compared. */
double good_rate(void)
{
    static const double usual[] = {8000.0, 11025.0, 22050.0, 44100.0, 48000.0, 96000.0, 192000.0};
    switch (below(8)) {
    case 0:
        return usual[below(COUNT(usual))];
    case 1:
        return from_to(8000.0, 192000.0);
    case 2:
        return of_bits(bits(8000.0) + below(3));
    case 3:
        return one_in(8) ? of_bits(bits(192000.0) - below(3)) : 8000.0;
    default:
        return from_to(8000.0, 12000.0);
    }
}

double good_maximum(void)
{
    switch (below(16)) {
    case 0:
        return of_bits(bits(0.001) + below(3));
    case 1:
        return from_to(0.001, 0.2);
    case 2:
        return one_in(8) ? 2.0 : 0.35;
    default:
        return from_to(0.001, 0.02);
    }
}

double good_coefficient(void)
{
    switch (below(6)) {
    case 0:
        return of_bits(any_bits() & (UINT64_C(1) << 63)); /* -0 too */
    case 1:
        return of_bits(bits(1.0) - 1u - below(3));
    case 2:
        return of_bits(below(3));
    default:
        return from_to(0.0, 1.0);
    }
}
