/* Floats by their bits. */
#include "hostile.h"

#include <string.h>

uint64_t bits(double x)
{
    uint64_t u;
    memcpy(&u, &x, sizeof u);
    return u;
}

double of_bits(uint64_t u)
{
    double x;
    memcpy(&x, &u, sizeof x);
    return x;
}

int same(double a, double b)
{
    return bits(a) == bits(b);
}

int is_nan(double x)
{
    return (bits(x) & UINT64_C(0x7fffffffffffffff)) > UINT64_C(0x7ff0000000000000);
}

int is_nonzero(double x)
{
    return (bits(x) & UINT64_C(0x7fffffffffffffff)) != 0u;
}

int is_finite(double x)
{
    return (bits(x) & UINT64_C(0x7ff0000000000000)) != UINT64_C(0x7ff0000000000000);
}

int plays(double a, double b)
{
    return same(a, b) || (is_nan(a) && is_nan(b));
}
