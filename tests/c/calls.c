/* What the tests of the calls share: how they are counted, floats by their bits, and numbers that all effects get. */
#include "calls.h"

#include <stdio.h>
#include <string.h>

static unsigned passed, failed;
static const char *under_test = "";

void now_testing(const char *name)
{
    under_test = name;
}

void check(int good, const char *what, unsigned number)
{
    if (good) {
        passed++;
    } else {
        failed++;
        printf("FAILED: %s: %s (case %u)\n", under_test, what, number);
    }
}

int say_counts(void)
{
    printf("%u passed, %u failed\n", passed, failed);
    return failed != 0u;
}

uint64_t bits(double x)
{
    uint64_t u;
    memcpy(&u, &x, sizeof u);
    return u;
}

double of_bits(uint64_t u)
{
    double x;
    memcpy(&x, &u, sizeof x);
    return x;
}

int same(double a, double b)
{
    return bits(a) == bits(b);
}

int all_same(const double *a, const double *b, unsigned count)
{
    return memcmp(a, b, count * sizeof *a) == 0;
}

int plays(double is, double should)
{
    return isnan(should) ? isnan(is) : same(is, should);
}

uint32_t nonzero_in(const double *from, uint64_t places)
{
    const uint64_t all_but_the_sign = UINT64_MAX >> 1;
    uint64_t i, count = 0;
    for (i = 0; i < places; i++) {
        count += (bits(from[i]) & all_but_the_sign) != 0u;
    }
    return (uint32_t)count;
}

uint32_t count_after(uint32_t handed, uint32_t before, uint32_t after, uint32_t all)
{
    const int64_t count = (int64_t)handed + after - before;
    return count < 0 ? 0u : count > all ? all : (uint32_t)count;
}

uint32_t age_at(double distance)
{
    const uint32_t whole = (uint32_t)distance;
    return distance - whole == 0.0 ? whole : whole + 1u;
}

double farther(double x)
{
    return of_bits(bits(x) + 1u);
}

double nearer(double x)
{
    return of_bits(bits(x) - 1u);
}

double saturated(double sum)
{
    const double t = fmax(tanh(1.0), 0.001);
    const double v = tanh((sum / 5.0) * t) / t;
    return v < -1.0 ? -1.0 : v > 1.0 ? 1.0 : v;
}

#define NUMBERS(...) {COUNT(((const double[]){__VA_ARGS__})), {__VA_ARGS__}}

struct numbers rates_accepted(void)
{
    const struct numbers n = NUMBERS(8000.0, farther(8000.0), 44100.0, 48000.5, nearer(192000.0), 192000.0);
    return n;
}

struct numbers rates_refused(void)
{
    const double infinity = (double)INFINITY;
    const struct numbers n = NUMBERS(nearer(8000.0), farther(192000.0), 0.0, -0.0, -44100.0, SMALLEST, DBL_MAX, infinity,
                                     -infinity, (double)NAN, ODD_NAN);
    return n;
}

struct numbers phases_accepted(void)
{
    const struct numbers n = NUMBERS(0.0, -0.0, SMALLEST, 0.25, 0.5, nearer(1.0));
    return n;
}

struct numbers phases_refused(void)
{
    const double infinity = (double)INFINITY;
    const struct numbers n = NUMBERS(1.0, farther(1.0), 2.0, -SMALLEST, -1e-300, -0.5, infinity, -infinity, (double)NAN,
                                     ODD_NAN);
    return n;
}

struct numbers frequencies_refused(void)
{
    const double infinity = (double)INFINITY;
    const struct numbers n = NUMBERS(-SMALLEST, -1e-9, farther(32.0), 32.000001, 1e308, infinity, -infinity, (double)NAN,
                                     ODD_NAN);
    return n;
}

struct numbers sines_refused(void)
{
    const double infinity = (double)INFINITY;
    const struct numbers n = NUMBERS(farther(1.0), farther(-1.0), 1.0000001, 2.0, infinity, -infinity, (double)NAN, ODD_NAN);
    return n;
}

struct numbers coefficients_accepted(void)
{
    const struct numbers n = {6, {0.0, -0.0, SMALLEST, 0.5, exp(-1.0 / (0.005 * 44100.0)), nearer(1.0)}};
    return n;
}

struct numbers coefficients_refused(void)
{
    const double infinity = (double)INFINITY;
    const struct numbers n = {10, {1.0, farther(1.0), 2.0, DBL_MAX, -SMALLEST, -0.5, infinity, -infinity, (double)NAN,
                                   ODD_NAN}};
    return n;
}

struct numbers at_least_one(void)
{
    const struct numbers n = NUMBERS(1.0, farther(1.0), 2.0, 1e308, DBL_MAX, (double)INFINITY);
    return n;
}

struct numbers at_most_zero(void)
{
    const struct numbers n = NUMBERS(0.0, -0.0, -SMALLEST, -1.0, -1e308, -(double)INFINITY);
    return n;
}

struct numbers not_read(void)
{
    const struct numbers n = NUMBERS(0.0, 1.0, (double)NAN, ODD_NAN, (double)INFINITY);
    return n;
}

const uint32_t flags_on[FLAGS_ON] = {1u, 2u, 256u, UINT32_C(0x80000000), UINT32_MAX};
