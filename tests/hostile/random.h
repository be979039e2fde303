/* One stream of numbers from one seed, and floats that a test at a limit could get wrong. They need `bits` and `of_bits` of the
   driver that draws. */
#ifndef RANDOM_H
#define RANDOM_H

#include <stdint.h>

void seed_random(uint64_t seed);
uint64_t any_bits(void);
uint64_t below(uint64_t n);
int one_in(uint64_t n);
double from_to(double low, double high);
double any_float(void); /* any float, those at some limit among them more often */
double any_nan(void);
double near(double x); /* it or a float up to two steps beside it */
double good_rate(void);
double good_maximum(void);
double good_coefficient(void);

#endif
