/* What the tests of the calls share. */
#ifndef CALLS_H
#define CALLS_H

#include "room_effects.h"

#include <float.h>
#include <math.h>

#define COUNT(list) (sizeof(list) / sizeof((list)[0]))

/* A test, passed where it is good. */
void check(int good, const char *what, unsigned number);

/* What the tests from here on are of: a failure says it. */
void now_testing(const char *name);

/* The last line, `N passed, M failed`, and the exit status. */
int say_counts(void);

uint64_t bits(double x);
double of_bits(uint64_t u);

/* Equal to the bit: +0 and -0 differ, and so do two NaNs of other bits. */
int same(double a, double b);

/* The same for `count` of them. */
int all_same(const double *a, const double *b, unsigned count);

/* Equal to the bit or, where `should` is a NaN, any NaN. */
int plays(double is, double should);

/* How many of these places are neither +0 nor -0, by their bits. */
uint32_t nonzero_in(const double *from, uint64_t places);

/* The count that a tick leaves of one that it was handed: it changes by the net change of the places in use, of which so many
   were no zeros before the tick and after it, and stops once at 0 and at all of them. */
uint32_t count_after(uint32_t handed, uint32_t before, uint32_t after, uint32_t all);

/* The age of a read at this distance by document 02: the whole part, plus one where the fraction is not 0. */
uint32_t age_at(double distance);

/* The next float away from 0, the next one towards it. */
double farther(double x);
double nearer(double x);

/* A tape delay's host between the halves: tanh_sat(sum / 5, 1), of the header. NaN passes, as the Rust's clamp lets it. */
double saturated(double sum);

/* The smallest float above 0, and a NaN whose bits must survive a refusal. */
#define SMALLEST of_bits(1u)
#define ODD_NAN of_bits(UINT64_C(0xfff8000000001234))
#define JUNK 12345.0
#define JUNK_AGE 12345u

/* Numbers that all effects get. */
struct numbers {
    unsigned count;
    double list[12];
};
struct numbers rates_accepted(void);
struct numbers rates_refused(void);
struct numbers phases_accepted(void);
struct numbers phases_refused(void);
struct numbers frequencies_refused(void);
struct numbers sines_refused(void); /* an all-pass coefficient's and a saturated value's too */
struct numbers coefficients_accepted(void); /* of a glide */
struct numbers coefficients_refused(void);
struct numbers at_least_one(void);
struct numbers at_most_zero(void);

/* What an unset port may hold: it is not read. */
struct numbers not_read(void);

/* A flag is off where it is 0: numbers at which it is on. */
#define FLAGS_ON 5u
extern const uint32_t flags_on[FLAGS_ON];

void tremolo(void);
void vibrato(void);
void chorus(void);
void flanger(void);
void delay(void);
void reverb(void);
void phaser(void);
void tape(void);
void places(void);
void order_of_causes(void);
void counts(void);
void ends(void);
void ages(void);
void stuck(void);
void float_mode(void);

#endif
