/* What the calls came to beside the numbers they returned: ages, and of the tape delay the states and positions that its halves
   were handed, and what was done while a read waited. */
#include "hostile.h"

#include <stdio.h>
#include <string.h>

/* Ages of accepted ticks, by where in the line they are. */
enum { AT_1, BETWEEN, AT_END, AGES };
static const char *const age_names[AGES] = {"1", "between", "L - 1"};
static uint64_t ages[AGES], ages_beyond;

/* 1 to L - 1, with L by the state; the lines of delay and tape delay alone are read up to both ends. */
void count_age(const struct call *c, const struct answer *a)
{
    if (c->kind == TICK && a->number == 0u && has_ages(c->effect)) {
        const uint64_t last = length_at(c->effect, &c->state, 0) - 1u;
        ages[a->age == 1u ? AT_1 : a->age == last ? AT_END : BETWEEN]++;
        ages_beyond += a->age < 1u || a->age > last;
    }
}

/* Floats by what they are; of a mix 1 counts apart. */
enum { PLUS_ZERO, MINUS_ZERO, SUBNORMAL, NORMAL, ONE, INFINITE, NO_NUMBER, FLOATS };
static const char *const float_names[FLOATS] = {"+0", "-0", "subnormal", "normal", "1", "infinite", "NaN"};

static int float_of(double x)
{
    const int field = (int)(bits(x) >> 52 & 0x7ffu);
    if (is_nan(x) || field == 0x7ff) {
        return is_nan(x) ? NO_NUMBER : INFINITE;
    }
    if (field == 0) {
        return same(x, 0.0) ? PLUS_ZERO : same(x, -0.0) ? MINUS_ZERO : SUBNORMAL;
    }
    return same(x, 1.0) ? ONE : NORMAL;
}

/* The kept numbers: of accepted store halves, and of calls that are refused by 4 for what is kept alone. The marks say which
   kinds must be come to, in the order above. */
enum { STORED, WAITING_REFUSED, NOT_WAITING_REFUSED, CAUSES };
static const struct {
    const char *name, *must[3];
} causes[CAUSES] = {
    {"store halves accepted", {"++++.++", "++++.++", "+++++.."}},
    {"refused while one waits", {".......", ".......", "..++.++"}},
    {"refused while none waits", {".++++++", ".++++++", ".++++++"}},
};
static uint64_t kept[CAUSES][3][FLOATS];

static void count_kept(const struct call *c, const struct answer *a)
{
    const unsigned first = word_of(TAPE, 'k');
    struct state without = c->state;
    int cause = read_waits(TAPE, &c->state) ? WAITING_REFUSED : NOT_WAITING_REFUSED;
    unsigned i;
    without.word[first] = without.word[first + 1u] = without.word[first + 2u] = 0u;
    if (c->kind == STORE && a->number == 0u) {
        cause = STORED;
    } else if (a->number != 4u || !state_passes(TAPE, &without)) {
        return;
    }
    for (i = 0; i < 3u; i++) {
        kept[cause][i][float_of(of_bits(c->state.word[first + i]))]++;
    }
}

/* Positions, and what was done while a read waited. */
enum { AT_LAST, AT_LENGTH, AT_TOP_BIT, NOT_SILENT, SILENT_AFTER, DROPPED, LEFT_WAITING, OTHERS };
static const char *const other_names[OTHERS] = {
    "store halves at position L - 1",
    "halves refused for position L",
    "halves refused for position 2^31",
    "questions at a count of 0 answered with no for the waiting read",
    "questions at a count of 0 without one answered with yes",
    "waiting reads dropped by a retune or a reset",
    "store halves refused by 6 that left it waiting",
};
static uint64_t others[OTHERS];

static void count_position(const struct call *c, const struct answer *a)
{
    struct state first = c->state;
    first.word[0] = 0u;
    if (c->kind == STORE && a->number == 0u) {
        others[AT_LAST] += c->state.word[0] == length_at(TAPE, &c->state, 0) - 1u;
    }
    if (plays_samples(c) && a->number == 4u && state_passes(TAPE, &first)) {
        others[AT_LENGTH] += c->state.word[0] == length_at(TAPE, &c->state, 0);
        others[AT_TOP_BIT] += c->state.word[0] == UINT32_C(1) << 31;
    }
}

void count_reached(const struct call *c, const struct answer *a)
{
    const int waits = read_waits(c->effect, &c->state);
    if (c->effect != TAPE) {
        return;
    }
    count_kept(c, a);
    count_position(c, a);
    if (c->kind == SILENT && a->number == 0u && value_of(TAPE, &c->state, 'n') == 0u) {
        others[waits ? NOT_SILENT : SILENT_AFTER] += a->silent == (waits ? 0u : 1u);
    }
    others[DROPPED] += waits && a->number == 0u && (c->kind == RETUNE || c->kind == RESET) && !read_waits(TAPE, &a->state);
    others[LEFT_WAITING] += c->kind == STORE && a->number == 6u && read_waits(TAPE, &a->state);
}

void count(unsigned *passed, unsigned *failed, int good, const char *name)
{
    *passed += good != 0;
    *failed += good == 0;
    if (!good) {
        printf("FAILED: never reached, or wrong: %s\n", name);
    }
}

static void print_ages(unsigned *passed, unsigned *failed)
{
    int kind;
    printf("ages:");
    for (kind = 0; kind < AGES; kind++) {
        printf(" %s %llu,", age_names[kind], (unsigned long long)ages[kind]);
    }
    printf(" others %llu\n", (unsigned long long)ages_beyond);
    for (kind = 0; kind < AGES; kind++) {
        count(passed, failed, ages[kind] > 0u, "an age");
    }
    count(passed, failed, ages_beyond == 0u, "ages from 1 to L - 1");
}

static void print_kept(unsigned *passed, unsigned *failed)
{
    static const char *const names[3] = {"audio", "read", "mix"};
    int cause, kind;
    unsigned i;
    printf("tape, what is kept             ");
    for (kind = 0; kind < FLOATS; kind++) {
        printf(" %9s", float_names[kind]);
    }
    puts("");
    for (cause = 0; cause < CAUSES; cause++) {
        for (i = cause == WAITING_REFUSED ? 2u : 0u; i < 3u; i++) {
            printf("%-25s%-6s", causes[cause].name, names[i]);
            for (kind = 0; kind < FLOATS; kind++) {
                printf(" %9llu", (unsigned long long)kept[cause][i][kind]);
            }
            puts("");
            for (kind = 0; kind < FLOATS; kind++) {
                if (causes[cause].must[i][kind] == '+') {
                    count(passed, failed, kept[cause][i][kind] > 0u, float_names[kind]);
                }
            }
        }
    }
}

void print_reached(unsigned *passed, unsigned *failed)
{
    int i;
    print_ages(passed, failed);
    print_kept(passed, failed);
    for (i = 0; i < OTHERS; i++) {
        printf("tape, %s: %llu\n", other_names[i], (unsigned long long)others[i]);
        count(passed, failed, others[i] > 0u, other_names[i]);
    }
}
