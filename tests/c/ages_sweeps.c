/* The ages of chorus, flanger and vibrato: the largest over their reads. */
#include "ages.h"

#include <string.h>

/* Knuth's multiplier, which spreads neighbours far apart. */
double spread_number(unsigned i)
{
    return (double)(uint32_t)(i * UINT32_C(2654435761)) / 2147483648.0 - 1.0;
}

/* How far back the read lies that has this sine, at this depth. */
static double swept(int effect, double rate, double depth, double sine)
{
    if (effect == ROOM_CHORUS) {
        return 7.0 * rate / 1000.0 + (sine * 0.5 + 0.5) * (depth * 25.0 * rate / 1000.0);
    }
    if (effect == ROOM_FLANGER) {
        return (1.0 + (sine + 1.0) * 0.5 * (depth * 9.0)) * rate / 1000.0;
    }
    return (10.0 + sine * (depth * 10.0 * 0.9)) * rate / 1000.0;
}

/* How many reads its tick makes, each with a sine of its own. */
static unsigned reads_of(int effect)
{
    return effect == ROOM_CHORUS ? 3u : effect == ROOM_FLANGER ? 2u : 1u;
}

struct effect_call sweep_of(int effect, double rate, const double sines[3])
{
    struct effect_call c = tick_for_age(effect, rate, 0.0);
    c.ports[1] = room_set(1.0);
    memcpy(c.curves + 1, sines, 3u * sizeof *sines);
    return c;
}

static void sweep_answers(int effect, const double sines[3], uint32_t age, const char *what, unsigned i)
{
    struct effect_state state = started_for_age(effect, 8000.0, 0.0);
    const struct effect_call c = sweep_of(effect, 8000.0, sines);
    ages_as(&state, &c, age, what, i);
}

/* At 8,000 the chorus reads at 56 with a sine of -1, at 156 with 0, at 256 with 1; the flanger at 8, 44 and 80; the vibrato at
   8, 80 and 152. All reads at once, and each in turn with the others at -1 or at 0. */
static void largest_of_several(void)
{
    static const uint32_t ages[3][3] = {{56, 156, 256}, {8, 44, 80}, {8, 80, 152}};
    unsigned i, k;
    int effect;
    for (effect = ROOM_CHORUS; effect <= ROOM_VIBRATO; effect++) {
        const uint32_t *age = ages[effect - ROOM_CHORUS];
        for (i = 0; i < 3u; i++) {
            const double all[3] = {i - 1.0, i - 1.0, i - 1.0};
            sweep_answers(effect, all, age[i], "reads of one age", 10u * (unsigned)effect + i);
        }
        for (i = 0; i < 2u * reads_of(effect); i++) {
            double sines[3] = {-1.0, -1.0, -1.0};
            sines[i / 2u] = i % 2u;
            sweep_answers(effect, sines, age[1u + i % 2u], "each read in turn is the oldest", 10u * (unsigned)effect + i);
            for (k = 0; k < 3u; k++) {
                sines[k] = k == i / 2u ? (i % 2u == 0u ? 0x1p-50 : 0.005) : 0.0;
            }
            sweep_answers(effect, sines, age[1] + 1u, "each is older by a fraction", 10u * (unsigned)effect + i);
        }
    }
}

/* The oldest of three at different ages, in every order. */
static void reads_in_every_order(void)
{
    static const double orders[][3] = {{-1.0, 0.0, 1.0}, {-1.0, 1.0, 0.0}, {0.0, -1.0, 1.0},
                                       {0.0, 1.0, -1.0}, {1.0, -1.0, 0.0}, {1.0, 0.0, -1.0}};
    unsigned i;
    for (i = 0; i < COUNT(orders); i++) {
        sweep_answers(ROOM_CHORUS, orders[i], 256u, "the oldest voice", i);
        sweep_answers(ROOM_FLANGER, orders[i], orders[i][2] == 1.0 ? 44u : 80u, "the older of the first two", i);
        sweep_answers(ROOM_VIBRATO, orders[i], (uint32_t)(80.0 + 72.0 * orders[i][0]), "the first one", i);
    }
}

/* Sines all over -1 to 1, at rates where most distances have a fraction, and depths that are clamped to 0 to 1 or unset. */
static void sweeps(int effect, double rate)
{
    const room_port depths[] = {room_set(1.0), room_set(-1.0), room_set(0.3), room_set(2.0), room_unset()};
    const double taken[] = {1.0, 0.0, 0.3, 1.0, 0.5};
    struct effect_state state = started_for_age(effect, rate, 0.0);
    const uint32_t length = (uint32_t)room_places_needed((uint32_t)effect, rate, 0.0) / (effect == ROOM_FLANGER ? 2u : 1u);
    unsigned i, k;
    for (i = 0; i < 3000u; i++) {
        const double sines[3] = {spread_number(i), spread_number(i / 50u), spread_number(3u * i + 1u)};
        struct effect_call c = sweep_of(effect, rate, sines);
        uint32_t oldest = 0;
        c.ports[1] = depths[i % 5u];
        for (k = 0; k < reads_of(effect); k++) {
            const uint32_t age = age_at(swept(effect, rate, taken[i % 5u], sines[k]));
            oldest = age > oldest ? age : oldest;
        }
        check(oldest >= 1u && oldest < length, "by the formulas an age is 1 to L - 1", i);
        ages_as(&state, &c, oldest, "the largest age of all reads", i);
    }
}

void ages_of_sweeps(void)
{
    const double rates[] = {8000.0, 11025.5, 44100.0, 192000.0};
    unsigned i;
    int effect;
    largest_of_several();
    reads_in_every_order();
    for (effect = ROOM_CHORUS; effect <= ROOM_VIBRATO; effect++) {
        for (i = 0; i < COUNT(rates); i++) {
            sweeps(effect, rates[i]);
        }
    }
}
