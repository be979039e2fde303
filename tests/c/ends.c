/* Document 01's bench cases of rates and memory: 8,000 and 192,000 start, the next float outside each gives 1; one place short
   gives 3. For every effect, and for every call that has the rate or the memory among its causes. */
#include "effects.h"

#include <stdlib.h>
#include <string.h>

/* Places at both ends; the delay has three maxima. */
static const struct {
    int effect;
    double maximum;
    uint64_t low, high;
} units[] = {
    {ROOM_DELAY, 0.001, 9, 193},
    {ROOM_DELAY, 2.0, 16001, 384001},
    {ROOM_DELAY, 60.0, 480001, 11520001},
    {ROOM_CHORUS, 0.0, 266, 6154},
    {ROOM_FLANGER, 0.0, 2 * 90, 2 * 1930},
    {ROOM_VIBRATO, 0.0, 170, 3850},
    {ROOM_TREMOLO, 0.0, 0, 0},
    {ROOM_REVERB, 0.0, 87136, 87136},
    {ROOM_PHASER, 0.0, 0, 0},
    {ROOM_TAPE_DELAY, 0.0, 96001, 2304001},
};

/* The most that is lent, and one place behind it. */
#define WIDEST 11520002u

/* One call: its number, and whether the last place that was lent and the one behind are +0 or as they were. A tick here is the
 * first after a clearing, which writes the first place of each line. */
static void numbered(struct effect_state *state, const struct effect_call *c, uint32_t number, const char *what, unsigned i)
{
    const int clears = number == 0u && c->call <= RESET;
    double *behind = c->lent + c->places;
    double out[3] = {JUNK, JUNK, JUNK};
    uint32_t age;
    *behind = JUNK;
    if (c->places > 0u) {
        behind[-1] = JUNK;
    }
    check(effect_make(state, c, out, &age) == number, what, i);
    check(same(*behind, JUNK), "the place behind is left", i);
    if (c->places > 0u) {
        check(same(behind[-1], clears ? 0.0 : JUNK), "the last place, cleared or left", i);
    }
}

/* Enough places, and one short, for each call at this rate. The question takes none. */
static void memory_at(unsigned which, double *lent, double rate, uint64_t places)
{
    const int effect = units[which].effect;
    struct effect_state state;
    int call;
    memset(&state, 0, sizeof state);
    for (call = START; call < CALLS; call++) {
        const unsigned i = 100u * which + 10u * (unsigned)call + (rate > 8000.0);
        struct effect_call c = effect_good(effect, call, lent, places, rate, units[which].maximum);
        if (!effect_has(effect, call)) {
            continue;
        }
        if (places > 0u && call != START && call != SILENT) {
            struct effect_state kept;
            c.places = places - 1u;
            memcpy(&kept, &state, sizeof kept);
            numbered(&state, &c, 3, "one place short", i);
            check(memcmp(&kept, &state, sizeof kept) == 0, "one place short leaves the state", i);
            c.places = places;
        }
        numbered(&state, &c, 0, "at the end of the rates, with the places needed", i);
    }
    if (places > 0u) {
        const struct effect_call c = effect_good(effect, START, lent, places - 1u, rate, units[which].maximum);
        numbered(&state, &c, 3, "a start one place short", which);
    }
}

/* A rate just outside: 1 for a start and a retune. */
static void outside(unsigned which, double *lent, double rate)
{
    const int effect = units[which].effect;
    struct effect_call c = effect_good(effect, START, lent, units[which].high, 8000.0, units[which].maximum);
    struct effect_state state;
    memset(&state, 0, sizeof state);
    numbered(&state, &c, 0, "a start to retune from", which);
    c.rate = rate;
    if (effect_has(effect, RETUNE)) {
        c.call = RETUNE;
        numbered(&state, &c, 1, "a retune to the next float outside", which);
    }
    c.call = START;
    numbered(&state, &c, 1, "a start at the next float outside", which);
}

/* No memory at all, at no address: every call but the question, which takes none, refuses it as too short, and leaves the
   state; a start leaves zeros. */
static void lent_nothing(int effect)
{
    struct effect_call c = effect_good(effect, START, NULL, 0, 8000.0, 0.001);
    const double none[3] = {0.0, 0.0, 0.0};
    struct effect_state started, state, zeros;
    double out[3];
    uint32_t age;
    int call;
    c.lent = calloc(96001u, sizeof *c.lent);
    c.places = 96001u;
    memset(&started, 0, sizeof started);
    memset(&zeros, 0, sizeof zeros);
    check(c.lent != NULL && effect_make(&started, &c, out, &age) == ROOM_ACCEPTED, "a start in memory", (unsigned)effect);
    free(c.lent);
    c.call = SILENT;
    check(effect_make(&started, &c, out, &age) == ROOM_ACCEPTED && out[0] == 1.0, "a question takes none", (unsigned)effect);
    for (call = START; call < CALLS; call++) {
        const unsigned i = 10u * (unsigned)effect + (unsigned)call;
        const unsigned answers = effect_answers(effect, call);
        if (!effect_has(effect, call) || call == SILENT) {
            continue;
        }
        c = effect_good(effect, call, NULL, 0, 8000.0, 0.001);
        effect_take_turn(&started, call);
        memcpy(&state, &started, sizeof state);
        out[0] = out[1] = out[2] = JUNK;
        age = JUNK_AGE;
        check(effect_make(&state, &c, out, &age) == ROOM_REFUSED_MEMORY, "no memory, at NULL", i);
        check(memcmp(&state, call == START ? &zeros : &started, sizeof state) == 0, "no memory: the state is left", i);
        check(all_same(out, none, answers), "no memory: it plays +0", i);
        check(call != TICK || !effect_aged(effect) || age == 0u, "no memory: a tick answers the age 0", i);
    }
    c = effect_good(effect, START, NULL, 0, nearer(8000.0), 0.001);
    check(effect_make(&state, &c, out, &age) == ROOM_REFUSED_SAMPLE_RATE, "no memory and a wrong rate", (unsigned)effect);
}

void ends(void)
{
    double *lent = calloc(WIDEST, sizeof *lent);
    unsigned i;
    int effect;
    check(lent != NULL, "memory for the longest line", 0);
    for (i = 0; lent != NULL && i < COUNT(units); i++) {
        memory_at(i, lent, 8000.0, units[i].low);
        memory_at(i, lent, 192000.0, units[i].high);
        outside(i, lent, nearer(8000.0));
        outside(i, lent, farther(192000.0));
        check(room_places_needed((uint32_t)units[i].effect, 8000.0, units[i].maximum) == units[i].low, "places at 8,000", i);
        check(room_places_needed((uint32_t)units[i].effect, 192000.0, units[i].maximum) == units[i].high,
              "places at 192,000", i);
    }
    free(lent);
    for (effect = ROOM_DELAY; effect < EFFECTS_END; effect++) {
        if (effect_lined(effect)) {
            lent_nothing(effect);
        }
    }
}
