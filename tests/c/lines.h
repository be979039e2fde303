/* The calls of an effect with sweeps in one form, so that what holds of all such effects is tested once. The delay, whose
   settings are more than a rate, shares the memory. */
#ifndef LINES_H
#define LINES_H

#include "calls.h"

#define MOST 3

/* The fields of a state; of the phases, the effect's own come first. */
struct unit {
    uint32_t write_pos, nonzero_places;
    double phases[MOST];
    double sample_rate;
};

/* Feedback is the flanger's alone. */
struct tick {
    room_port audio, depth, feedback, mix;
    double frequency, sines[MOST];
};

/* A rate, and how long document 01 has a line at that rate. */
struct length {
    double rate;
    unsigned length;
};

struct lined {
    unsigned lines, phases, sines, samples; /* how many */
    double start_phases[MOST];
    int retune_keeps_phases;
    int input_rule; /* whether audio that is not finite counts as +0 */
    int feeds_back; /* whether its tick reads the feedback */
    struct length lengths[6];
    uint32_t (*start)(struct unit *unit, double *memory, uint64_t places, double sample_rate);
    uint32_t (*retune)(struct unit *unit, double *memory, uint64_t places, double sample_rate);
    uint32_t (*reset)(struct unit *unit, double *memory, uint64_t places);
    uint32_t (*tick)(struct unit *unit, double *memory, uint64_t places, const struct tick *t, double out[MOST], uint32_t *age);
    uint32_t (*silent)(const struct unit *unit, int *silent);
};

/* Start, retune, reset and silent of the effect E in that form, by a `state_of` and a `put` that copy its fields. */
#define LINED_CALLS(E)                                                                                                  \
    static uint32_t start(struct unit *unit, double *lent, uint64_t places, double sample_rate)                         \
    {                                                                                                                   \
        room_##E state = state_of(unit);                                                                                \
        return put(unit, &state, room_##E##_start(&state, lent, places, sample_rate));                                  \
    }                                                                                                                   \
    static uint32_t retune(struct unit *unit, double *lent, uint64_t places, double sample_rate)                        \
    {                                                                                                                   \
        room_##E state = state_of(unit);                                                                                \
        return put(unit, &state, room_##E##_retune(&state, lent, places, sample_rate));                                 \
    }                                                                                                                   \
    static uint32_t reset(struct unit *unit, double *lent, uint64_t places)                                             \
    {                                                                                                                   \
        room_##E state = state_of(unit);                                                                                \
        return put(unit, &state, room_##E##_reset(&state, lent, places));                                               \
    }                                                                                                                   \
    static uint32_t silent(const struct unit *unit, int *yes)                                                           \
    {                                                                                                                   \
        const room_##E state = state_of(unit);                                                                          \
        return room_##E##_silent(&state, yes);                                                                          \
    }

/* `state_of` and `put` of an effect with one phase. */
#define ONE_PHASE_STATE(E)                                                                                              \
    static room_##E state_of(const struct unit *unit)                                                                   \
    {                                                                                                                   \
        room_##E state;                                                                                                 \
        state.write_pos = unit->write_pos;                                                                              \
        state.nonzero_places = unit->nonzero_places;                                                                    \
        state.lfo_phase = unit->phases[0];                                                                              \
        state.sample_rate = unit->sample_rate;                                                                          \
        return state;                                                                                                   \
    }                                                                                                                   \
    static uint32_t put(struct unit *unit, const room_##E *state, uint32_t number)                                      \
    {                                                                                                                   \
        unit->write_pos = state->write_pos;                                                                             \
        unit->nonzero_places = state->nonzero_places;                                                                   \
        unit->phases[0] = state->lfo_phase;                                                                             \
        unit->sample_rate = state->sample_rate;                                                                         \
        return number;                                                                                                  \
    }

/* The memory of all these tests: three times the most that a unit with a sweep needs, 6,154 places, and some more, so that in
   some calls far more places are spare than in use. */
#define ROOM 18500u
extern double memory[ROOM];

/* Puts odd numbers, NaNs and -0 among them, into every place, and keeps what they are. */
void fill(void);

/* Whether every place is as `fill` left it. */
int memory_kept(void);

/* Whether these places hold +0, and those beyond them what `fill` left. */
int cleared(unsigned places);

/* A state at 8,000 with this position, its phases 0.25, 0.5 and 0.75, and a count of 7, whatever the memory holds. */
struct unit unit_at(uint32_t write_pos);

/* A tick with every port set, feedback to 0, and all sines the same. */
struct tick tick_of(double audio, double depth, double mix, double frequency, double sine);

/* Runs the tick from this position at 8,000, in the memory as it is: the samples, a NaN standing for any, and the count. */
void tick_plays(const struct lined *e, uint32_t write_pos, struct tick t, const double samples[MOST], const char *what,
                unsigned i);

/* Every phase at `phase`, a tick at this frequency: what the phases then are. */
void tick_moves(const struct lined *e, double phase, double frequency, const double next[MOST], const char *what, unsigned i);

/* The whole of what holds of every effect with sweeps. */
void lines(const struct lined *e);

#endif
