/* The question whether a reverb is silent: it is answered by the count of the places in use and by the damping stores. */
#include "reverb.h"

/* What keeps a unit from being silent in whichever store it is. */
static const double sounds[] = {0x1p-1074, -0x1p-1074, 0x1p-1073, 1.0, -1.0, (double)INFINITY, -(double)INFINITY, (double)NAN};

void reverb_silent_refused(room_reverb before, uint32_t number, const char *what, unsigned i)
{
    room_reverb state = before;
    int silent = 7;
    check(room_reverb_silent(&state, &silent) == number && silent == 0, what, i);
    check(reverb_is(&state, &before), what, i);
}

/* A state whose stores are +0 and -0, and its count 0. */
static room_reverb quiet_reverb(const struct tuning *at)
{
    room_reverb state = varied_reverb(at);
    unsigned comb;
    for (comb = 0; comb < STORES; comb++) {
        *comb_store(&state, comb) = comb % 3u == 0u ? -0.0 : 0.0;
    }
    return reverb_counting(state, 0u);
}

static void silent_is(room_reverb state, int yes, const char *what, unsigned i)
{
    room_reverb given = state;
    int silent = 7;
    check(room_reverb_silent(&given, &silent) == 0 && silent == yes, what, i);
    check(reverb_is(&given, &state), "silent changes no field", i);
}

static void counts_at(const struct tuning *at, unsigned which)
{
    const uint32_t all = tank_in_use(at);
    const uint32_t counts[] = {1, 2, 25, 256, all - 1u, all};
    unsigned i;
    for (i = 0; i < COUNT(counts); i++) {
        silent_is(reverb_counting(quiet_reverb(at), counts[i]), 0, "a count that is not 0 sounds", 10u * which + i);
        silent_is(reverb_counting(varied_reverb(at), counts[i]), 0, "with stores that sound too", 10u * which + i);
    }
}

/* Exactly one of the sixteen stores is not zero, and the count is 0. */
static void stores_at(const struct tuning *at, unsigned which)
{
    unsigned comb, k;
    for (comb = 0; comb < STORES; comb++) {
        room_reverb state = quiet_reverb(at);
        for (k = 0; k < COUNT(sounds); k++) {
            *comb_store(&state, comb) = sounds[k];
            silent_is(state, 0, "one store sounds", 1000u * which + 10u * comb + k);
        }
        *comb_store(&state, comb) = ODD_NAN;
        silent_is(state, 0, "one store is NaN", 1000u * which + 10u * comb);
        *comb_store(&state, comb) = -0.0;
        silent_is(state, 1, "a store of -0 doesn't sound", 1000u * which + 10u * comb);
    }
}

/* A unit that is silent, and one that is but for a store: the refusals are those of any other. */
static void refusals_at(const struct tuning *at, unsigned which)
{
    unsigned line;
    for (line = 0; line < LINES; line++) {
        const unsigned i = 100u * which + line;
        room_reverb state = quiet_reverb(at);
        if (line < STORES) {
            *comb_store(&state, line) = 1.0;
        }
        reverb_silent_refused(reverb_counting(state, tank_in_use(at) + 1u), 4, "a count above the places in use", i);
        *line_pos(&state, line) = line_length(at, line);
        reverb_silent_refused(state, 4, "a position too far, in silence", i);
    }
}

static void questions_at(const struct tuning *at, unsigned which)
{
    silent_is(quiet_reverb(at), 1, "a count of 0 and stores of +0 and -0 are silent", which);
    silent_is(cleared_reverb(at->rate), 1, "so are stores of +0", which);
    silent_is(reverb_counting(varied_reverb(at), 0u), 0, "a count of 0 is not silent where the stores sound", which);
    counts_at(at, which);
    stores_at(at, which);
    refusals_at(at, which);
}

void reverb_questions(void)
{
    unsigned i;
    for (i = 0; i < TUNINGS; i++) {
        questions_at(&tunings[i], i);
    }
}
