/* The question whether a unit is silent, of every effect with sweeps: it is answered by the count that the state keeps. */
#include "lines_parts.h"

void silent_refused(const struct lined *e, struct unit unit, uint32_t number, const char *what, unsigned i)
{
    int silent = 7;
    check(e->silent(&unit, &silent) == number && silent == 0, what, i);
}

static void silent_is(const struct lined *e, struct unit unit, int yes, const char *what, unsigned i)
{
    int silent = 7;
    check(e->silent(&unit, &silent) == 0 && silent == yes, what, i);
}

/* At each rate, whose places in use are as many as a count may be. */
void lines_questions(const struct lined *e)
{
    unsigned i, k;
    for (i = 0; i < COUNT(e->lengths); i++) {
        const uint32_t all = e->lines * e->lengths[i].length;
        const uint32_t sounds[] = {1, 2, 256, all / 2u, all - 1u, all};
        struct unit unit = unit_at(e->lengths[i].length - 1u);
        unit.sample_rate = e->lengths[i].rate;
        silent_is(e, counting(unit, 0), 1, "a count of 0 is silent", i);
        for (k = 0; k < COUNT(sounds); k++) {
            silent_is(e, counting(unit, sounds[k] <= all ? sounds[k] : all), 0, "any other sounds", 10u * i + k);
        }
        silent_refused(e, counting(unit, all + 1u), 4, "more than there are is refused", i);
    }
}
