/* Document 02, A.8: the count that a state keeps of its places in use that are neither +0 nor -0. What a tick leaves of it by
   its writes, and by a reading of all places in use before a call and after it; and what of that the calls came to. */
#include "hostile.h"

#include <stdio.h>
#include <string.h>

/* "where a tick's net change would take the count below 0 or above the places in use, it stays at that end" */
static int64_t ended(int64_t count, int64_t all)
{
    return count < 0 ? 0 : count > all ? all : count;
}

/* Of a tick that is accepted. No place is written twice, and the memory is as the tick finds it. */
void count_writes(struct ticked *t, const struct call *c)
{
    int64_t all, count, each;
    unsigned i;
    t->below = t->above = t->apart = 0;
    if (lines_of(c->effect) == 0u) {
        return;
    }
    all = (int64_t)places_in_use(c->effect, &c->state);
    count = each = (int64_t)value_of(c->effect, &c->state, 'n');
    for (i = 0; i < t->writes; i++) {
        const int change = is_nonzero(t->value[i]) - is_nonzero(c->memory[t->place[i]]);
        count += change;
        each = ended(each + change, all);
    }
    t->below = count < 0;
    t->above = count > all;
    t->apart = ended(count, all) != each;
    t->state.word[word_of(c->effect, 'n')] = (uint64_t)ended(count, all);
}

static uint64_t nonzero_in(const double *from, uint64_t places)
{
    uint64_t i, count = 0;
    for (i = 0; i < places; i++) {
        count += is_nonzero(from[i]) != 0;
    }
    return count;
}

uint64_t nonzero_places(const struct call *c)
{
    const double rate = rate_of(c->effect, &c->state);
    uint64_t count = 0;
    unsigned line;
    if (c->effect != REVERB) {
        return nonzero_in(c->memory, needed(c->effect, rate, maximum_of(c->effect, &c->state)));
    }
    for (line = 0; line < TANK_LINES; line++) {
        count += nonzero_in(c->memory + tank_start(line), tank_length(line, rate));
    }
    return count;
}

/* What the calls came to, of each effect. A run is a unit that was started or cleared, and that nobody else touched since. */
enum { ONE_MORE, MOST, AT_ALL, BELOW_0, ABOVE_ALL, SOUNDS, FALLS_SILENT, APART, REACHED };
static const char *const names[REACHED] = {"U + 1 refused",   "2^32 - 1",       "U accepted", "stays at 0", "stays at U",
                                           "run that sounds", "silent one", "one end"};
static uint64_t reached[EFFECTS][REACHED];

int in_a_run(const struct unit *unit, const struct call *c)
{
    return unit->untouched && c->memory == unit->memory && memcmp(&c->state, &unit->state, sizeof c->state) == 0;
}

/* "on every state reached from a start, with memory that nobody else wrote, it equals the full reading"; of an accepted call
   that is no clearing, whose memory was read as a whole before it. */
const char *check_count(const struct unit *unit, const struct call *c, const struct answer *a, uint64_t before)
{
    const uint64_t after = nonzero_places(c), count = value_of(c->effect, &a->state, 'n');
    const int64_t all = (int64_t)places_in_use(c->effect, &c->state);
    const int64_t handed = (int64_t)value_of(c->effect, &c->state, 'n');
    if ((int64_t)count != ended(handed + (int64_t)after - (int64_t)before, all)) {
        return "the count, by the places in use before the call and after it";
    }
    if (in_a_run(unit, c)) {
        if (count != after) {
            return "the count of a run, by the places in use";
        }
        if (c->kind == SILENT && (a->silent != 0u) != (after == 0u && keeps_no_sound(c))) {
            return "the answer to silent in a run, by the places in use";
        }
        reached[c->effect][after > 0u ? SOUNDS : FALLS_SILENT]++;
    }
    return NULL;
}

void count_ends(const struct call *c, const struct ticked *t)
{
    reached[c->effect][BELOW_0] += t->below != 0;
    reached[c->effect][ABOVE_ALL] += t->above != 0;
    reached[c->effect][APART] += t->apart != 0;
}

/* Calls that were refused by 4 for the count alone, with 0 in whose place the state passes; a start reads none. */
void count_counts(const struct call *c, const struct answer *a)
{
    struct state other = c->state;
    uint64_t all, count;
    if (lines_of(c->effect) == 0u || c->kind == START || (a->number != 0u && a->number != 4u)) {
        return;
    }
    count = value_of(c->effect, &c->state, 'n');
    other.word[word_of(c->effect, 'n')] = 0u;
    if (!state_passes(c->effect, &other)) {
        return;
    }
    all = places_in_use(c->effect, &c->state);
    reached[c->effect][ONE_MORE] += a->number == 4u && count == all + 1u;
    reached[c->effect][MOST] += a->number == 4u && count == UINT32_MAX;
    reached[c->effect][AT_ALL] += a->number == 0u && count == all;
}

/* With one place to write, an end at each write is the end on the net change, and with a flanger's two they are seldom apart:
   tests/c has the cases in which they are. */
static int must_reach(int effect, int which)
{
    return which != APART || effect == REVERB;
}

void print_counts(unsigned *passed, unsigned *failed)
{
    char cell[60];
    int effect, i;
    printf("counts  ");
    for (i = 0; i < REACHED; i++) {
        printf(" %15s", names[i]);
    }
    puts("");
    for (effect = DELAY; effect < EFFECTS; effect++) {
        if (lines_of(effect) == 0u) {
            continue;
        }
        printf("%-8s", effect_names[effect]);
        for (i = 0; i < REACHED; i++) {
            printf(" %15llu", (unsigned long long)reached[effect][i]);
        }
        puts("");
        for (i = 0; i < REACHED; i++) {
            if (must_reach(effect, i)) {
                snprintf(cell, sizeof cell, "%s, count: %s", effect_names[effect], names[i]);
                count(passed, failed, reached[effect][i] > 0u, cell);
            }
        }
    }
}
