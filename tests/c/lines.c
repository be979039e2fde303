/* What holds of every effect with sweeps: its places, its clearings, its states and the order of refusals. */
#include "lines_parts.h"

#include <string.h>

double memory[ROOM];
double kept[ROOM];

void fill(void)
{
    unsigned i;
    for (i = 0; i < ROOM; i++) {
        memory[i] = i % 7u == 3u ? ODD_NAN : i % 5u == 0u ? -0.0 : 1000.0 + i;
    }
    memcpy(kept, memory, sizeof kept);
}

int memory_kept(void)
{
    return all_same(memory, kept, ROOM);
}

int cleared(unsigned places)
{
    unsigned i;
    for (i = 0; i < places; i++) {
        if (!same(memory[i], 0.0)) {
            return 0;
        }
    }
    return all_same(memory + places, kept + places, ROOM - places);
}

struct unit unit_at(uint32_t write_pos)
{
    const struct unit unit = {write_pos, 7u, {0.25, 0.5, 0.75}, 8000.0};
    return unit;
}

struct unit unit_of(uint32_t write_pos, const double phases[MOST], double sample_rate)
{
    struct unit unit;
    unit.write_pos = write_pos;
    unit.nonzero_places = 0u;
    memcpy(unit.phases, phases, sizeof unit.phases);
    unit.sample_rate = sample_rate;
    return unit;
}

struct unit counting(struct unit unit, uint32_t count)
{
    unit.nonzero_places = count;
    return unit;
}

static const double no_phases[MOST] = {0.0, 0.0, 0.0};

static struct unit junk_unit(void)
{
    const struct unit unit = {12345u, 12345u, {JUNK, JUNK, JUNK}, JUNK};
    return unit;
}

int unit_is(const struct lined *e, const struct unit *is, struct unit should)
{
    return is->write_pos == should.write_pos && is->nonzero_places == should.nonzero_places &&
           all_same(is->phases, should.phases, e->phases) && same(is->sample_rate, should.sample_rate);
}

unsigned length_of(const struct lined *e)
{
    return e->lengths[0].length;
}

unsigned needed(const struct lined *e)
{
    return e->lines * length_of(e);
}

uint32_t nonzero_now(const struct lined *e)
{
    return nonzero_in(memory, needed(e));
}

uint32_t counted(const struct lined *e, uint32_t before)
{
    return count_after(unit_at(0).nonzero_places, before, nonzero_now(e), needed(e));
}

/* Refusals: each number, and everything left as it was. */

static void retune_refused(const struct lined *e, struct unit before, uint64_t places, double rate, uint32_t number,
                           const char *what, unsigned i)
{
    struct unit unit = before;
    fill();
    check(e->retune(&unit, memory, places, rate) == number, what, i);
    check(unit_is(e, &unit, before) && memory_kept(), what, i);
}

static void reset_refused(const struct lined *e, struct unit before, uint64_t places, uint32_t number, const char *what,
                          unsigned i)
{
    struct unit unit = before;
    fill();
    check(e->reset(&unit, memory, places) == number, what, i);
    check(unit_is(e, &unit, before) && memory_kept(), what, i);
}

/* Start */

static void start_accepted(const struct lined *e, double rate, unsigned places, unsigned i)
{
    struct unit unit = junk_unit();
    fill();
    check(e->start(&unit, memory, places, rate) == 0, "start is accepted", i);
    check(unit_is(e, &unit, unit_of(0, e->start_phases, rate)), "start leaves position, count, start phases, rate", i);
    check(cleared(places), "start puts +0 into every place that it is lent, and into no other", i);
}

static void start_refused(const struct lined *e, double rate, unsigned places, uint32_t number, unsigned i)
{
    const struct unit blank = unit_of(0, no_phases, 0.0);
    struct unit unit = junk_unit();
    fill();
    check(e->start(&unit, memory, places, rate) == number, "start is refused", i);
    check(unit_is(e, &unit, blank), "a refused start writes a state of zeros", i);
    check(memory_kept(), "a refused start leaves the memory", i);
}

static void starts(const struct lined *e)
{
    const struct numbers good = rates_accepted();
    const struct numbers wrong = rates_refused();
    unsigned i;
    for (i = 0; i < COUNT(e->lengths); i++) {
        const double rate = e->lengths[i].rate;
        const unsigned places = e->lines * e->lengths[i].length;
        start_accepted(e, rate, places, i);
        start_accepted(e, rate, places + 17u, 100u + i);
        start_accepted(e, rate, 3u * places, 700u + i);
        start_refused(e, rate, places - 1u, 3, 200u + i);
        start_refused(e, rate, 0, 3, 300u + i);
    }
    for (i = 0; i < good.count; i++) {
        start_accepted(e, good.list[i], ROOM, 400u + i);
    }
    for (i = 0; i < wrong.count; i++) {
        start_refused(e, wrong.list[i], ROOM, 1, 500u + i);
        start_refused(e, wrong.list[i], 0, 1, 600u + i);
    }
}

/* Retune and reset */

static void retune_accepted(const struct lined *e, struct unit unit, unsigned places, double rate, unsigned i)
{
    const struct unit should = unit_of(0, e->retune_keeps_phases ? unit.phases : no_phases, rate);
    fill();
    check(e->retune(&unit, memory, places, rate) == 0, "retune is accepted", i);
    check(unit_is(e, &unit, should), "retune leaves position and count 0, its phases, the rate", i);
    check(cleared(places), "retune puts +0 into every place that it is lent, and into no other", i);
}

static void retunes(const struct lined *e)
{
    const struct numbers wrong = rates_refused();
    const struct unit unit = unit_at(length_of(e) - 1u);
    unsigned i;
    for (i = 0; i < COUNT(e->lengths); i++) {
        const double rate = e->lengths[i].rate;
        const unsigned places = e->lines * e->lengths[i].length;
        struct unit high = unit_at(6u);
        high.sample_rate = 192000.0;
        retune_accepted(e, unit, places, rate, i);
        retune_accepted(e, unit, ROOM, rate, 100u + i);
        /* It is the new rate's places that count: those of the state's own rate are more. */
        retune_accepted(e, high, places, rate, 200u + i);
        retune_refused(e, unit, places - 1u, rate, 3, "retune wants the places of the new rate", i);
        retune_refused(e, unit, 0, rate, 3, "retune wants places", i);
    }
    for (i = 0; i < wrong.count; i++) {
        retune_refused(e, unit, ROOM, wrong.list[i], 1, "the new rate is refused with 1", i);
        retune_refused(e, unit, 0, wrong.list[i], 1, "1 before 3", i);
    }
}

static void resets(const struct lined *e)
{
    const uint32_t positions[] = {0, 1, length_of(e) - 1u};
    const unsigned lent[] = {needed(e), needed(e) + 1u, ROOM};
    unsigned i;
    for (i = 0; i < COUNT(positions); i++) {
        struct unit unit = unit_at(positions[i]);
        fill();
        check(e->reset(&unit, memory, lent[i]) == 0, "reset is accepted", i);
        check(unit_is(e, &unit, unit_of(0, e->start_phases, 8000.0)), "reset leaves what start left", i);
        check(cleared(lent[i]), "reset puts +0 into every place that it is lent, and into no other", i);
        reset_refused(e, unit_at(positions[i]), needed(e) - 1u, 3, "reset wants its places", i);
        reset_refused(e, unit_at(positions[i]), 0, 3, "reset wants places", i);
    }
}

/* States */

/* All calls but start refuse this state with 4, whatever else there is to refuse. */
static void state_refused(const struct lined *e, struct unit unit, unsigned i)
{
    reset_refused(e, unit, ROOM, 4, "reset is refused with 4", i);
    reset_refused(e, unit, 0, 4, "reset: 4 before 3", i);
    silent_refused(e, unit, 4, "silent is refused with 4", i);
    retune_refused(e, unit, ROOM, 44100.0, 4, "retune is refused with 4", i);
    retune_refused(e, unit, ROOM, 0.0, 4, "retune: 4 before 1", i);
    retune_refused(e, unit, 0, 44100.0, 4, "retune: 4 before 3", i);
    retune_refused(e, unit, 0, (double)NAN, 4, "retune: 4 before 1 and 3", i);
    tick_refused(e, unit, ROOM, good_tick(), 4, "tick is refused with 4", i);
    tick_refused(e, unit, 0, good_tick(), 4, "tick: 4 before 3", i);
    tick_refused(e, unit, ROOM, wrong_tick(), 4, "tick: 4 before 5 and 6", i);
    tick_refused(e, unit, 0, wrong_tick(), 4, "tick: 4 before 3, 5 and 6", i);
}

static void states_refused(const struct lined *e)
{
    const uint32_t length = length_of(e);
    const uint32_t positions[] = {length, length + 1u, 2u * length, UINT32_C(1) << 31, UINT32_MAX};
    const struct numbers phases = phases_refused();
    const struct numbers rates = rates_refused();
    unsigned i, k;
    state_refused(e, unit_of(0, no_phases, 0.0), 0);
    for (i = 0; i < COUNT(positions); i++) {
        state_refused(e, unit_at(positions[i]), i);
    }
    for (i = 0; i < phases.count * e->phases; i++) {
        struct unit unit = unit_at(3u);
        unit.phases[i % e->phases] = phases.list[i / e->phases];
        state_refused(e, unit, 100u + i);
    }
    for (i = 0; i < rates.count; i++) {
        for (k = 0; k < 2u; k++) {
            struct unit unit = unit_at(k == 0u ? 0u : length);
            unit.sample_rate = rates.list[i];
            state_refused(e, unit, 200u + i);
        }
    }
}

/* What the test lets pass: each call accepts it. */
static void state_accepted(const struct lined *e, struct unit unit, uint64_t places, unsigned i)
{
    const struct tick t = good_tick();
    struct unit given = unit;
    double out[MOST];
    uint32_t age;
    int silent = 7;
    fill();
    check(e->silent(&given, &silent) == 0, "silent accepts the state", i);
    check(e->tick(&given, memory, places, &t, out, &age) == 0, "tick accepts the state", i);
    given = unit;
    check(e->reset(&given, memory, places) == 0, "reset accepts the state", i);
    given = unit;
    check(e->retune(&given, memory, places, 8000.0) == 0, "retune accepts the state", i);
}

static void states_accepted(const struct lined *e)
{
    const struct numbers phases = phases_accepted();
    unsigned i;
    for (i = 0; i < phases.count * e->phases; i++) {
        struct unit unit = unit_at(length_of(e) - 1u);
        unit.phases[i % e->phases] = phases.list[i / e->phases];
        state_accepted(e, unit, needed(e), i);
    }
}

/* A count goes up to all places in use, whatever the memory holds. */
static void counts_tested(const struct lined *e, const struct length *at, unsigned which)
{
    const uint32_t all = e->lines * at->length;
    const uint32_t within[] = {0, 1, all - 1u, all};
    const uint32_t above[] = {all + 1u, all + 2u, 2u * all, UINT32_C(1) << 31, UINT32_MAX};
    struct unit unit = unit_at(3u);
    unsigned i;
    unit.sample_rate = at->rate;
    for (i = 0; i < COUNT(within); i++) {
        state_accepted(e, counting(unit, within[i]), all, 100u * (which + 1u) + i);
    }
    for (i = 0; i < COUNT(above); i++) {
        state_refused(e, counting(unit, above[i]), 300u + 10u * which + i);
    }
}

void lines(const struct lined *e)
{
    unsigned i;
    starts(e);
    retunes(e);
    resets(e);
    lines_questions(e);
    states_refused(e);
    states_accepted(e);
    for (i = 0; i < COUNT(e->lengths); i++) {
        counts_tested(e, &e->lengths[i], i);
    }
    lines_ticks(e);
}
