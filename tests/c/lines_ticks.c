/* The ticks of every effect with sweeps: what they play, store and leave, and their refusals. */
#include "lines_parts.h"

struct tick tick_of(double audio, double depth, double mix, double frequency, double sine)
{
    struct tick t;
    t.audio = room_set(audio);
    t.depth = room_set(depth);
    t.feedback = room_set(0.0);
    t.mix = room_set(mix);
    t.frequency = frequency;
    t.sines[0] = t.sines[1] = t.sines[2] = sine;
    return t;
}

void tick_plays(const struct lined *e, uint32_t write_pos, struct tick t, const double samples[MOST], const char *what,
                unsigned i)
{
    const uint32_t before = nonzero_now(e);
    struct unit unit = unit_at(write_pos);
    double out[MOST] = {JUNK, JUNK, JUNK};
    uint32_t age;
    unsigned k;
    check(e->tick(&unit, memory, needed(e), &t, out, &age) == 0, what, i);
    for (k = 0; k < e->samples; k++) {
        check(plays(out[k], samples[k]), what, i);
    }
    check(unit.nonzero_places == counted(e, before), what, i);
}

void tick_moves(const struct lined *e, double phase, double frequency, const double next[MOST], const char *what, unsigned i)
{
    const double phases[MOST] = {phase, phase, phase};
    const struct tick t = tick_of(0.0, 0.5, 0.5, frequency, 0.0);
    const uint32_t before = nonzero_now(e);
    struct unit unit = counting(unit_of(0, phases, 8000.0), unit_at(0).nonzero_places);
    double out[MOST];
    uint32_t age;
    check(e->tick(&unit, memory, needed(e), &t, out, &age) == 0, what, i);
    check(unit_is(e, &unit, counting(unit_of(1, next, 8000.0), counted(e, before))), what, i);
}

void tick_refused(const struct lined *e, struct unit before, uint64_t places, struct tick t, uint32_t number, const char *what,
                  unsigned i)
{
    const double zeros[MOST] = {0.0, 0.0, 0.0};
    struct unit unit = before;
    double out[MOST] = {JUNK, JUNK, JUNK};
    uint32_t age = JUNK_AGE;
    fill();
    check(e->tick(&unit, memory, places, &t, out, &age) == number, what, i);
    check(unit_is(e, &unit, before) && memory_kept(), what, i);
    check(all_same(out, zeros, e->samples), "a refused tick plays +0", i);
    check(age == 0u, "a refused tick answers the age 0", i);
}

struct tick good_tick(void)
{
    return tick_of(4.0, 0.5, 0.5, 1.0, 0.25);
}

struct tick wrong_tick(void)
{
    struct tick t = tick_of(4.0, (double)NAN, ODD_NAN, 33.0, 2.0);
    t.feedback = room_set(ODD_NAN);
    return t;
}

/* Puts odd numbers into every place but, where lines feed back, -0 into theirs: with a feedback of 0 they add nothing. */
static void fill_to_store(const struct lined *e)
{
    unsigned i;
    fill();
    for (i = 0; e->feeds_back && i < needed(e); i++) {
        memory[i] = kept[i] = -0.0;
    }
}

/* Runs the tick from this position, lent so many places: all that it writes is the audio, in one place of each line. */
static void tick_stores(const struct lined *e, uint32_t write_pos, unsigned places, struct tick t, double stored, unsigned i)
{
    struct unit unit = unit_at(write_pos);
    uint32_t before, age;
    double out[MOST];
    unsigned k;
    fill_to_store(e);
    before = nonzero_now(e);
    check(e->tick(&unit, memory, places, &t, out, &age) == 0, "tick is accepted", i);
    check(unit.nonzero_places == counted(e, before), "the count goes by the places in use, the spare ones apart", i);
    for (k = 0; k < e->lines; k++) {
        const unsigned place = k * length_of(e) + write_pos;
        check(plays(memory[place], stored), "a tick stores its audio at the position", i);
        memory[place] = kept[place];
    }
    check(memory_kept(), "a tick writes to no other place", i);
    check(unit.write_pos == (write_pos + 1u) % length_of(e), "the position goes round", i);
    check(same(unit.sample_rate, 8000.0), "the rate stays", i);
}

static void stores(const struct lined *e)
{
    const uint32_t positions[] = {0, 1, length_of(e) / 2u, length_of(e) - 2u, length_of(e) - 1u};
    const double audio[] = {4.0, 0.0, -0.0, SMALLEST, -DBL_MAX};
    const double not_finite[] = {(double)NAN, ODD_NAN, (double)INFINITY, -(double)INFINITY};
    struct tick t = tick_of(JUNK, 0.5, 0.5, 1.0, 0.25);
    unsigned i;
    for (i = 0; i < COUNT(positions); i++) {
        tick_stores(e, positions[i], needed(e), good_tick(), 4.0, i);
        tick_stores(e, positions[i], 3u * needed(e), good_tick(), 4.0, 600u + i);
        tick_stores(e, positions[i], ROOM, good_tick(), 4.0, 100u + i);
        tick_stores(e, 7u, needed(e), tick_of(audio[i], 0.5, 0.5, 1.0, 0.25), audio[i], 200u + i);
    }
    for (i = 0; i < COUNT(not_finite); i++) {
        const double x = not_finite[i];
        tick_stores(e, 7u, needed(e), tick_of(x, 0.5, 0.5, 1.0, 0.25), e->input_rule ? 0.0 : x, 300u + i);
    }
    t.audio.set = 0;
    tick_stores(e, 7u, needed(e), t, 0.0, 400u);
}

static void ticks_refused(const struct lined *e)
{
    const struct numbers frequencies = frequencies_refused();
    const struct numbers sines = sines_refused();
    const struct unit unit = unit_at(7u);
    const double nan_ = (double)NAN;
    unsigned i;
    tick_refused(e, unit, needed(e) - 1u, good_tick(), 3, "tick wants its places", 0);
    tick_refused(e, unit, 0, good_tick(), 3, "tick wants places", 0);
    tick_refused(e, unit, needed(e) - 1u, wrong_tick(), 3, "3 before 5 and 6", 0);
    tick_refused(e, unit, 0, tick_of(4.0, 0.5, 0.5, 33.0, 0.0), 3, "3 before 6", 0);
    tick_refused(e, unit, ROOM, tick_of(4.0, nan_, 0.5, 1.0, 0.0), 5, "depth of NaN is refused with 5", 0);
    tick_refused(e, unit, ROOM, tick_of(4.0, 0.5, ODD_NAN, 1.0, 0.0), 5, "mix of NaN is refused with 5", 0);
    tick_refused(e, unit, ROOM, tick_of(nan_, nan_, 0.5, 1.0, 0.0), 5, "NaN audio does not hide it", 0);
    tick_refused(e, unit, ROOM, wrong_tick(), 5, "5 before 6", 0);
    tick_refused(e, unit, ROOM, tick_of(4.0, nan_, 0.5, 33.0, 0.0), 5, "5 before 6, by the frequency", 0);
    if (e->feeds_back) {
        struct tick t = good_tick();
        t.feedback = room_set(ODD_NAN);
        tick_refused(e, unit, ROOM, t, 5, "feedback of NaN is refused with 5", 0);
        t.sines[0] = 2.0;
        tick_refused(e, unit, ROOM, t, 5, "5 before 6, by the feedback", 0);
    }
    for (i = 0; i < frequencies.count; i++) {
        tick_refused(e, unit, ROOM, tick_of(4.0, 0.5, 0.5, frequencies.list[i], 0.0), 6, "frequency is refused with 6", i);
    }
    for (i = 0; i < sines.count * e->sines; i++) {
        struct tick t = good_tick();
        t.sines[i % e->sines] = sines.list[i / e->sines];
        tick_refused(e, unit, ROOM, t, 6, "sine is refused with 6", i);
        t.mix = room_set(ODD_NAN);
        tick_refused(e, unit, ROOM, t, 5, "5 before 6, by a sine", i);
    }
}

/* An unset control is not read, so NaN there is no cause; the curve numbers go up to their ends. */
static void ticks_accepted(const struct lined *e)
{
    const double frequencies[] = {0.0, -0.0, SMALLEST, 32.0};
    const double sines[] = {-1.0, 1.0, -0.0, 0.0};
    unsigned i;
    for (i = 0; i < COUNT(frequencies); i++) {
        struct tick t = tick_of(4.0, (double)NAN, ODD_NAN, frequencies[i], sines[i]);
        t.depth.set = 0;
        t.feedback = room_set(ODD_NAN);
        t.feedback.set = 0;
        t.mix.set = 0;
        tick_stores(e, 7u, needed(e), t, 4.0, 500u + i);
    }
}

/* Where there is one phase, it moves on by frequency / rate. */
static void phase_moves(const struct lined *e)
{
    const struct {
        double phase, frequency, next;
    } moves[] = {
        {0.25, -0.0, 0.25},
        {0.25, 31.25, 0.25390625},
        {0.99609375, 31.25, 0.0}, /* to 1 and so to 0 */
        {0.998046875, 31.25, 0.001953125}, /* beyond 1 */
    };
    unsigned i;
    for (i = 0; i < COUNT(moves); i++) {
        const double next[MOST] = {moves[i].next, 0.0, 0.0};
        tick_moves(e, moves[i].phase, moves[i].frequency, next, "the phase moves on and goes round", i);
    }
}

void lines_ticks(const struct lined *e)
{
    stores(e);
    ticks_refused(e);
    ticks_accepted(e);
    if (e->phases == 1u) {
        phase_moves(e);
    }
}
