/* Counts that a host hands in, which need not be the memory's: none is counted anew. A tick changes one by the net change of
   the places in use, and stops once at 0 and at all of them. */
#include "counts.h"

#include <string.h>

/* A count in a state, and a number in every place that its next tick writes. */
static void hand_in(int effect, struct effect_state *state, uint32_t count, double old)
{
    uint64_t places[LINES];
    unsigned i;
    *effect_count(effect, state) = count;
    for (i = places_to_write(effect, state, places); i > 0u; i--) {
        counts_lent[places[i - 1u]] = old;
    }
}

/* The answer is the count's, whatever the memory holds. */
static void asked(int effect, const struct effect_state *state, uint32_t count, unsigned i)
{
    struct effect_state handed = *state;
    *effect_count(effect, &handed) = count;
    check(count_says_silent(effect, &handed) == (count == 0u && keeps_no_sound(effect, handed)), "by the count alone", i);
}

/* One tick from this state, by a reading before it and one after it. */
static void ticked(int effect, struct effect_state state, room_port audio, unsigned i)
{
    const uint32_t handed = *effect_count(effect, &state), all = places_in_use(effect, &state);
    const uint32_t before = full_reading(effect, &state, counts_lent);
    uint32_t after;
    count_tick(effect, &state, audio, 0.0, i);
    after = full_reading(effect, &state, counts_lent);
    check(*effect_count(effect, &state) == count_after(handed, before, after, all), "by the net change, held at the ends", i);
    asked(effect, &state, *effect_count(effect, &state), i);
}

/* What stood in the places that are written, and what the tick hears: every pair, from each of these counts. */
static void ticks_from(int effect, const struct effect_state *state, uint32_t count)
{
    const double olds[] = {0.0, -0.0, SMALLEST, -SMALLEST, 1.0, (double)INFINITY, -(double)INFINITY, (double)NAN, ODD_NAN};
    const room_port audios[] = {room_set(0.0),      room_set(-0.0),       room_set(SMALLEST),         room_set(-SMALLEST),
                                room_set(1.0),      room_set(DBL_MAX),    room_set((double)INFINITY), room_set((double)NAN),
                                room_set(ODD_NAN),  room_unset()};
    unsigned i;
    for (i = 0; i < COUNT(olds) * COUNT(audios); i++) {
        struct effect_state handed = *state;
        hand_in(effect, &handed, count, olds[i % COUNT(olds)]);
        asked(effect, &handed, count, i);
        ticked(effect, handed, audios[i / COUNT(olds)], i);
    }
}

/* A read half writes no place, and leaves the count. */
static void read_half(struct effect_state state, uint32_t count)
{
    const struct effect_call c = count_call(ROOM_TAPE_DELAY, &state, TICK);
    state.tape_delay.nonzero_places = count;
    made_as(&state, &c, ROOM_ACCEPTED, "a read half for a count", count);
    check(state.tape_delay.nonzero_places == count, "a read half leaves the count", count);
    check(count_says_silent(ROOM_TAPE_DELAY, &state) == 0, "and it is not silent, whatever that is", count);
}

/* Whatever count it was, a clearing leaves 0. */
static void cleared(int effect, struct effect_state state, uint32_t count, int call)
{
    const struct effect_call c = count_call(effect, &state, call);
    *effect_count(effect, &state) = count;
    made_as(&state, &c, ROOM_ACCEPTED, "a clearing of a handed-in count", count);
    check(*effect_count(effect, &state) == 0u && count_says_silent(effect, &state) == 1, "a clearing leaves 0", count);
}

/* More than all places in use: every call refuses it, and changes nothing. */
static void above(int effect, const struct effect_state *state, uint32_t count)
{
    const uint32_t before = full_reading(effect, state, counts_lent);
    int call;
    for (call = RETUNE; call < CALLS; call++) {
        const struct effect_call c = count_call(effect, state, call);
        struct effect_state handed = *state, after;
        *effect_count(effect, &handed) = count;
        effect_take_turn(&handed, call);
        memcpy(&after, &handed, sizeof after);
        if (effect_has(effect, call)) {
            made_as(&after, &c, ROOM_REFUSED_STATE, "a count above the places in use", (unsigned)call);
            check(memcmp(&after, &handed, sizeof after) == 0, "is left, and all else", (unsigned)call);
            check(full_reading(effect, state, counts_lent) == before, "and so is the memory", (unsigned)call);
        }
    }
}

/* At a rate, from the first position and from the last, in memory that sounds here and there, spare places too. Of a tape, whose
   reading takes long, each third count. */
static void handed_at(int effect, unsigned rate)
{
    struct effect_state state = count_start(effect, rate);
    const uint32_t all = places_in_use(effect, &state);
    const uint32_t counts[] = {0, 1, 25, all / 2u, all - 25u, all - 1u, all};
    const uint32_t far[] = {all + 1u, all + 2u, 2u * all, UINT32_C(1) << 31, UINT32_MAX};
    unsigned i;
    lay_mixed();
    for (i = 0; i < COUNT(counts); i += effect == ROOM_TAPE_DELAY ? 3u : 1u) {
        ticks_from(effect, &state, counts[i]);
        if (effect != ROOM_REVERB) {
            struct effect_state last = state;
            *count_position(effect, &last, 0) = (effect == ROOM_FLANGER ? all / 2u : all) - 1u;
            ticks_from(effect, &last, counts[i]);
        }
    }
    for (i = 0; i < COUNT(far); i++) {
        above(effect, &state, far[i]);
    }
    for (i = 0; effect == ROOM_TAPE_DELAY && i < COUNT(counts); i++) {
        read_half(state, counts[i]);
    }
    for (i = 0; i < COUNT(counts); i++) {
        cleared(effect, state, counts[i], i % 2u == 0u ? RESET : RETUNE);
    }
}

/* Several lines in one tick: what one line gains and another loses comes to nothing, at both ends too. An end at each line's
   own write would leave 1 of a count of 0, and one less than all. */

/* The places that the state's next tick writes, put aside and back. */
static void put_aside(int effect, const struct effect_state *state, double kept[LINES], int back)
{
    uint64_t places[LINES];
    unsigned i;
    for (i = places_to_write(effect, state, places); i > 0u; i--) {
        double *place = &counts_lent[places[i - 1u]];
        *(back ? place : &kept[i - 1u]) = back ? kept[i - 1u] : *place;
    }
}

/* Runs the tick, which must change the count by so much and no more. */
static void changes_by(int effect, const struct effect_state *state, const struct effect_call *c, int change, unsigned i)
{
    const uint32_t all = places_in_use(effect, state);
    const uint32_t counts[] = {0, 1, 2, all - 2u, all - 1u, all};
    const uint32_t before = full_reading(effect, state, counts_lent);
    double kept[LINES];
    unsigned k;
    put_aside(effect, state, kept, 0);
    for (k = 0; k < COUNT(counts); k++) {
        const int64_t count = (int64_t)counts[k] + change;
        const uint32_t should = count < 0 ? 0u : count > all ? all : (uint32_t)count;
        struct effect_state handed = *state;
        *effect_count(effect, &handed) = counts[k];
        made_as(&handed, c, ROOM_ACCEPTED, "a tick that gains and loses", i);
        check(*effect_count(effect, &handed) == should, "the net change of all lines stops once", 10u * i + k);
        check((int64_t)full_reading(effect, &handed, counts_lent) - before == change, "what the places say of it", 10u * i + k);
        put_aside(effect, state, kept, 1);
    }
}

/* The flanger reads 8 places back, where a line that holds 1 stores a half of it, and one that holds 0 stores 0. Bits 1 and 2:
   what stands in the places that are written; 4 and 8: what is read. */
static void flangers_lines(void)
{
    struct effect_state state = count_start(ROOM_FLANGER, 0);
    struct effect_call c = count_call(ROOM_FLANGER, &state, TICK);
    unsigned set;
    c.ports[0] = room_set(0.0);
    c.ports[1] = room_set(0.0);
    for (set = 0; set < 16u; set++) {
        const int lost = (set & 1u) + (set >> 1 & 1u), gained = (set >> 2 & 1u) + (set >> 3 & 1u);
        counts_lent[0] = set & 1u;
        counts_lent[90] = set >> 1 & 1u;
        counts_lent[82] = set >> 2 & 1u;
        counts_lent[172] = set >> 3 & 1u;
        changes_by(ROOM_FLANGER, &state, &c, gained - lost, set);
    }
}

/* The reverb, at a damping of 1 and a size of 0. A place of 2^-1074 in a comb or in a last all-pass becomes a zero, and so does
   any in the predelay where there is no audio; a store of 1 makes a place of its comb sound, and audio one of the predelay,
   which the combs do not read yet. */
static int may_lose(unsigned line)
{
    return line < LEFT_ALLPASS || line == RIGHT_ALLPASS - 1u || line == PREDELAY - 1u || line == PREDELAY;
}

static void reverbs_pair(unsigned lost, unsigned gained, unsigned rate)
{
    struct effect_state state = count_start(ROOM_REVERB, rate);
    struct effect_call c = count_call(ROOM_REVERB, &state, TICK);
    c.ports[0] = room_set(gained == PREDELAY ? 1.0 : 0.0);
    c.ports[1] = room_set(0.0);
    c.ports[2] = room_set(1.0);
    c.ports[4] = room_set(0.5);
    counts_lent[line_start(lost)] = 0x1p-1074;
    if (gained != PREDELAY) {
        *comb_store(&state.reverb, gained) = 1.0;
    }
    changes_by(ROOM_REVERB, &state, &c, 0, 100u * lost + gained);
}

static void reverbs_lines(unsigned rate)
{
    unsigned lost, gained;
    for (lost = 0; lost < LINES; lost++) {
        for (gained = 0; may_lose(lost) && gained < LINES; gained++) {
            if (gained != lost && (gained < LEFT_ALLPASS || gained == PREDELAY)) {
                reverbs_pair(lost, gained, rate);
            }
        }
    }
}

void counts_handed(int effect)
{
    handed_at(effect, 0);
    handed_at(effect, 1);
    if (effect == ROOM_FLANGER) {
        flangers_lines();
    } else if (effect == ROOM_REVERB) {
        reverbs_lines(0);
        reverbs_lines(1);
    }
}
