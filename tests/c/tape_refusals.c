/* The refused calls of the tape delay: each number, their order, and everything left as it was. */
#include "tape.h"

/* Calls that are refused. The memory is filled once: a refused call changes no place of it. */

static void start_refused(double rate, double coefficient, uint64_t places, uint32_t number, unsigned i)
{
    const room_tape_delay blank = {0, 0, 0.0, 0.0, 0.0, 0.0, 0.0, 0.0, 0, 0};
    room_tape_delay state = {12345u, 12345u, JUNK, JUNK, JUNK, JUNK, JUNK, JUNK, 12345u, 12345u};
    check(room_tape_delay_start(&state, tape_memory, places, rate, coefficient) == number, "start is refused", i);
    check(tape_is(&state, blank), "a refused start writes a state of zeros", i);
    check(tape_left(), "a refused start leaves the memory", i);
}

static void retune_refused(room_tape_delay before, uint64_t places, double rate, double coefficient, uint32_t number,
                           unsigned i)
{
    room_tape_delay state = before;
    check(room_tape_delay_retune(&state, tape_memory, places, rate, coefficient) == number, "retune is refused", i);
    check(tape_is(&state, before) && tape_left(), "a refused retune changes nothing", i);
}

static void reset_refused(room_tape_delay before, uint64_t places, uint32_t number, unsigned i)
{
    room_tape_delay state = before;
    check(room_tape_delay_reset(&state, tape_memory, places) == number, "reset is refused", i);
    check(tape_is(&state, before) && tape_left(), "a refused reset changes nothing", i);
}

static void silent_refused(room_tape_delay before, uint32_t number, unsigned i)
{
    room_tape_delay state = before;
    int silent = 7;
    check(room_tape_delay_silent(&state, &silent) == number, "silent is refused", i);
    check(silent == 0, "a refused question is answered no", i);
    check(tape_is(&state, before), "a refused question changes nothing", i);
}

static void read_refused(room_tape_delay before, uint64_t places, struct tape_ports p, uint32_t number, const char *what,
                         unsigned i)
{
    room_tape_delay state = before;
    double sum = JUNK;
    uint32_t age = JUNK_AGE;
    check(read_tape(&state, places, &p, &sum, &age) == number, what, i);
    check(same(sum, 0.0) && age == 0u, "a refused read half answers +0 and the age 0", i);
    check(tape_is(&state, before) && tape_left(), "a refused read half changes nothing", i);
}

static void store_refused(room_tape_delay before, uint64_t places, double value, uint32_t number, const char *what, unsigned i)
{
    room_tape_delay state = before;
    double out[1] = {JUNK};
    check(store_tape(&state, places, value, out) == number, what, i);
    check(same(out[0], 0.0), "a refused store half plays +0", i);
    check(tape_is(&state, before) && tape_left(), "a refused store half changes nothing", i);
}

/* Ports with nothing wrong in them, and with every control wrong. */
static struct tape_ports good_ports(void)
{
    return tape_ports(4.0, 0.5, 1.0);
}

static struct tape_ports wrong_ports(void)
{
    struct tape_ports p = tape_ports((double)NAN, ODD_NAN, (double)NAN);
    p.feedback = room_set(ODD_NAN);
    return p;
}

/* Start: 1, 2, 3. */
static void starts_refused(void)
{
    const struct numbers rates = rates_refused();
    const struct numbers coefficients = coefficients_refused();
    unsigned i;
    for (i = 0; i < rates.count; i++) {
        start_refused(rates.list[i], 0.5, TAPE_LENT, 1, i);
        start_refused(rates.list[i], coefficients.list[i % coefficients.count], TAPE_LENT, 1, 100u + i);
        start_refused(rates.list[i], 0.5, 0, 1, 200u + i);
        start_refused(rates.list[i], coefficients.list[i % coefficients.count], 0, 1, 300u + i);
    }
    for (i = 0; i < coefficients.count; i++) {
        start_refused(8000.0, coefficients.list[i], TAPE_LENT, 2, 400u + i);
        start_refused(8000.0, coefficients.list[i], TAPE_LINE - 1u, 2, 500u + i);
    }
    start_refused(8000.0, 0.5, TAPE_LINE - 1u, 3, 600u);
    start_refused(8000.0, 0.5, 0, 3, 601u);
}

/* Cause 4 stands before all others, in every call and whether a read waits or not. */
static void state_refused(room_tape_delay state, unsigned i)
{
    const double nan_ = (double)NAN;
    reset_refused(state, TAPE_LENT, 4, i);
    reset_refused(state, 0, 4, i);
    silent_refused(state, 4, i);
    retune_refused(state, TAPE_LENT, 8000.0, 0.5, 4, i);
    retune_refused(state, TAPE_LENT, 0.0, 0.5, 4, i);
    retune_refused(state, TAPE_LENT, 8000.0, 1.0, 4, i);
    retune_refused(state, 0, 8000.0, 0.5, 4, i);
    retune_refused(state, 0, nan_, nan_, 4, i);
    read_refused(state, TAPE_LENT, good_ports(), 4, "a read half is refused with 4", i);
    read_refused(state, 0, good_ports(), 4, "read half: 4 before 3", i);
    read_refused(state, TAPE_LENT, wrong_ports(), 4, "read half: 4 before 5", i);
    read_refused(state, 0, wrong_ports(), 4, "read half: 4 before all", i);
    store_refused(state, TAPE_LENT, 0.5, 4, "a store half is refused with 4", i);
    store_refused(state, 0, 0.5, 4, "store half: 4 before 3", i);
    store_refused(state, TAPE_LENT, nan_, 4, "store half: 4 before 6", i);
    store_refused(state, 0, 2.0, 4, "store half: 4 before all", i);
}

/* The same with a read that waits; half of all calls on the two are out of turn, and 4 is before 7. */
static void refused_either_way(room_tape_delay state, unsigned i)
{
    state_refused(state, i);
    state_refused(waits_with(state, 1.0, (double)NAN, 0.5), 1000u + i);
}

static void settings_and_positions_refused(void)
{
    const uint32_t positions[] = {TAPE_LINE, TAPE_LINE + 1u, 2u * TAPE_LINE, UINT32_C(1) << 31, UINT32_MAX};
    const struct numbers rates = rates_refused();
    const struct numbers coefficients = coefficients_refused();
    const room_tape_delay blank = {0, 0, 0.0, 0.0, 0.0, 0.0, 0.0, 0.0, 0, 0};
    room_tape_delay state;
    unsigned i;
    refused_either_way(blank, 0);
    for (i = 0; i < COUNT(positions); i++) {
        refused_either_way(unread_at(positions[i]), i);
        refused_either_way(read_from(positions[i], 250.0), 10u + i);
    }
    for (i = 0; i < rates.count; i++) {
        state = unread_at(0);
        state.sample_rate = rates.list[i];
        refused_either_way(state, 100u + i);
    }
    for (i = 0; i < coefficients.count; i++) {
        state = read_from(3u, 250.0);
        state.delay_smooth_coef = coefficients.list[i];
        refused_either_way(state, 200u + i);
    }
}

/* More than the line's places. */
static void counts_refused(void)
{
    const uint32_t above[] = {TAPE_LINE + 1u, TAPE_LINE + 2u, 2u * TAPE_LINE, UINT32_C(1) << 31, UINT32_MAX};
    room_tape_delay higher = read_from(3u, 250.0);
    unsigned i;
    for (i = 0; i < COUNT(above); i++) {
        refused_either_way(tape_counting(unread_at(3u), above[i]), 700u + i);
        refused_either_way(tape_counting(read_from(3u, 250.0), above[i]), 710u + i);
    }
    higher.sample_rate = 44100.0;
    refused_either_way(tape_counting(higher, 529202u), 720u);
}

static void glides_refused(void)
{
    const double infinity = (double)INFINITY;
    const double primed[] = {0.0, -0.0, SMALLEST, nearer(1.0), -1.0, TAPE_LINE, farther(TAPE_LINE - 1u), infinity, -infinity,
                             (double)NAN, ODD_NAN};
    const double unprimed[] = {-0.0, SMALLEST, -SMALLEST, 1.0, 250.0, TAPE_LINE - 1u, infinity, (double)NAN, ODD_NAN};
    room_tape_delay state;
    unsigned i;
    for (i = 0; i < COUNT(primed); i++) {
        state = read_from(3u, primed[i]);
        state.delay_primed = flags_on[i % FLAGS_ON];
        refused_either_way(state, 300u + i);
    }
    for (i = 0; i < COUNT(unprimed); i++) {
        state = unread_at(3u);
        state.smoothed_delay = unprimed[i];
        refused_either_way(state, 400u + i);
    }
}

/* A mix that waits is 0 to 1; while none waits what is kept is +0, by its bits. */
static void kept_refused(void)
{
    const double infinity = (double)INFINITY;
    const double mixes[] = {(double)NAN, ODD_NAN, -SMALLEST, -1.0, farther(1.0), 2.0, infinity, -infinity};
    const double kept[] = {-0.0, SMALLEST, -SMALLEST, 1.0, infinity, (double)NAN, ODD_NAN};
    unsigned i;
    for (i = 0; i < COUNT(mixes); i++) {
        room_tape_delay state = waits_with(read_from(3u, 250.0), 1.0, 2.0, mixes[i]);
        state_refused(state, 500u + i);
        state.waiting = flags_on[i % FLAGS_ON];
        state_refused(state, 510u + i);
        state_refused(waits_with(unread_at(3u), 0.0, 0.0, mixes[i]), 520u + i);
    }
    for (i = 0; i < COUNT(kept); i++) {
        room_tape_delay state = read_from(3u, 250.0);
        state.kept_audio = kept[i];
        state_refused(state, 600u + i);
        state.kept_audio = 0.0;
        state.kept_read = kept[i];
        state_refused(state, 610u + i);
        state.kept_read = 0.0;
        state.kept_mix = kept[i];
        state_refused(state, 620u + i);
        state = unread_at(3u);
        state.kept_audio = state.kept_read = state.kept_mix = kept[i];
        state_refused(state, 630u + i);
    }
}

/* Cause 7 stands behind 4 and before all others, and is of the halves alone. */
static void turns(void)
{
    const room_tape_delay states[] = {unread_at(0), read_from(TAPE_LINE - 1u, 250.0)};
    unsigned i;
    for (i = 0; i < COUNT(states) * FLAGS_ON; i++) {
        const room_tape_delay none = states[i % COUNT(states)];
        room_tape_delay waits = waits_with(none, ODD_NAN, -1.0, 0.25);
        waits.waiting = flags_on[i % FLAGS_ON];
        read_refused(waits, TAPE_LENT, good_ports(), 7, "a read half while a read waits", i);
        read_refused(waits, TAPE_LINE - 1u, good_ports(), 7, "read half: 7 before 3", i);
        read_refused(waits, 0, wrong_ports(), 7, "read half: 7 before 3 and 5", i);
        read_refused(waits, TAPE_LENT, wrong_ports(), 7, "read half: 7 before 5", i);
        store_refused(none, TAPE_LENT, 0.5, 7, "a store half while no read waits", i);
        store_refused(none, TAPE_LINE - 1u, 0.5, 7, "store half: 7 before 3", i);
        store_refused(none, 0, (double)NAN, 7, "store half: 7 before 3 and 6", i);
        store_refused(none, TAPE_LENT, 2.0, 7, "store half: 7 before 6", i);
        reset_refused(waits, TAPE_LINE - 1u, 3, i);
        reset_refused(none, 0, 3, i);
    }
}

/* Retune: 4, 1, 2, 3, whether a read waits or not. */
static void retunes_refused(void)
{
    const struct numbers rates = rates_refused();
    const struct numbers coefficients = coefficients_refused();
    const room_tape_delay states[] = {read_from(9u, 250.0), waits_with(read_from(9u, 250.0), 1.0, 2.0, 0.5)};
    unsigned i;
    for (i = 0; i < rates.count; i++) {
        const room_tape_delay state = states[i % 2u];
        const double coefficient = coefficients.list[i % coefficients.count];
        retune_refused(state, TAPE_LENT, rates.list[i], 0.5, 1, i);
        retune_refused(state, TAPE_LENT, rates.list[i], coefficient, 1, 100u + i);
        retune_refused(state, 0, rates.list[i], 0.5, 1, 200u + i);
        retune_refused(state, 0, rates.list[i], coefficient, 1, 300u + i);
    }
    for (i = 0; i < coefficients.count; i++) {
        retune_refused(states[i % 2u], TAPE_LENT, 8000.0, coefficients.list[i], 2, 400u + i);
        retune_refused(states[i % 2u], 0, 8000.0, coefficients.list[i], 2, 500u + i);
    }
    for (i = 0; i < 2u; i++) {
        retune_refused(states[i], TAPE_LINE - 1u, 8000.0, 0.5, 3, 600u + i);
        retune_refused(states[i], 0, 8000.0, 0.5, 3, 602u + i);
        retune_refused(states[i], TAPE_LENT, 44100.0, 0.5, 3, 604u + i); /* it is the new rate's places that count */
    }
}

/* A half in its turn: causes 3 and 5 of a read half, 3 and 6 of a store half. */
static void halves_refused(void)
{
    const struct numbers values = sines_refused();
    const room_tape_delay states[] = {unread_at(7u), read_from(7u, 250.0)};
    const double nans[] = {(double)NAN, ODD_NAN};
    unsigned i;
    for (i = 0; i < 2u; i++) {
        struct tape_ports p[3] = {good_ports(), good_ports(), good_ports()};
        unsigned k;
        p[0].time = p[1].feedback = p[2].mix = room_set(nans[i]);
        read_refused(states[i], TAPE_LINE - 1u, good_ports(), 3, "a read half wants its places", i);
        read_refused(states[i], 0, good_ports(), 3, "a read half wants places", i);
        read_refused(states[i], TAPE_LINE - 1u, wrong_ports(), 3, "read half: 3 before 5", i);
        read_refused(states[i], TAPE_LENT, wrong_ports(), 5, "a read half with controls of NaN", i);
        for (k = 0; k < 3u; k++) {
            read_refused(states[i], TAPE_LENT, p[k], 5, "a read half with one control of NaN", 10u * i + k);
            p[k].audio = room_set((double)NAN);
            read_refused(states[i], TAPE_LENT, p[k], 5, "audio of NaN does not hide it", 10u * i + k);
        }
    }
    for (i = 0; i < values.count; i++) {
        const room_tape_delay state = waits_with(states[i % 2u], 1.0, 2.0, 0.5);
        store_refused(state, TAPE_LENT, values.list[i], 6, "a saturated value outside -1 to 1", i);
        store_refused(state, TAPE_LINE - 1u, values.list[i], 3, "store half: 3 before 6", i);
        store_refused(state, 0, values.list[i], 3, "a store half wants places", i);
        store_refused(state, TAPE_LINE - 1u, 0.5, 3, "a store half wants its places", i);
    }
}

void tape_refusals(void)
{
    tape_fill();
    starts_refused();
    settings_and_positions_refused();
    counts_refused();
    glides_refused();
    kept_refused();
    turns();
    retunes_refused();
    halves_refused();
}
