/* The tape delay: its clearings and its question, accepted. tape_refusals.c has what is refused, tape_reads.c and tape_stores.c
   the halves of its tick, tape_runs.c whole ticks. */
#include "tape.h"

#include <string.h>

double tape_memory[TAPE_LENT];
static double kept[TAPE_LENT];

void tape_fill(void)
{
    unsigned i;
    for (i = 0; i < TAPE_LENT; i++) {
        tape_memory[i] = i % 7u == 3u ? ODD_NAN : i % 5u == 0u ? -0.0 : 1000.0 + i;
    }
    memcpy(kept, tape_memory, sizeof kept);
}

void tape_lay(double value)
{
    unsigned i;
    for (i = 0; i < TAPE_LENT; i++) {
        tape_memory[i] = value;
    }
    memcpy(kept, tape_memory, sizeof kept);
}

void tape_put(uint64_t place, double value)
{
    tape_memory[place] = kept[place] = value;
}

int tape_left(void)
{
    return all_same(tape_memory, kept, TAPE_LENT);
}

int tape_wrote(uint64_t place, double value)
{
    const double wrote = tape_memory[place];
    int good = same(wrote, value);
    tape_memory[place] = kept[place];
    good = good && tape_left();
    tape_memory[place] = wrote;
    return good;
}

uint32_t tape_nonzero(void)
{
    return nonzero_in(tape_memory, TAPE_LINE);
}

/* States */

room_tape_delay unread_at(uint32_t write_pos)
{
    const room_tape_delay state = {write_pos, 0, 0.0, 0.0, 0.0, 0.0, 8000.0, 0.5, 0, 0};
    return state;
}

room_tape_delay read_from(uint32_t write_pos, double distance)
{
    room_tape_delay state = unread_at(write_pos);
    state.smoothed_delay = distance;
    state.delay_primed = 1;
    return tape_counting(state, 7u);
}

room_tape_delay tape_counting(room_tape_delay state, uint32_t count)
{
    state.nonzero_places = count;
    return state;
}

room_tape_delay waits_with(room_tape_delay state, double audio, double read, double mix)
{
    state.waiting = 1;
    state.kept_audio = audio;
    state.kept_read = read;
    state.kept_mix = mix;
    return state;
}

room_tape_delay waits_not(room_tape_delay state)
{
    state.waiting = 0;
    state.kept_audio = state.kept_read = state.kept_mix = 0.0;
    return state;
}

int tape_is(const room_tape_delay *is, room_tape_delay should)
{
    return is->write_pos == should.write_pos && is->nonzero_places == should.nonzero_places &&
           same(is->smoothed_delay, should.smoothed_delay) && is->delay_primed == should.delay_primed &&
           is->waiting == should.waiting && plays(is->kept_audio, should.kept_audio) &&
           plays(is->kept_read, should.kept_read) && same(is->kept_mix, should.kept_mix) &&
           same(is->sample_rate, should.sample_rate) && same(is->delay_smooth_coef, should.delay_smooth_coef);
}

/* Halves */

struct tape_ports tape_ports(double audio, double mix, double seconds)
{
    struct tape_ports p;
    p.audio = room_set(audio);
    p.time = room_set(seconds);
    p.feedback = room_set(0.0);
    p.mix = room_set(mix);
    return p;
}

uint32_t read_tape(room_tape_delay *state, uint64_t places, const struct tape_ports *p, double *sum, uint32_t *age)
{
    return room_tape_delay_read_half(state, tape_memory, places, p->audio, p->time, p->feedback, p->mix, sum, age);
}

uint32_t store_tape(room_tape_delay *state, uint64_t places, double value, double out[1])
{
    return room_tape_delay_store_half(state, tape_memory, places, value, out);
}

/* Clearings: +0 in every place that is lent, and no other place written. */

static int cleared(unsigned places)
{
    unsigned i;
    for (i = 0; i < places; i++) {
        if (!same(tape_memory[i], 0.0)) {
            return 0;
        }
    }
    return all_same(tape_memory + places, kept + places, TAPE_LENT - places);
}

/* The call's number is 0, and the state what a start at 8,000 leaves, but for these settings. */
static void cleared_with(room_tape_delay state, uint32_t number, double rate, double coefficient, unsigned places, unsigned i)
{
    room_tape_delay should = unread_at(0);
    should.sample_rate = rate;
    should.delay_smooth_coef = coefficient;
    check(number == 0u, "a clearing is accepted", i);
    check(tape_is(&state, should), "it leaves position and count 0, no glide, no read that waits, its settings", i);
    check(cleared(places), "it puts +0 into every place that it is lent, and into no other", i);
}

static void starts(void)
{
    const struct numbers good = coefficients_accepted();
    const unsigned lent[] = {TAPE_LINE, TAPE_LINE + 1u, TAPE_LENT};
    unsigned i;
    for (i = 0; i < good.count; i++) {
        room_tape_delay state = {12345u, 12345u, JUNK, JUNK, JUNK, JUNK, JUNK, JUNK, 12345u, 12345u};
        uint32_t number;
        tape_fill();
        number = room_tape_delay_start(&state, tape_memory, lent[i % 3u], 8000.0, good.list[i]);
        cleared_with(state, number, 8000.0, good.list[i], lent[i % 3u], i);
    }
}

/* States that the others find, some with a read that waits. */
#define FOUND 5u
static room_tape_delay found(unsigned i)
{
    const room_tape_delay states[FOUND] = {unread_at(0), read_from(TAPE_LINE - 1u, 1.0),
                                           waits_with(read_from(9u, TAPE_LINE - 1u), 1.0, (double)NAN, 1.0),
                                           waits_with(read_from(10u, 2.5), -0.0, (double)INFINITY, -0.0),
                                           waits_with(unread_at(11u), 0.0, 0.0, 0.0)};
    return states[i];
}

static void resets_and_retunes(void)
{
    const unsigned lent[] = {TAPE_LINE, TAPE_LINE + 1u, TAPE_LENT};
    unsigned i;
    for (i = 0; i < FOUND * COUNT(lent); i++) {
        const unsigned places = lent[i / FOUND];
        const double rate = i % 2u == 0u ? 8000.0 : farther(8000.0);
        room_tape_delay state = found(i % FOUND);
        uint32_t number;
        tape_fill();
        number = room_tape_delay_reset(&state, tape_memory, places);
        cleared_with(state, number, 8000.0, 0.5, places, i);
        state = found(i % FOUND);
        tape_fill();
        number = room_tape_delay_retune(&state, tape_memory, places, rate, 0.25);
        cleared_with(state, number, rate, 0.25, places, 100u + i);
    }
}

/* Other rates, and how many places the line has there: a retune wants those of the new rate, and a reset those of its own. */
static void lengths(void)
{
    static const double rates[] = {8000.0, 44100.0, 11025.0, 48000.0, 192000.0};
    static const unsigned places[] = {96001, 529201, 132301, 576001, 2304001};
    static double wide[2304002];
    room_tape_delay state = waits_with(read_from(7u, 2.0), 1.0, 2.0, 0.5);
    unsigned i;
    for (i = 0; i < 2u * COUNT(rates); i++) {
        const unsigned k = i % COUNT(rates), n = places[k];
        room_tape_delay started;
        wide[0] = wide[n - 1u] = wide[n] = JUNK;
        check(room_tape_delay_start(&started, wide, n - 1u, rates[k], 0.5) == 3, "start one place short", i);
        check(room_tape_delay_retune(&state, wide, n - 1u, rates[k], 0.5) == 3, "retune one place short", i);
        check(same(wide[0], JUNK) && same(wide[n - 1u], JUNK), "nothing is cleared", i);
        check(room_tape_delay_retune(&state, wide, n, rates[k], 0.5) == 0, "retune with the places needed", i);
        check(same(wide[0], 0.0) && same(wide[n - 1u], 0.0) && same(wide[n], JUNK), "all are cleared", i);
        wide[0] = wide[n - 1u] = JUNK;
        check(room_tape_delay_start(&started, wide, n, rates[k], 0.5) == 0, "start with the places needed", i);
        check(tape_is(&state, started), "a retune leaves what a start leaves", i);
        check(same(wide[0], 0.0) && same(wide[n - 1u], 0.0), "all are cleared again", i);
        check(room_tape_delay_reset(&state, wide, n - 1u) == 3 && room_tape_delay_reset(&state, wide, n) == 0, "reset", i);
    }
}

/* The question */

static void asked(room_tape_delay state, int silent, const char *what, unsigned i)
{
    room_tape_delay after = state;
    int yes = 7;
    check(room_tape_delay_silent(&after, &yes) == 0 && yes == silent, what, i);
    check(tape_is(&after, state), "a question changes nothing", i);
}

/* The answer is that of the count and of whether a read waits. */
static void questions(void)
{
    const uint32_t counts[] = {1, 2, 256, TAPE_LINE - 1u, TAPE_LINE};
    unsigned i, k;
    for (i = 0; i < FOUND; i++) {
        asked(tape_counting(found(i), 0u), i < 2u, "silent unless a read waits, whatever that has kept", i);
        for (k = 0; k < COUNT(counts); k++) {
            asked(tape_counting(found(i), counts[k]), 0, "not silent with a count that is not 0", 10u * i + k);
        }
    }
    for (i = 0; i < FLAGS_ON; i++) {
        room_tape_delay state = waits_with(unread_at(3u), 0.0, 0.0, 0.0);
        state.waiting = flags_on[i];
        asked(state, 0, "any number but 0 is waiting", i);
    }
}

void tape(void)
{
    starts();
    resets_and_retunes();
    lengths();
    questions();
    tape_refusals();
    tape_reads();
    tape_stores();
    tape_runs();
}
