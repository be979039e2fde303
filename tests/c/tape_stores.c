/* The accepted store halves of the tape delay: what they store and play, and what stands between the two halves. */
#include "tape.h"

/* Runs the store half from this state, in which a read waits: what it plays. It stores 5 times the value, at the position and
   nowhere else. */
static void stores(room_tape_delay state, double value, double sample, const char *what, unsigned i)
{
    const uint32_t place = state.write_pos;
    room_tape_delay should = waits_not(state);
    double out[3] = {JUNK, JUNK, JUNK};
    should.write_pos = (place + 1u) % TAPE_LINE;
    tape_lay(0.5);
    check(store_tape(&state, TAPE_LINE, value, &out[1]) == 0, what, i);
    should.nonzero_places = count_after(should.nonzero_places, TAPE_LINE, tape_nonzero(), TAPE_LINE);
    check(plays(out[1], sample) && same(out[0], JUNK) && same(out[2], JUNK), what, i);
    check(tape_is(&state, should), "it leaves the next position and count, glide and settings, and no read that waits", i);
    check(tape_wrote(place, value * 5.0), "it stores 5 times the value, there alone", i);
}

static void values(void)
{
    const double list[] = {1.0, -1.0, nearer(1.0), nearer(-1.0), 0.2, 0.1, -0.3, 0.0, -0.0, SMALLEST, -SMALLEST};
    const uint32_t positions[] = {0, 1, 48000, TAPE_LINE - 2u, TAPE_LINE - 1u};
    unsigned i;
    for (i = 0; i < COUNT(list); i++) {
        const uint32_t position = positions[i % COUNT(positions)];
        stores(waits_with(read_from(position, 16.0), 1.0, 4.0, 0.25), list[i], 1.75, "a value from -1 to 1", i);
        /* No call leads to a read that waits in a state that has not read, but it passes. */
        stores(waits_with(unread_at(position), 1.0, 4.0, 0.25), list[i], 1.75, "a state that is not primed", i);
    }
    for (i = 0; i < FLAGS_ON; i++) {
        room_tape_delay state = waits_with(read_from(3u, 16.0), 1.0, 4.0, 0.25);
        state.waiting = flags_on[i];
        stores(state, 0.5, 1.75, "any number but 0 is waiting", i);
    }
}

/* audio x (1 - mix) + read x mix, of what was kept: there is no second input rule. */
static void plays_what_was_kept(void)
{
    const double nan_ = (double)NAN;
    const double infinity = (double)INFINITY;
    const struct {
        double audio, read, mix, sample;
    } kept[] = {
        {1.0, 4.0, 0.0, 1.0},
        {1.0, 4.0, 1.0, 4.0},
        {1.0, 4.0, 0.5, 2.5},
        {-0.0, 0.0, -0.0, -0.0}, /* -0 x 1 + 0 x -0 */
        {-0.0, 0.0, 0.0, 0.0},   /* -0 x 1 + 0 x 0 */
        {0.1, 0.3, 0.7, 0.1 * (1.0 - 0.7) + 0.3 * 0.7},
        {1.0, 2.0, nearer(1.0), 1.0 * (1.0 - nearer(1.0)) + 2.0 * nearer(1.0)},
        {1.0, 2.0, SMALLEST, 1.0},
        {nan_, 4.0, 0.5, nan_},
        {1.0, ODD_NAN, 0.5, nan_},
        {infinity, 4.0, 0.5, infinity},
        {infinity, 4.0, 1.0, nan_}, /* infinity x 0 */
        {infinity, -infinity, 0.5, nan_},
        {DBL_MAX, -DBL_MAX, 0.5, 0.0},
    };
    unsigned i;
    for (i = 0; i < COUNT(kept); i++) {
        stores(waits_with(read_from(3u, 16.0), kept[i].audio, kept[i].read, kept[i].mix), 0.5, kept[i].sample, "a blend", i);
    }
}

/* In more memory than the line has, the places behind it are spare. */
static void round_the_end(void)
{
    room_tape_delay state = waits_with(read_from(TAPE_LINE - 1u, 16.0), 1.0, 4.0, 0.0);
    double out[1] = {JUNK};
    tape_fill();
    check(store_tape(&state, TAPE_LENT, 0.5, out) == 0 && state.write_pos == 0u, "the position goes back to 0", 0);
    check(tape_wrote(TAPE_LINE - 1u, 2.5), "the last place of the line is written, and no spare one", 0);
    state = waits_with(state, 1.0, 4.0, 0.0);
    check(store_tape(&state, TAPE_LENT, -0.5, out) == 0 && state.write_pos == 1u, "and then to 1", 0);
    tape_put(TAPE_LINE - 1u, 2.5);
    check(tape_wrote(0, -2.5), "place 0 is written", 0);
}

/* A refused store half, whatever the cause, leaves the read waiting; the right one after it is as if it had not been. */
static void refused_and_right(void)
{
    const double wrong[] = {farther(1.0), -2.0, (double)NAN, ODD_NAN, (double)INFINITY};
    const struct tape_ports p = tape_ports(1.0, 0.25, 0.002);
    room_tape_delay state = unread_at(3u), waits;
    double out[1] = {JUNK}, sum = JUNK;
    uint32_t age = JUNK_AGE;
    unsigned i;
    tape_lay(4.0);
    check(read_tape(&state, TAPE_LINE, &p, &sum, &age) == 0 && same(sum, 1.0), "a read half", 0);
    waits = state;
    for (i = 0; i < COUNT(wrong); i++) {
        check(store_tape(&state, TAPE_LINE, wrong[i], out) == 6 && same(out[0], 0.0), "a wrong value", i);
        check(store_tape(&state, TAPE_LINE - 1u, 0.5, out) == 3 && same(out[0], 0.0), "a memory too short", i);
        check(read_tape(&state, TAPE_LINE, &p, &sum, &age) == 7 && same(sum, 0.0) && age == 0u, "a second read half", i);
        check(tape_is(&state, waits) && tape_left(), "the read goes on waiting", i);
    }
    check(store_tape(&state, TAPE_LINE, 0.2, out) == 0 && same(out[0], 1.75), "the right one", 0);
    check(tape_wrote(3u, 1.0), "it stores", 0);
    check(store_tape(&state, TAPE_LINE, 0.2, out) == 7 && same(out[0], 0.0), "it can't be made twice", 0);
}

/* A NaN that is not the unit's own: the sum is NaN, so is v, and no store half is accepted with it. */
static void foreign_nan(void)
{
    struct tape_ports p = tape_ports(1.0, 0.25, 0.002);
    unsigned i;
    for (i = 0; i < 3u; i++) {
        room_tape_delay state = read_from(20u, 16.0);
        double out[1] = {JUNK}, sum = JUNK;
        uint32_t age = JUNK_AGE;
        int silent = 7;
        tape_lay(0.0);
        tape_put(4u, ODD_NAN);
        p.feedback = i == 0u ? room_unset() : room_set(1.5); /* 0 x NaN is NaN too */
        check(read_tape(&state, TAPE_LINE, &p, &sum, &age) == 0 && isnan(sum) && age == 16u, "the sum is NaN", i);
        check(store_tape(&state, TAPE_LINE, saturated(sum), out) == 6 && state.waiting == 1u, "it goes on waiting", i);
        check(room_tape_delay_silent(&state, &silent) == 0 && silent == 0, "it is not silent", i);
        check(read_tape(&state, TAPE_LINE, &p, &sum, &age) == 7, "no other read half", i);
        check((i != 1u ? room_tape_delay_reset(&state, tape_memory, TAPE_LINE)
                       : room_tape_delay_retune(&state, tape_memory, TAPE_LINE, 8000.0, 0.5)) == 0,
              "a clearing", i);
        check(tape_is(&state, unread_at(0)), "drops the read", i);
        check(store_tape(&state, TAPE_LINE, 0.5, out) == 7, "whose store half is out of turn", i);
        check(read_tape(&state, TAPE_LINE, &p, &sum, &age) == 0 && same(sum, 1.0), "a read half after it", i);
        check(store_tape(&state, TAPE_LINE, saturated(sum), out) == 0 && same(out[0], 0.75), "and its store half", i);
    }
}

/* The exported function by itself: it leaves the glide and the settings, which it is handed by value. */
static void raw(void)
{
    uint32_t write_pos = TAPE_LINE - 1u, count = TAPE_LINE;
    uint32_t waiting = 7;
    double audio = 1.0, read = 4.0, mix = 1.0, out = JUNK;
    tape_lay(0.5);
    check(room_raw_tape_delay_store_half(&write_pos, &count, 250.0, &audio, &read, &mix, 8000.0, 0.5, 7u, &waiting,
                                         tape_memory, TAPE_LINE, -0.0, &out) == 0,
          "the store half by itself", 0);
    check(write_pos == 0u && waiting == 0u && same(audio, 0.0) && same(read, 0.0) && same(mix, 0.0) && same(out, 4.0),
          "what it leaves", 0);
    check(tape_wrote(TAPE_LINE - 1u, -0.0) && count == TAPE_LINE - 1u, "what it stores, and counts", 0);
}

void tape_stores(void)
{
    values();
    plays_what_was_kept();
    round_the_end();
    refused_and_right();
    foreign_nan();
    raw();
}
