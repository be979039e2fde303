/* The accepted read halves of the tape delay: where they read, what they answer, what they leave. No place is written. */
#include "tape.h"

/* A tape of 0.5 but for one place, at this distance from the position. */
static void tape_with(uint32_t write_pos, unsigned distance, double value)
{
    tape_lay(0.5);
    tape_put((write_pos + TAPE_LINE - distance) % TAPE_LINE, value);
}

/* What a read half comes to: the audio that counts, what was read and from how far, feedback and mix as they are held. */
struct reading {
    double audio, read, distance, feedback, mix;
};

/* Runs the read half from this state in the tape as it is. */
static void reads(room_tape_delay state, struct tape_ports p, struct reading r, const char *what, unsigned i)
{
    room_tape_delay should = waits_with(state, r.audio, r.read, r.mix);
    double sum = JUNK;
    uint32_t ages[3] = {JUNK_AGE, JUNK_AGE, JUNK_AGE};
    should.smoothed_delay = r.distance;
    should.delay_primed = 1;
    check(read_tape(&state, TAPE_LINE, &p, &sum, &ages[1]) == 0, what, i);
    check(plays(sum, r.audio + r.read * r.feedback), what, i);
    check(ages[1] == age_at(r.distance) && ages[0] == JUNK_AGE && ages[2] == JUNK_AGE, "the age is that of the distance", i);
    check(tape_is(&state, should), "it leaves position, count and settings, its distance, and what it keeps", i);
    check(tape_left(), "it writes no place", i);
}

/* The wet read: audio 1, mix 1, feedback 0. */
static void reads_wet(room_tape_delay state, double seconds, double read, double distance, const char *what, unsigned i)
{
    const struct reading r = {1.0, read, distance, 0.0, 1.0};
    reads(state, tape_ports(1.0, 1.0, seconds), r, what, i);
}

/* At 8,000 a second is 8,000 places. The time goes to 12 s, neither to 1 nor to the other delay's 60. */
static void times(void)
{
    const double infinity = (double)INFINITY;
    const double seconds[] = {0.002, 0.125, 0.5, 1.0, 1.5, 11.0, 12.0};
    const unsigned distances[] = {16, 1000, 4000, 8000, 12000, 88000, 96000};
    const double most[] = {farther(12.0), 12.5, 60.0, 61.0, DBL_MAX, infinity};
    const double least[] = {0.000125, nearer(0.000125), SMALLEST, 0.0, -0.0, -1.0, -infinity};
    unsigned i;
    for (i = 0; i < COUNT(seconds); i++) {
        tape_with(3u, distances[i], 12.0);
        reads_wet(unread_at(3u), seconds[i], 12.0, distances[i], "a time in seconds", i);
    }
    for (i = 0; i < COUNT(most); i++) {
        tape_with(3u, TAPE_LINE - 1u, 12.0);
        reads_wet(unread_at(3u), most[i], 12.0, TAPE_LINE - 1u, "12 s are the most, L - 1 places", i);
    }
    for (i = 0; i < COUNT(least); i++) {
        tape_with(3u, 1u, 12.0);
        reads_wet(unread_at(3u), least[i], 12.0, 1.0, "one place back is the nearest", i);
    }
    /* (0.00014 x 1000) x 8000 / 1000 is 1.1199999999999997, and 0.00014 x 8000 1.1199999999999999. */
    tape_lay(0.5);
    reads_wet(unread_at(3u), 0.00014, 0.5, 1.1199999999999997, "milliseconds times the rate, by 1000", 0);
    reads_wet(unread_at(3u), 0.00028, 0.5, 2.2399999999999993, "milliseconds times the rate, by 1000", 1);
}

/* A read is of two places, and each may lie behind the end of the line. */
static void round_the_end(void)
{
    const double half = 0x1p-7; /* 62.5 places */
    const struct {
        uint32_t write_pos;
        double seconds;
        uint64_t place;
        double share;
    } ends[] = {
        {3u, 0.000375, 0u, 1.0},                  /* 3 back is place 0 */
        {2u, 0.000375, TAPE_LINE - 1u, 1.0},      /* 3 back is the last */
        {0u, 0.000125, TAPE_LINE - 1u, 1.0},      /* 1 back from place 0 */
        {TAPE_LINE - 1u, 0.000125, 95999u, 1.0},  /* ... and from the last */
        {62u, half, 0u, 0.5},                     /* the nearer place is place 0 */
        {62u, half, TAPE_LINE - 1u, 0.5},         /* the older one the last */
        {61u, half, TAPE_LINE - 1u, 0.5},         /* the nearer place is the last */
        {61u, half, TAPE_LINE - 2u, 0.5},         /* the older one that before it */
        {63u, half, 0u, 0.5},                     /* the older one is place 0 */
        {7u, 12.0, 8u, 1.0},                      /* L - 1 back is the next one */
        {TAPE_LINE - 1u, 12.0, 0u, 1.0},          /* ... and place 0 from the last */
    };
    unsigned i;
    for (i = 0; i < COUNT(ends); i++) {
        const double distance = ends[i].seconds * 1000.0 * 8000.0 / 1000.0;
        tape_lay(0.0);
        tape_put(ends[i].place, 12.0);
        reads_wet(unread_at(ends[i].write_pos), ends[i].seconds, 12.0 * ends[i].share, distance, "round the end", i);
    }
    /* The older place is multiplied by 0 too; at L - 1 it is the one that the store half writes next. */
    tape_with(3u, 17u, (double)INFINITY);
    reads_wet(unread_at(3u), 0.002, (double)NAN, 16.0, "0 x infinity", 0);
    tape_with(3u, 0u, (double)NAN);
    reads_wet(unread_at(3u), 12.0, (double)NAN, TAPE_LINE - 1u, "0 x NaN, of the position's own place", 1);
}

/* target + (last distance - target) x coefficient, with a target of 16 places */
static void glides(void)
{
    const struct {
        double last, coefficient, distance;
    } moves[] = {{32.0, 0.5, 24.0},  {8.0, 0.75, 10.0},  {32.0, 0.0, 16.0},      {32.0, -0.0, 16.0},
                 {16.0, 0.5, 16.0},  {17.0, 0.5, 16.5},  {96000.0, 0.5, 48008.0}, {1.0, 0.25, 12.25}};
    unsigned i;
    for (i = 0; i < COUNT(moves); i++) {
        const unsigned whole = (unsigned)moves[i].distance;
        const double read = 12.5 - 12.0 * (moves[i].distance - whole);
        room_tape_delay state = read_from(3u, moves[i].last);
        state.delay_smooth_coef = moves[i].coefficient;
        tape_with(3u, whole, 12.5);
        reads_wet(state, 0.002, read, moves[i].distance, "a glide", i);
        state.delay_primed = flags_on[i % FLAGS_ON];
        reads_wet(state, 0.002, read, moves[i].distance, "any number but 0 is primed", i);
        state.delay_primed = 0;
        state.smoothed_delay = 0.0;
        tape_with(3u, 16u, 12.5);
        reads_wet(state, 0.002, 12.5, 16.0, "the first read after a clearing is at its target", i);
    }
}

/* The feedback goes to 1.5 and no further; -0 stays. The tape reads 4 everywhere. */
static void feedbacks(void)
{
    const double within[] = {0.5, 0.99, farther(0.99), 1.0, farther(1.0), 1.25, nearer(1.5), 1.5, SMALLEST, 0.0, -0.0};
    const double above[] = {farther(1.5), 1.6, 2.0, 1e308, (double)INFINITY};
    const struct numbers below = at_most_zero();
    const struct numbers unset = not_read();
    struct tape_ports p = tape_ports(1.0, 0.25, 0.002);
    struct reading r = {1.0, 4.0, 16.0, 0.0, 0.25};
    unsigned i;
    tape_lay(4.0);
    for (i = 0; i < COUNT(within); i++) {
        p.feedback = room_set(within[i]);
        r.feedback = within[i];
        reads(unread_at(3u), p, r, "feedback is 0 to 1.5", i);
    }
    r.feedback = 1.5;
    for (i = 0; i < COUNT(above); i++) {
        p.feedback = room_set(above[i]);
        reads(unread_at(3u), p, r, "feedback is at most 1.5", i);
    }
    r.feedback = 0.0;
    for (i = 0; i < below.count; i++) {
        p.feedback = room_set(below.list[i]);
        reads(unread_at(3u), p, r, "feedback is at least 0", i);
    }
    for (i = 0; i < unset.count; i++) {
        p.feedback = room_set(unset.list[i]);
        p.feedback.set = 0;
        reads(unread_at(3u), p, r, "unset feedback is 0", i);
    }
    p = tape_ports(-0.0, 0.25, 0.002);
    p.feedback = room_set(-0.0);
    r.audio = r.feedback = -0.0;
    reads(unread_at(3u), p, r, "-0 + 4 x -0 is -0", 0);
}

/* What is kept of audio and mix. */
static void audio_and_mix(void)
{
    const double audios[] = {1.0, -0.0, SMALLEST, -1e300, DBL_MAX, -DBL_MAX};
    const double not_finite[] = {(double)NAN, ODD_NAN, (double)INFINITY, -(double)INFINITY};
    const double mixes[] = {0.0, -0.0, SMALLEST, 0.25, nearer(1.0), 1.0};
    const struct numbers above = at_least_one();
    const double below[] = {-SMALLEST, -1.0, -1e308, -(double)INFINITY};
    struct tape_ports p = tape_ports(1.0, 0.25, 0.002);
    struct reading r = {1.0, 4.0, 16.0, 1.5, 0.25};
    unsigned i;
    tape_lay(4.0);
    p.feedback = room_set(1.5);
    for (i = 0; i < COUNT(audios); i++) {
        p.audio = room_set(r.audio = audios[i]);
        reads(unread_at(3u), p, r, "finite audio counts as it is", i);
    }
    r.audio = 0.0;
    for (i = 0; i < COUNT(not_finite); i++) {
        p.audio = room_set(not_finite[i]);
        reads(unread_at(3u), p, r, "audio that is not finite counts as +0, and is kept so", i);
    }
    for (i = 0; i < COUNT(mixes); i++) {
        p.mix = room_set(r.mix = mixes[i]);
        reads(unread_at(3u), p, r, "a mix of 0 to 1 is kept as it is", i);
    }
    for (i = 0; i < COUNT(below); i++) {
        p.mix = room_set(below[i]);
        r.mix = 0.0;
        reads(unread_at(3u), p, r, "a mix below 0 is kept as 0", i);
    }
    for (i = 0; i < above.count; i++) {
        p.mix = room_set(above.list[i]);
        r.mix = 1.0;
        reads(unread_at(3u), p, r, "a mix above 1 is kept as 1", i);
    }
}

/* Unset: audio 0, time 0.5 s, feedback 0, mix 0.5. The mask's bits beyond the four ports are not read. */
static void unset_ports(void)
{
    const struct numbers unset = not_read();
    const struct reading r = {0.0, 4.0, 4000.0, 0.0, 0.5};
    const struct room_port none = room_unset();
    const struct tape_ports all = {none, none, none, none};
    double distance = 0.0, audio = 0.0, read = 0.0, mix = 0.0, sum = JUNK;
    uint32_t primed = 0, waiting = 0, age = JUNK_AGE;
    unsigned i;
    tape_lay(4.0);
    reads(unread_at(3u), all, r, "no port is set", 0);
    for (i = 0; i < unset.count; i++) {
        struct tape_ports p = tape_ports(unset.list[i], unset.list[i], unset.list[i]);
        p.feedback = p.mix;
        p.audio.set = p.time.set = p.feedback.set = p.mix.set = 0;
        reads(unread_at(3u), p, r, "the numbers of unset ports are not read", i);
    }
    check(room_raw_tape_delay_read_half(3u, TAPE_LINE, &distance, &audio, &read, &mix, 8000.0, 0.5, &primed, &waiting,
                                        tape_memory, TAPE_LINE, UINT32_C(0xfffffff5), 2.0, ODD_NAN, 1.0, ODD_NAN, &sum,
                                        &age) == 0,
          "audio and feedback, and the other bits", 0);
    check(same(sum, 6.0) && age == 4000u && same(distance, 4000.0) && primed == 1u && waiting == 1u && same(audio, 2.0) &&
              same(read, 4.0) && same(mix, 0.5),
          "the two are set, time and mix are not", 0);
}

/* The age goes from 1 to L - 1, at whole distances and at halves. */
static void many_distances(void)
{
    unsigned i;
    tape_lay(0.5);
    for (i = 2; i <= 2u * (TAPE_LINE - 1u); i += 97u) {
        reads_wet(unread_at(TAPE_LINE / 2u), i / 16000.0, 0.5, i / 16000.0 * 1000.0 * 8000.0 / 1000.0, "an age", i);
    }
}

void tape_reads(void)
{
    times();
    round_the_end();
    glides();
    feedbacks();
    audio_and_mix();
    unset_ports();
    many_distances();
}
