/*
 * Hirers of a tape delay at 44,100: a song, louder with each time round; then they leave, after a tick or in the middle of one;
 * then a reset, a retune to 48,000 or a start, and a take without a sound in which every place of the line is read, and one
 * beside a unit that was started anew.
 */
#include "calls.h"
#include "hire.h"

#include <math.h>
#include <stdlib.h>
#include <string.h>

#define HIRED 44100.0
#define RETUNED 48000.0

/* Document 02's lengths at these rates. */
#define HIRED_LENGTH 529201u
#define RETUNED_LENGTH 576001u
#define LENT (RETUNED_LENGTH + SPARE)

#define COMPARED 100000u

/* How a hirer leaves: with no read that waits, with one, or with one whose store half was handed too much. */
enum { AFTER_A_TICK, READ_WAITS, STORE_REFUSED, LEAVINGS };
enum { RESET, RETUNE, START, CLEARINGS };

struct hired {
    room_tape_delay state;
    double *lent;
    double rate;
    uint64_t length;
};

static void make_hired(struct hired *h)
{
    uint64_t i;
    memset(h, 0, sizeof *h);
    h->lent = malloc(LENT * sizeof *h->lent);
    if (h->lent == NULL) {
        exit(1);
    }
    for (i = 0; i < LENT; i++) {
        h->lent[i] = i % 3u == 0u ? (double)NAN : (double)i;
    }
}

static uint32_t start(struct hired *h, double rate)
{
    h->rate = rate;
    h->length = rate == HIRED ? HIRED_LENGTH : RETUNED_LENGTH;
    return room_tape_delay_start(&h->state, h->lent, LENT, rate, exp(-1.0 / (0.005 * rate)));
}

static uint32_t tick(struct hired *h, room_port audio, double time, double feedback, double *out, uint32_t *age)
{
    double sum;
    const uint32_t refused = room_tape_delay_read_half(&h->state, h->lent, LENT, audio, room_set(time), room_set(feedback),
                                                       room_set(0.75), &sum, age);
    return refused | room_tape_delay_store_half(&h->state, h->lent, LENT, saturated(sum), out);
}

static int is_silent(const struct hired *h)
{
    int yes = 7;
    return room_tape_delay_silent(&h->state, &yes) == ROOM_ACCEPTED ? yes : -1;
}

static int counts_right(const struct hired *h)
{
    return h->state.nonzero_places == nonzero(h->lent, h->length);
}

/* As long as the line, so that every place holds a part of it. */
static void play_song(struct hired *h)
{
    uint32_t refused = start(h, HIRED), age;
    uint64_t i;
    double out = 0.0;
    for (i = 0; i < h->length; i++) {
        refused |= tick(h, noise(), 0.7, 1.5, &out, &age);
    }
    fact(refused == 0u && is_silent(h) == 0, "a song is played through a tape, which sounds after it");
    fact(counts_right(h), "after a song a tape's count is how many of its places are neither +0 nor -0");
}

static void leave(struct hired *h, int leaving)
{
    double sum, out;
    uint32_t age, number = ROOM_ACCEPTED;
    if (leaving != AFTER_A_TICK) {
        number = room_tape_delay_read_half(&h->state, h->lent, LENT, room_set(0.5), room_set(0.7), room_set(1.5), room_set(1.0),
                                           &sum, &age);
    }
    if (leaving == STORE_REFUSED) {
        fact(room_tape_delay_store_half(&h->state, h->lent, LENT, 1.5, &out) == ROOM_REFUSED_CURVE,
             "a store half that is handed too much is refused");
    }
    fact(number == ROOM_ACCEPTED && h->state.waiting == (leaving != AFTER_A_TICK) && is_silent(h) == 0,
         "a hirer leaves a tape after a tick or in the middle of one");
}

static void clear(struct hired *h, int clearing)
{
    const double coefficient = exp(-1.0 / (0.005 * RETUNED));
    const room_tape_delay before = h->state;
    uint32_t number = ROOM_ACCEPTED;
    if (clearing == RESET) {
        number = room_tape_delay_reset(&h->state, h->lent, LENT);
    } else if (clearing == RETUNE) {
        number = room_tape_delay_retune(&h->state, h->lent, LENT, RETUNED, coefficient);
        h->rate = RETUNED;
        h->length = RETUNED_LENGTH;
    } else {
        number = start(h, HIRED);
    }
    fact(number == ROOM_ACCEPTED && h->state.sample_rate == h->rate &&
             h->state.delay_smooth_coef == (clearing == RETUNE ? coefficient : before.delay_smooth_coef),
         "each clearing of a tape is accepted, in the middle of a tick too");
}

static int nothing_kept(const room_tape_delay *s)
{
    return s->write_pos == 0u && s->nonzero_places == 0u && plus_zero(&s->smoothed_delay, 1) && s->delay_primed == 0u &&
           s->waiting == 0u && plus_zero(&s->kept_audio, 1) && plus_zero(&s->kept_read, 1) && plus_zero(&s->kept_mix, 1);
}

/* The read that waited is dropped: its store half comes too late. */
static void look_after_clearing(struct hired *h)
{
    room_tape_delay before;
    double out = 1.0;
    uint32_t number;
    memcpy(&before, &h->state, sizeof before);
    number = room_tape_delay_store_half(&h->state, h->lent, LENT, 0.5, &out);
    fact(number == ROOM_REFUSED_TURN && plus_zero(&out, 1) && memcmp(&before, &h->state, sizeof before) == 0,
         "after a clearing no read of a tape waits for a store half");
    fact(nothing_kept(&h->state) && plus_zero(h->lent, LENT) && is_silent(h) == 1,
         "after a clearing a tape's places, spare ones too, and what it keeps are +0, its count 0, and it is silent");
}

/* At 12 s each read is of the oldest place, just before it is written. */
static void silent_take(struct hired *h)
{
    uint32_t refused = 0, age = 0;
    int good = 1;
    uint64_t i;
    for (i = 0; i < h->length; i++) {
        double out = 1.0;
        refused |= tick(h, room_set(0.0), 12.0, 1.5, &out, &age);
        good = good && plus_zero(&out, 1) && age == h->length - 1u;
    }
    fact(good && refused == 0u && is_silent(h) == 1,
         "the next hirer hears nothing in a take as long as the tape, from its far end");
}

/* Both units have played the silent take. */
static void take_beside(struct hired *h, struct hired *fresh)
{
    uint32_t refused = 0, ages[2] = {0, 0};
    int good = memcmp(&h->state, &fresh->state, sizeof h->state) == 0;
    uint64_t i;
    for (i = 0; i < COMPARED; i++) {
        const room_port audio = noise();
        double outs[2] = {1.0, 2.0};
        refused |= tick(h, audio, 1e-5 * (double)i, 1.5, &outs[0], &ages[0]);
        refused |= tick(fresh, audio, 1e-5 * (double)i, 1.5, &outs[1], &ages[1]);
        good = good && memcmp(&outs[0], &outs[1], sizeof outs[0]) == 0 && ages[0] == ages[1];
    }
    good = good && counts_right(h) && memcmp(&h->state, &fresh->state, sizeof h->state) == 0;
    fact(good && refused == 0u && memcmp(h->lent, fresh->lent, LENT * sizeof *h->lent) == 0,
         "the next hirer's take plays and leaves on a tape what a fresh one would");
}

void tape_hirers(void)
{
    struct hired tape, fresh;
    int leaving, clearing;
    make_hired(&tape);
    make_hired(&fresh);
    for (leaving = 0; leaving < LEAVINGS; leaving++) {
        for (clearing = 0; clearing < CLEARINGS; clearing++) {
            play_song(&tape);
            leave(&tape, leaving);
            clear(&tape, clearing);
            look_after_clearing(&tape);
            silent_take(&tape);
            fact(start(&fresh, tape.rate) == ROOM_ACCEPTED, "a fresh tape is started beside it");
            silent_take(&fresh);
            take_beside(&tape, &fresh);
        }
    }
    free(tape.lent);
    free(fresh.lent);
}
