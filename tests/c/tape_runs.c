/* Whole ticks of the tape delay, one after the other, against a model of one tick: a read at a distance that glides, the sum
   saturated, the store. The host's tanh stands between the halves. */
#include "tape.h"

#include <string.h>

struct model {
    double line[TAPE_LINE];
    unsigned position;
    double distance, coefficient;
    int primed;
};
static struct model model;

static void model_cleared(double coefficient)
{
    memset(&model, 0, sizeof model);
    model.coefficient = coefficient;
}

static double held(double x, double low, double high)
{
    return x < low ? low : x > high ? high : x;
}

/* What one tick comes to, at 8,000. */
struct whole_tick {
    double sum, stored, sample;
    uint32_t age;
};

static struct whole_tick model_tick(double audio, double time, double feedback, double mix)
{
    struct whole_tick t;
    const double input = isfinite(audio) ? audio : 0.0;
    const double target = held(held(time, 0.0, 12.0) * 1000.0 * 8000.0 / 1000.0, 1.0, TAPE_LINE - 1u);
    unsigned whole, place;
    double fraction, read;
    model.distance = model.primed ? target + (model.distance - target) * model.coefficient : target;
    model.primed = 1;
    whole = (unsigned)model.distance;
    fraction = model.distance - whole;
    place = (model.position + TAPE_LINE - whole) % TAPE_LINE;
    read = model.line[place] * (1.0 - fraction) + model.line[(place + TAPE_LINE - 1u) % TAPE_LINE] * fraction;
    t.age = age_at(model.distance);
    t.sum = input + read * held(feedback, 0.0, 1.5);
    t.stored = saturated(t.sum) * 5.0;
    model.line[model.position] = t.stored;
    model.position = (model.position + 1u) % TAPE_LINE;
    t.sample = input * (1.0 - held(mix, 0.0, 1.0)) + read * held(mix, 0.0, 1.0);
    return t;
}

/* The unit under test. */
static room_tape_delay unit;

static int says_silent(void)
{
    int silent = 7;
    check(room_tape_delay_silent(&unit, &silent) == 0, "a question in a run", 0);
    return silent;
}

/* A pair of halves beside a tick of the model. */
static void both(double audio, double time, double feedback, double mix, unsigned i)
{
    const struct whole_tick t = model_tick(audio, time, feedback, mix);
    struct tape_ports p = tape_ports(audio, mix, time);
    const uint32_t place = unit.write_pos;
    double sum = JUNK, out[1] = {JUNK};
    uint32_t age = JUNK_AGE;
    p.feedback = room_set(feedback);
    check(read_tape(&unit, TAPE_LENT, &p, &sum, &age) == 0 && same(sum, t.sum) && age == t.age, "sum and age", i);
    if (i % 500u == 0u) {
        check(says_silent() == 0, "not silent while a read waits", i);
        check(unit.nonzero_places == tape_nonzero(), "the count is that of the line, at a read half too", i);
    }
    check(store_tape(&unit, TAPE_LENT, saturated(sum), out) == 0 && same(out[0], t.sample), "the sample", i);
    check(same(tape_memory[place], t.stored), "the place that is stored", i);
    check(unit.write_pos == model.position && same(unit.smoothed_delay, model.distance) && unit.waiting == 0u,
          "position and glide", i);
    if (i % 500u == 1u) {
        check(unit.nonzero_places == tape_nonzero(), "the count is that of the line after a store half", i);
        check(says_silent() == (tape_nonzero() == 0u), "and by it the unit is silent", i);
    }
}

/* Numbers from -1 to 1, all over. */
static double spread(unsigned i)
{
    return (double)(i * UINT32_C(2654435761) >> 8) * 0x1p-23 - 1.0;
}

static void started(double coefficient, unsigned i)
{
    tape_fill();
    check(room_tape_delay_start(&unit, tape_memory, TAPE_LENT, 8000.0, coefficient) == 0, "start of a run", i);
    model_cleared(coefficient);
}

/* Whether the line is the model's, lies in -5 to 5, and the spare places are +0. */
static void line_as_model(unsigned i)
{
    unsigned k, outside = 0, spare = 0;
    check(all_same(tape_memory, model.line, TAPE_LINE), "the whole line", i);
    check(unit.nonzero_places == nonzero_in(model.line, TAPE_LINE), "the count at the end of a run", i);
    for (k = 0; k < TAPE_LINE; k++) {
        outside += !(tape_memory[k] >= -5.0 && tape_memory[k] <= 5.0);
    }
    for (k = TAPE_LINE; k < TAPE_LENT; k++) {
        spare += !same(tape_memory[k], 0.0);
    }
    check(outside == 0u && spare == 0u, "every place is -5 to 5, spare ones +0", i);
}

/* More than a round of the line, of audio that is infinite at times, with times, feedbacks and mixes beyond their ends. */
static void long_run(double coefficient, double loudest, unsigned ticks, unsigned i)
{
    unsigned k;
    started(coefficient, i);
    for (k = 0; k < ticks; k++) {
        const double audio = k % 1000u == 999u ? (double)INFINITY : loudest * spread(k);
        const double time = k % 40000u < 20000u ? 0.25 + 0.2 * spread(k / 300u) : 7.0 + 7.0 * spread(k / 5000u);
        both(audio, time, 0.75 + spread(k / 7u), 0.5 + 0.6 * spread(k / 11u), k);
    }
    line_as_model(i);
}

/* With a feedback of 1.5 and as loud as can be, what is stored is held. */
static void loudest_run(void)
{
    unsigned k;
    started(0.9, 0);
    for (k = 0; k < 3000u; k++) {
        both(k % 3u == 0u ? DBL_MAX : k % 3u == 1u ? -DBL_MAX : 3.0, 0.0, 1.5, 0.5, k);
    }
    line_as_model(100u);
    check(same(tape_memory[2997], 5.0) && same(tape_memory[2998], -5.0), "it is held at 5", 0);
}

/* Time 0 and coefficient 0, all wet: what was stored last is heard. */
static void one_place_back(void)
{
    const double audios[] = {3.0, 7.0, 0.0};
    const double values[] = {0.6, 1.0, 0.0};
    const double heard[] = {0.0, 3.0, 5.0};
    unsigned i;
    started(0.0, 0);
    for (i = 0; i < COUNT(audios); i++) {
        const struct tape_ports p = tape_ports(audios[i], 1.0, 0.0);
        double sum = JUNK, out[1] = {JUNK};
        uint32_t age = JUNK_AGE;
        check(read_tape(&unit, TAPE_LINE, &p, &sum, &age) == 0 && same(sum, audios[i]) && age == 1u, "the sum", i);
        check(store_tape(&unit, TAPE_LINE, values[i], out) == 0 && same(out[0], heard[i]), "what is heard", i);
    }
}

/* A pair with audio 0 and a zero handed in for the zero: zeros are answered, and it is silent after; with another value not. */
static void silence(void)
{
    const double zeros[] = {0.0, -0.0};
    const double audios[] = {0.0, -0.0, (double)NAN, (double)INFINITY};
    double sum = JUNK, out[1] = {JUNK};
    uint32_t age;
    unsigned i;
    started(0.5, 1);
    check(says_silent() == 1, "silent after a start", 0);
    for (i = 0; i < 16u; i++) {
        struct tape_ports p = tape_ports(audios[i % 4u], 0.5, 0.25);
        p.feedback = room_set(1.5);
        check(read_tape(&unit, TAPE_LINE, &p, &sum, &age) == 0 && sum == 0.0 && says_silent() == 0, "a zero, and it waits", i);
        check(store_tape(&unit, TAPE_LINE, zeros[i / 4u % 2u], out) == 0 && out[0] == 0.0, "a zero is heard", i);
        check(says_silent() == 1, "silent after the pair", i);
        check(same(saturated(sum), sum), "the host makes the zero of a zero", i);
    }
    check(room_tape_delay_read_half(&unit, tape_memory, TAPE_LINE, room_unset(), room_unset(), room_unset(), room_unset(), &sum,
                                    &age) == 0,
          "a read half once more", 0);
    check(store_tape(&unit, TAPE_LINE, SMALLEST, out) == 0 && says_silent() == 0, "another value sounds", 0);
}

/* Resets and retunes in a run, some of them between the halves: each is a new beginning. */
static void clearings(void)
{
    unsigned i, k;
    started(0.5, 2);
    for (i = 0; i < 8u; i++) {
        const double coefficient = i % 2u == 0u ? 0.5 : unit.delay_smooth_coef;
        for (k = 0; k < 300u; k++) {
            both(spread(k), 0.01, 0.9, 0.5, k);
        }
        if (i % 4u < 2u) {
            const struct tape_ports p = tape_ports(1.0, 0.5, 0.01);
            double sum;
            uint32_t age;
            check(read_tape(&unit, TAPE_LENT, &p, &sum, &age) == 0, "a read that will be dropped", i);
        }
        check((i % 2u == 0u ? room_tape_delay_retune(&unit, tape_memory, TAPE_LENT, 8000.0, coefficient)
                            : room_tape_delay_reset(&unit, tape_memory, TAPE_LENT)) == 0,
              "a clearing in a run", i);
        check(says_silent() == 1, "silent after it", i);
        model_cleared(coefficient);
    }
    line_as_model(200u);
}

void tape_runs(void)
{
    long_run(exp(-1.0 / (0.005 * 8000.0)), 1.0, 230000u, 0);
    long_run(0.0, 10.0, 100000u, 1);
    loudest_run();
    one_place_back();
    silence();
    clearings();
}
