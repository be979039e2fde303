/* Document 01, of the chorus's line, the phaser, the ages and the tape delay document 02: what an accepted tick answers, writes
   and leaves. Products go from left to right, sums start at +0. */
#include "hostile.h"

#include <math.h>
#include <string.h>

unsigned samples_of(int effect)
{
    static const unsigned samples[EFFECTS] = {0, 1, 3, 3, 1, 1, 2, 3, 1};
    return samples[effect];
}

unsigned ports_of(int effect)
{
    static const unsigned ports[EFFECTS] = {0, 4, 3, 4, 3, 3, 5, 4, 4};
    return ports[effect];
}

unsigned curves_of(int effect)
{
    static const unsigned curves[EFFECTS] = {0, 1, 4, 3, 2, 2, 0, 3, 1};
    return curves[effect];
}

/* "Delay, chorus, flanger and vibrato pass on the largest age of their reads", and of the tape delay "a read half .. answers ..
   the age". */
int has_ages(int effect)
{
    return effect == DELAY || effect == CHORUS || effect == FLANGER || effect == VIBRATO || effect == TAPE;
}

double port(const struct call *c, unsigned which, double unset)
{
    return (c->set >> which & 1u) != 0u ? c->ports[which] : unset;
}

/* -0 is neither below 0 nor above it, and stays. */
double clamped(double x, double low, double high)
{
    return x < low ? low : x > high ? high : x;
}

double input_rule(double audio)
{
    return is_finite(audio) ? audio : 0.0;
}

double blended(double audio, double wet, double mix)
{
    return audio * (1.0 - mix) + wet * mix;
}

/* "whole part d and fraction f of the distance; place (w + L - d) mod L times (1 - f), plus the one before it times f", and
   "beside the sample, the whole part of the distance, plus one where the fraction isn't zero" */
static double read_line(struct ticked *t, const double *line, uint64_t length, uint64_t w, double distance)
{
    const uint64_t d = (uint64_t)distance;
    const double f = distance - (double)d;
    const uint32_t age = (uint32_t)d + (f != 0.0);
    t->age = age > t->age ? age : t->age;
    return line[(w + length - d) % length] * (1.0 - f) + line[(w + length - d - 1u) % length] * f;
}

/* "Phase: add; at 1 or more, subtract 1." */
static void advance(struct ticked *t, unsigned word, double step)
{
    const double sum = of_bits(t->state.word[word]) + step;
    t->state.word[word] = bits(sum >= 1.0 ? sum - 1.0 : sum);
}

/* A line of a unit whose lines are equally long: what it plays at this distance, clamped to 1 to L - 1. */
static double play(struct ticked *t, const struct call *c, unsigned line, uint64_t length, double distance)
{
    return read_line(t, c->memory + line * length, length, c->state.word[0], clamped(distance, 1.0, (double)(length - 1u)));
}

static void store(struct ticked *t, const struct call *c, unsigned line, uint64_t length, double value)
{
    t->place[t->writes] = line * length + c->state.word[0];
    t->value[t->writes] = value;
    t->writes++;
    t->state.word[0] = (c->state.word[0] + 1u) % length;
}

/* Of a tick of either delay: the line's length, the audio under the input rule, what was read, the mix, and the audio plus what
   was read times the feedback. */
struct heard {
    uint64_t length;
    double audio, read, mix, sum;
};

static double linear_ms(const struct call *c, double maximum)
{
    return clamped(port(c, 1, 0.5), 0.0, maximum) * 1000.0;
}

/* Target, glide and read of both delays. */
static struct heard read_delay(struct ticked *t, const struct call *c, double maximum, double ms, double most_feedback)
{
    const double rate = rate_of(c->effect, &c->state);
    const uint64_t length = line_length(c->effect, rate, maximum);
    const double target = clamped(ms * rate / 1000.0, 1.0, (double)(length - 1u));
    const double last = of_bits(value_of(c->effect, &c->state, 'd'));
    const double glide = target + (last - target) * of_bits(value_of(c->effect, &c->state, 'c'));
    const double distance = value_of(c->effect, &c->state, 'f') != 0u ? glide : target;
    struct heard h = {length, input_rule(port(c, 0, 0.0)), 0.0, clamped(port(c, 3, 0.5), 0.0, 1.0), 0.0};
    h.read = read_line(t, c->memory, length, c->state.word[0], distance);
    h.sum = h.audio + h.read * clamped(port(c, 2, 0.0), 0.0, most_feedback);
    t->state.word[word_of(c->effect, 'd')] = bits(distance);
    t->state.word[word_of(c->effect, 'f')] = 1u;
    return h;
}

static void store_delay(struct ticked *t, const struct call *c, const struct heard *h, double value)
{
    store(t, c, 0, h->length, value);
    t->out[0] = blended(h->audio, h->read, h->mix);
}

static void delay_tick(struct ticked *t, const struct call *c)
{
    const double maximum = maximum_of(DELAY, &c->state);
    const double ms = value_of(DELAY, &c->state, 'l') != 0u ? linear_ms(c, maximum) : c->curves[0];
    const struct heard h = read_delay(t, c, maximum, ms, 0.99);
    store_delay(t, c, &h, h.sum);
}

/* "a read half, which answers audio + read x feedback and the age": "feedback clamped to 0 to 1.5", "maximum 12 seconds, linear
   time". "The read half checks the controls, moves the glide, writes no place, and keeps audio, read and mix in the state" */
static void tape_read_half(struct ticked *t, const struct call *c)
{
    const struct heard h = read_delay(t, c, 12.0, linear_ms(c, 12.0), 1.5);
    uint64_t *kept = &t->state.word[word_of(TAPE, 'k')];
    kept[0] = bits(h.audio);
    kept[1] = bits(h.read);
    kept[2] = bits(h.mix);
    t->state.word[word_of(TAPE, 'q')] = 1u;
    t->out[0] = h.sum;
}

/* "a store half, which receives tanh_sat of a fifth of that sum, drive 1, stores five times it, advances and answers the
   output" */
static void tape_store_half(struct ticked *t, const struct call *c)
{
    const unsigned first = word_of(TAPE, 'k');
    const uint64_t *kept = &c->state.word[first];
    const struct heard h = {length_at(TAPE, &c->state, 0), of_bits(kept[0]), of_bits(kept[1]), of_bits(kept[2]), 0.0};
    store_delay(t, c, &h, c->curves[0] * 5.0);
    memset(&t->state.word[first], 0, 3u * sizeof *kept);
    t->state.word[word_of(TAPE, 'q')] = 0u;
}

static void tape_half(struct ticked *t, const struct call *c)
{
    if (c->kind == STORE) {
        tape_store_half(t, c);
    } else {
        tape_read_half(t, c);
    }
}

/* Three voices read the one line; then the audio is stored in it. */
static void chorus_tick(struct ticked *t, const struct call *c)
{
    const double rate = rate_of(CHORUS, &c->state);
    const uint64_t length = line_length(CHORUS, rate, 0.0);
    const double audio = input_rule(port(c, 0, 0.0));
    const double depth = clamped(port(c, 1, 0.5), 0.0, 1.0);
    const double mix = clamped(port(c, 2, 0.5), 0.0, 1.0);
    double voice[3];
    unsigned i;
    for (i = 0; i < 3u; i++) {
        const double sweep = (c->curves[1u + i] * 0.5 + 0.5) * (depth * 25.0 * rate / 1000.0);
        voice[i] = play(t, c, 0, length, 7.0 * rate / 1000.0 + sweep);
        advance(t, word_of(CHORUS, 'p') + i, c->curves[0] * (1.0 + ((double)i - 1.0) * 0.1) / rate);
    }
    store(t, c, 0, length, audio);
    t->out[0] = blended(audio, (0.0 + voice[0] + voice[1] + voice[2]) / 3.0, mix);
    t->out[1] = blended(audio, (0.0 + voice[0] * 0.5 + voice[1]) / 2.0, mix);
    t->out[2] = blended(audio, (0.0 + voice[0] * 0.5 + voice[2]) / 2.0, mix);
}

static void flanger_tick(struct ticked *t, const struct call *c)
{
    const double rate = rate_of(FLANGER, &c->state);
    const uint64_t length = line_length(FLANGER, rate, 0.0);
    const double audio = input_rule(port(c, 0, 0.0));
    const double depth = clamped(port(c, 1, 0.5), 0.0, 1.0);
    const double feedback = clamped(port(c, 2, 0.0), -0.95, 0.95);
    const double mix = clamped(port(c, 3, 0.5), 0.0, 1.0);
    unsigned i;
    for (i = 0; i < 2u; i++) {
        const double distance = (1.0 + (c->curves[1u + i] + 1.0) * 0.5 * (depth * 9.0)) * rate / 1000.0;
        const double wet = play(t, c, i, length, distance);
        store(t, c, i, length, audio + wet * feedback);
        t->out[1u + i] = blended(audio, wet, mix);
    }
    t->out[0] = t->out[1];
    advance(t, word_of(FLANGER, 'p'), c->curves[0] / rate);
}

static void vibrato_tick(struct ticked *t, const struct call *c)
{
    const double rate = rate_of(VIBRATO, &c->state);
    const uint64_t length = line_length(VIBRATO, rate, 0.0);
    const double audio = port(c, 0, 0.0);
    const double depth = clamped(port(c, 1, 0.5), 0.0, 1.0);
    const double wet = play(t, c, 0, length, (10.0 + c->curves[1] * (depth * 10.0 * 0.9)) * rate / 1000.0);
    store(t, c, 0, length, audio);
    t->out[0] = blended(audio, wet, clamped(port(c, 2, 1.0), 0.0, 1.0));
    advance(t, word_of(VIBRATO, 'p'), c->curves[0] / rate);
}

static void tremolo_tick(struct ticked *t, const struct call *c)
{
    const double depth = clamped(port(c, 1, 0.5), 0.0, 1.0);
    const double shape = clamped(port(c, 2, 0.0), 0.0, 1.0);
    const double triangle = 1.0 - 4.0 * fabs(of_bits(c->state.word[0]) - 0.5);
    const double swing = c->curves[1] * (1.0 - shape) + triangle * shape;
    t->out[0] = port(c, 0, 0.0) * (1.0 - depth * 0.5 * (1.0 - swing));
    advance(t, 0, c->curves[0] / rate_of(TREMOLO, &c->state));
}

/* "two chains of six all-passes, feedback from the last active stage": the words of its last inputs and outputs begin here. */
static double chain(struct ticked *t, const struct call *c, unsigned inputs, unsigned outputs, double audio, double coefficient)
{
    const double stages = port(c, 3, 1.0);
    const unsigned active = stages < 0.33 ? 2u : stages < 0.66 ? 4u : 6u;
    double in = audio + of_bits(c->state.word[outputs + active - 1u]) * clamped(port(c, 1, 0.0), -0.95, 0.95);
    unsigned i;
    for (i = 0; i < active; i++) {
        const double last_in = of_bits(c->state.word[inputs + i]);
        const double last_out = of_bits(c->state.word[outputs + i]);
        const double out = coefficient * in + last_in - coefficient * last_out;
        t->state.word[inputs + i] = bits(in);
        t->state.word[outputs + i] = bits(out);
        in = out;
    }
    return blended(audio, in, clamped(port(c, 2, 0.5), 0.0, 1.0));
}

static void phaser_tick(struct ticked *t, const struct call *c)
{
    const double audio = input_rule(port(c, 0, 0.0));
    t->out[1] = chain(t, c, 0, 12, audio, c->curves[1]);
    t->out[2] = chain(t, c, 6, 18, audio, c->curves[2]);
    t->out[0] = t->out[1];
    advance(t, 24, c->curves[0] / rate_of(PHASER, &c->state));
}

struct ticked tick_by_the_paper(const struct call *c)
{
    static void (*const ticks[EFFECTS])(struct ticked *, const struct call *) = {
        0, delay_tick, chorus_tick, flanger_tick, vibrato_tick, tremolo_tick, reverb_tick, phaser_tick, tape_half};
    struct ticked t;
    t.state = c->state;
    t.age = 0;
    t.writes = 0;
    ticks[c->effect](&t, c);
    count_writes(&t, c);
    return t;
}
