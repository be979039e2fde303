/* Makes a drawn call of an exported function. All that is handed over by an address lies in a spot of its own. */
#include "hostile.h"

#include <string.h>

#define OUT_SPOT 10u
#define SILENT_SPOT 11u
#define AGE_SPOT 12u

/* The words of the state that the call is handed by an address. */
static struct {
    unsigned first, count;
    void *at;
} lent[SPOTS];
static unsigned lents;

/* Positions, counts and flags have 32 bits, all else 64. */
static unsigned bytes_of(int effect, unsigned word)
{
    return is_position(effect, word) || is_count(effect, word) || is_flag(effect, word) ? 4u : 8u;
}

static void *lend(const struct call *c, unsigned first, unsigned count)
{
    const unsigned bytes = bytes_of(c->effect, first);
    char *at = spot(lents, count * bytes, one_in(2));
    unsigned i;
    for (i = 0; i < count; i++) {
        const uint32_t short_word = (uint32_t)c->state.word[first + i];
        memcpy(at + i * bytes, bytes == 4u ? (const void *)&short_word : &c->state.word[first + i], bytes);
    }
    lent[lents].first = first;
    lent[lents].count = count;
    lent[lents].at = at;
    lents++;
    return at;
}

static uint64_t taken_back(const char *at, unsigned bytes)
{
    uint32_t short_word;
    uint64_t word;
    if (bytes == 4u) {
        memcpy(&short_word, at, sizeof short_word);
        return short_word;
    }
    memcpy(&word, at, sizeof word);
    return word;
}

static void take_back(const struct call *c, struct state *state)
{
    unsigned i, k;
    *state = c->state;
    for (i = 0; i < lents; i++) {
        const unsigned bytes = bytes_of(c->effect, lent[i].first);
        for (k = 0; k < lent[i].count; k++) {
            state->word[lent[i].first + k] = taken_back((const char *)lent[i].at + k * bytes, bytes);
        }
    }
    lents = 0;
}

/* What is handed over by value: a float, a number of 32 bits. */

static double number(const struct call *c, unsigned word)
{
    return of_bits(c->state.word[word]);
}

static uint32_t whole(const struct call *c, unsigned word)
{
    return (uint32_t)c->state.word[word];
}

static uint32_t tremolo(const struct call *c, double *out, uint32_t *yes, uint32_t *age)
{
    (void)age;
    switch (c->kind) {
    case START:
        return room_raw_tremolo_start(c->rate, lend(c, 0, 1), lend(c, 1, 1));
    case RESET:
        return room_raw_tremolo_reset(lend(c, 0, 1), number(c, 1));
    case TICK:
        return room_raw_tremolo_tick(lend(c, 0, 1), number(c, 1), c->set, c->ports[0], c->ports[1], c->ports[2], c->curves[0],
                                     c->curves[1], out);
    default:
        return room_raw_tremolo_silent(number(c, 0), number(c, 1), yes);
    }
}

static uint32_t vibrato(const struct call *c, double *out, uint32_t *yes, uint32_t *age)
{
    switch (c->kind) {
    case START:
        return room_raw_vibrato_start(c->rate, c->memory, c->places, lend(c, 0, 1), lend(c, 1, 1), lend(c, 2, 1),
                                      lend(c, 3, 1));
    case RETUNE:
        return room_raw_vibrato_retune(c->rate, c->memory, c->places, lend(c, 0, 1), lend(c, 1, 1), lend(c, 2, 1),
                                       lend(c, 3, 1));
    case RESET:
        return room_raw_vibrato_reset(c->memory, c->places, lend(c, 0, 1), lend(c, 1, 1), lend(c, 2, 1), number(c, 3));
    case TICK:
        return room_raw_vibrato_tick(lend(c, 0, 1), lend(c, 1, 1), lend(c, 2, 1), number(c, 3), c->memory, c->places, c->set,
                                     c->ports[0], c->ports[1], c->ports[2], c->curves[0], c->curves[1], out, age);
    default:
        return room_raw_vibrato_silent(whole(c, 0), whole(c, 1), number(c, 2), number(c, 3), yes);
    }
}

static uint32_t chorus(const struct call *c, double *out, uint32_t *yes, uint32_t *age)
{
    switch (c->kind) {
    case START:
        return room_raw_chorus_start(c->rate, c->memory, c->places, lend(c, 0, 1), lend(c, 1, 1), lend(c, 2, 3),
                                     lend(c, 5, 1));
    case RETUNE:
        return room_raw_chorus_retune(c->rate, c->memory, c->places, lend(c, 0, 1), lend(c, 1, 1), lend(c, 2, 3),
                                      lend(c, 5, 1));
    case RESET:
        return room_raw_chorus_reset(c->memory, c->places, lend(c, 0, 1), lend(c, 1, 1), lend(c, 2, 3), number(c, 5));
    case TICK:
        return room_raw_chorus_tick(lend(c, 0, 1), lend(c, 1, 1), lend(c, 2, 3), number(c, 5), c->memory, c->places, c->set,
                                    c->ports[0], c->ports[1], c->ports[2], c->curves[0], c->curves[1], c->curves[2],
                                    c->curves[3], out, age);
    default:
        return room_raw_chorus_silent(whole(c, 0), whole(c, 1), lend(c, 2, 3), number(c, 5), yes);
    }
}

static uint32_t flanger(const struct call *c, double *out, uint32_t *yes, uint32_t *age)
{
    switch (c->kind) {
    case START:
        return room_raw_flanger_start(c->rate, c->memory, c->places, lend(c, 0, 1), lend(c, 1, 1), lend(c, 2, 1),
                                      lend(c, 3, 1));
    case RETUNE:
        return room_raw_flanger_retune(c->rate, c->memory, c->places, lend(c, 0, 1), lend(c, 1, 1), lend(c, 2, 1),
                                       lend(c, 3, 1));
    case RESET:
        return room_raw_flanger_reset(c->memory, c->places, lend(c, 0, 1), lend(c, 1, 1), lend(c, 2, 1), number(c, 3));
    case TICK:
        return room_raw_flanger_tick(lend(c, 0, 1), lend(c, 1, 1), lend(c, 2, 1), number(c, 3), c->memory, c->places, c->set,
                                     c->ports[0], c->ports[1], c->ports[2], c->ports[3], c->curves[0], c->curves[1],
                                     c->curves[2], out, age);
    default:
        return room_raw_flanger_silent(whole(c, 0), whole(c, 1), number(c, 2), number(c, 3), yes);
    }
}

static uint32_t delay(const struct call *c, double *out, uint32_t *yes, uint32_t *age)
{
    switch (c->kind) {
    case START:
        return room_raw_delay_start(c->rate, c->maximum, c->coefficient, c->linear, c->memory, c->places, lend(c, 0, 1),
                                    lend(c, 1, 1), lend(c, 2, 1), lend(c, 3, 1), lend(c, 4, 1), lend(c, 5, 1), lend(c, 6, 1),
                                    lend(c, 7, 1));
    case RETUNE:
        return room_raw_delay_retune(c->rate, c->coefficient, c->memory, c->places, lend(c, 0, 1), lend(c, 1, 1),
                                     lend(c, 2, 1), lend(c, 3, 1), lend(c, 4, 1), number(c, 5), lend(c, 6, 1), whole(c, 7));
    case RESET:
        return room_raw_delay_reset(c->memory, c->places, lend(c, 0, 1), lend(c, 1, 1), lend(c, 2, 1), number(c, 3),
                                    number(c, 4), number(c, 5), lend(c, 6, 1), whole(c, 7));
    case TICK:
        return room_raw_delay_tick(lend(c, 0, 1), lend(c, 1, 1), lend(c, 2, 1), number(c, 3), number(c, 4), number(c, 5),
                                   lend(c, 6, 1), whole(c, 7), c->memory, c->places, c->set, c->ports[0], c->ports[1],
                                   c->ports[2], c->ports[3], c->curves[0], out, age);
    default:
        return room_raw_delay_silent(whole(c, 0), whole(c, 1), number(c, 2), number(c, 3), number(c, 4), number(c, 5),
                                     whole(c, 6), whole(c, 7), yes);
    }
}

static uint32_t reverb(const struct call *c, double *out, uint32_t *yes, uint32_t *age)
{
    uint32_t *comb_l = lend(c, 0, 8), *comb_r = lend(c, 8, 8);
    uint32_t *pass_l = lend(c, 16, 4), *pass_r = lend(c, 20, 4);
    double *store_l = lend(c, 26, 8), *store_r = lend(c, 34, 8);
    (void)age;
    switch (c->kind) {
    case START:
        return room_raw_reverb_start(c->rate, c->memory, c->places, comb_l, comb_r, pass_l, pass_r, lend(c, 24, 1),
                                     lend(c, 25, 1), store_l, store_r, lend(c, 42, 1));
    case RETUNE:
        return room_raw_reverb_retune(c->rate, c->memory, c->places, comb_l, comb_r, pass_l, pass_r, lend(c, 24, 1),
                                      lend(c, 25, 1), store_l, store_r, lend(c, 42, 1));
    case RESET:
        return room_raw_reverb_reset(c->memory, c->places, comb_l, comb_r, pass_l, pass_r, lend(c, 24, 1), lend(c, 25, 1),
                                     store_l, store_r, number(c, 42));
    case TICK:
        return room_raw_reverb_tick(comb_l, comb_r, pass_l, pass_r, lend(c, 24, 1), lend(c, 25, 1), store_l, store_r,
                                    number(c, 42), c->memory, c->places, c->set, c->ports[0], c->ports[1], c->ports[2],
                                    c->ports[3], c->ports[4], out);
    default:
        return room_raw_reverb_silent(comb_l, comb_r, pass_l, pass_r, whole(c, 24), whole(c, 25), store_l, store_r,
                                      number(c, 42), yes);
    }
}

static uint32_t phaser(const struct call *c, double *out, uint32_t *yes, uint32_t *age)
{
    double *in_l = lend(c, 0, 6), *in_r = lend(c, 6, 6);
    double *out_l = lend(c, 12, 6), *out_r = lend(c, 18, 6);
    (void)age;
    switch (c->kind) {
    case START:
        return room_raw_phaser_start(c->rate, in_l, in_r, out_l, out_r, lend(c, 24, 1), lend(c, 25, 1));
    case RESET:
        return room_raw_phaser_reset(in_l, in_r, out_l, out_r, lend(c, 24, 1), number(c, 25));
    case TICK:
        return room_raw_phaser_tick(in_l, in_r, out_l, out_r, lend(c, 24, 1), number(c, 25), c->set, c->ports[0], c->ports[1],
                                    c->ports[2], c->ports[3], c->curves[0], c->curves[1], c->curves[2], out);
    default:
        return room_raw_phaser_silent(in_l, in_r, out_l, out_r, number(c, 24), number(c, 25), yes);
    }
}

static uint32_t tape(const struct call *c, double *out, uint32_t *yes, uint32_t *age)
{
    switch (c->kind) {
    case START:
        return room_raw_tape_delay_start(c->rate, c->coefficient, c->memory, c->places, lend(c, 0, 1), lend(c, 1, 1),
                                         lend(c, 2, 1), lend(c, 3, 1), lend(c, 4, 1), lend(c, 5, 1), lend(c, 6, 1),
                                         lend(c, 7, 1), lend(c, 8, 1), lend(c, 9, 1));
    case RETUNE:
        return room_raw_tape_delay_retune(c->rate, c->coefficient, c->memory, c->places, lend(c, 0, 1), lend(c, 1, 1),
                                          lend(c, 2, 1), lend(c, 3, 1), lend(c, 4, 1), lend(c, 5, 1), lend(c, 6, 1),
                                          lend(c, 7, 1), lend(c, 8, 1), lend(c, 9, 1));
    case RESET:
        return room_raw_tape_delay_reset(c->memory, c->places, lend(c, 0, 1), lend(c, 1, 1), lend(c, 2, 1), lend(c, 3, 1),
                                         lend(c, 4, 1), lend(c, 5, 1), number(c, 6), number(c, 7), lend(c, 8, 1),
                                         lend(c, 9, 1));
    case TICK:
        return room_raw_tape_delay_read_half(whole(c, 0), whole(c, 1), lend(c, 2, 1), lend(c, 3, 1), lend(c, 4, 1),
                                             lend(c, 5, 1), number(c, 6), number(c, 7), lend(c, 8, 1), lend(c, 9, 1),
                                             c->memory, c->places, c->set, c->ports[0], c->ports[1], c->ports[2],
                                             c->ports[3], out, age);
    case STORE:
        return room_raw_tape_delay_store_half(lend(c, 0, 1), lend(c, 1, 1), number(c, 2), lend(c, 3, 1), lend(c, 4, 1),
                                              lend(c, 5, 1), number(c, 6), number(c, 7), whole(c, 8), lend(c, 9, 1),
                                              c->memory, c->places, c->curves[0], out);
    default:
        return room_raw_tape_delay_silent(whole(c, 0), whole(c, 1), number(c, 2), number(c, 3), number(c, 4), number(c, 5),
                                          number(c, 6), number(c, 7), whole(c, 8), whole(c, 9), yes);
    }
}

struct answer make(const struct call *c)
{
    static uint32_t (*const effects[EFFECTS])(const struct call *, double *, uint32_t *, uint32_t *) = {
        0, delay, chorus, flanger, vibrato, tremolo, reverb, phaser, tape};
    const unsigned samples = samples_of(c->effect);
    double *out = spot(OUT_SPOT, samples * 8u, one_in(2));
    uint32_t *yes = spot(SILENT_SPOT, 4u, one_in(2));
    uint32_t *age = spot(AGE_SPOT, 4u, one_in(2));
    struct answer a = {0, {{0}}, {0}, 0, 0};
    struct call handed = *c;
    unsigned i;
    for (i = 0; i < samples; i++) {
        out[i] = UNTOUCHED;
    }
    *yes = *age = UNTOUCHED;
    if (c->places == 0u && one_in(2)) {
        handed.memory = NULL; /* as a host that has none would say it */
    }
    a.number = effects[c->effect](&handed, out, yes, age);
    take_back(c, &a.state);
    memcpy(a.out, out, samples * sizeof *out);
    a.silent = *yes;
    a.age = *age;
    return a;
}
