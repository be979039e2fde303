/* Document 01: lengths, places needed, the state test, and the table of refusals with its orders. Of document 02, A.1, A.4, A.6
   and A.8. */
#include "hostile.h"

#include <string.h>

const char *const effect_names[EFFECTS] = {"",        "delay",  "chorus", "flanger", "vibrato",
                                           "tremolo", "reverb", "phaser", "tape"};

const char *call_name(int effect, int kind)
{
    static const char *const names[CALLS] = {"start", "retune", "reset", "tick", "silent", "store"};
    return effect == TAPE && kind == TICK ? "read" : names[kind];
}

/* The reverb: the positions of its lines; the count; stores, left and right; rate. The phaser: last inputs, left and right; last outputs,
   left and right; phase; rate. */
const char *const state_words[EFFECTS] = {
    "", "wndrcmfl", "wnpppr", "wnpr", "wnpr", "pr", "wwwwwwwwwwwwwwwwwwwwwwwwwnssssssssssssssssr", "sssssssssssssssssssssssspr",
    "wndkkkrcfq"};

unsigned words_of(int effect)
{
    return (unsigned)strlen(state_words[effect]);
}

unsigned word_of(int effect, char letter)
{
    return (unsigned)(strchr(state_words[effect], letter) - state_words[effect]);
}

uint64_t value_of(int effect, const struct state *state, char letter)
{
    return state->word[word_of(effect, letter)];
}

double rate_of(int effect, const struct state *state)
{
    return of_bits(value_of(effect, state, 'r'));
}

double maximum_of(int effect, const struct state *state)
{
    return effect == DELAY ? of_bits(value_of(DELAY, state, 'm')) : 0.0;
}

int is_position(int effect, unsigned word)
{
    return state_words[effect][word] == 'w';
}

int is_count(int effect, unsigned word)
{
    return state_words[effect][word] == 'n';
}

int is_flag(int effect, unsigned word)
{
    return strchr("fql", state_words[effect][word]) != NULL;
}

int has_coefficient(int effect)
{
    return effect == DELAY || effect == TAPE;
}

int read_waits(int effect, const struct state *state)
{
    return effect == TAPE && value_of(TAPE, state, 'q') != 0u;
}

int plays_samples(const struct call *c)
{
    return c->kind == TICK || c->kind == STORE;
}

/* 1: "sample rate NaN or outside 8,000 to 192,000"; a NaN compares as neither. */
int rate_holds(double rate)
{
    return rate >= 8000.0 && rate <= 192000.0;
}

/* 2: "glide coefficient NaN or outside 0 <= c < 1" */
static int coefficient_holds(double c)
{
    return c >= 0.0 && c < 1.0;
}

/* "not finite means 2.0, else clamped to 0.001 to 60" */
double held_maximum(double maximum)
{
    return is_finite(maximum) ? clamped(maximum, 0.001, 60.0) : 2.0;
}

/* "the whole part of rate x maximum, plus 1 (delay), or of n x rate / 1000, plus 10 (n is 32 for chorus, 10 flanger, 20
   vibrato)"; of the tape delay "maximum 12 seconds"; at a rate that is accepted. */
uint64_t line_length(int effect, double rate, double maximum)
{
    switch (effect) {
    case DELAY:
        return (uint64_t)(rate * maximum) + 1u;
    case CHORUS:
        return (uint64_t)(32.0 * rate / 1000.0) + 10u;
    case FLANGER:
        return (uint64_t)(10.0 * rate / 1000.0) + 10u;
    case VIBRATO:
        return (uint64_t)(20.0 * rate / 1000.0) + 10u;
    case TAPE:
        return (uint64_t)(rate * 12.0) + 1u;
    default:
        return 0;
    }
}

/* Of the chorus document 02 says: "Keep one line of L places and let the three voices read it." Of the phaser: "It has no
   retune and no lent lines; to the controller it is effect 7, with 0 places." */
unsigned lines_of(int effect)
{
    static const unsigned lines[EFFECTS] = {0, 1, 1, 2, 1, 0, TANK_LINES, 0, 1};
    return lines[effect];
}

/* "A refused rate or another effect number gives 2 to the power 64 minus 1." The maximum is one that is held. */
uint64_t needed(int effect, double rate, double maximum)
{
    if (effect < DELAY || effect > TAPE || !rate_holds(rate)) {
        return UINT64_MAX;
    }
    return effect == REVERB ? 87136u : lines_of(effect) * line_length(effect, rate, maximum);
}

/* At a rate that is accepted. A maximum that no state may have is held, so that there is a length. */
uint64_t length_at(int effect, const struct state *state, unsigned position)
{
    const double rate = rate_of(effect, state);
    return effect == REVERB ? tank_length(position, rate) : line_length(effect, rate, held_maximum(maximum_of(effect, state)));
}

/* "every place in use of the unit's lines": of the reverb as many as its lines are long, of the others all that it needs. */
uint64_t places_in_use(int effect, const struct state *state)
{
    uint64_t sum = 0;
    unsigned line;
    for (line = 0; line < lines_of(effect); line++) {
        sum += length_at(effect, state, line);
    }
    return sum;
}

/* "for the delay also coefficient as in 2, maximum 0.001 to 60, glide distance +0 while unprimed, else 1 to L - 1" */
static int glide_passes(int effect, const struct state *state)
{
    const double distance = of_bits(value_of(effect, state, 'd'));
    const double maximum = maximum_of(effect, state);
    if (!coefficient_holds(of_bits(value_of(effect, state, 'c'))) ||
        (effect == DELAY && !(maximum >= 0.001 && maximum <= 60.0))) {
        return 0;
    }
    if (value_of(effect, state, 'f') == 0u) {
        return same(distance, 0.0);
    }
    return distance >= 1.0 && distance <= (double)(line_length(effect, rate_of(effect, state), maximum) - 1u);
}

/* "Number 4 also names a waiting mix that is NaN or outside 0 to 1, or a kept number not +0 while none waits." */
static int kept_passes(const struct state *state)
{
    const uint64_t *kept = &state->word[word_of(TAPE, 'k')];
    if (read_waits(TAPE, state)) {
        return of_bits(kept[2]) >= 0.0 && of_bits(kept[2]) <= 1.0;
    }
    return same(of_bits(kept[0]), 0.0) && same(of_bits(kept[1]), 0.0) && same(of_bits(kept[2]), 0.0);
}

/* "Number 4 also names a count above the places in use." */
int state_passes(int effect, const struct state *state)
{
    unsigned i;
    if (!rate_holds(rate_of(effect, state)) || (has_coefficient(effect) && !glide_passes(effect, state)) ||
        (effect == TAPE && !kept_passes(state))) {
        return 0;
    }
    for (i = 0; i < words_of(effect); i++) {
        const double x = of_bits(state->word[i]);
        if (is_position(effect, i) && state->word[i] >= length_at(effect, state, i)) {
            return 0;
        }
        if (is_count(effect, i) && state->word[i] > places_in_use(effect, state)) {
            return 0;
        }
        if (state_words[effect][i] == 'p' && !(x >= 0.0 && x < 1.0)) {
            return 0;
        }
    }
    return 1;
}

/* 3: the rate is the call's own for a start and a retune, the state's for the others. */
static int memory_holds(const struct call *c)
{
    const int anew = c->kind == START || c->kind == RETUNE;
    const double rate = anew ? c->rate : rate_of(c->effect, &c->state);
    const double maximum = c->kind == START ? held_maximum(c->maximum) : maximum_of(c->effect, &c->state);
    return c->places >= needed(c->effect, rate, maximum);
}

/* 7: "a store half with no read waiting, or a read half while one waits" */
static int turn_holds(const struct call *c)
{
    return c->effect != TAPE || read_waits(TAPE, &c->state) == (c->kind == STORE);
}

/* 5: "a control read by this tick is set and NaN". The audio, port 0, is none; the delay's time is read in linear mode. A store
   half has no ports. */
static int controls_hold(const struct call *c)
{
    unsigned i;
    for (i = 1; c->kind == TICK && i < ports_of(c->effect); i++) {
        const int read = !(c->effect == DELAY && i == 1u && value_of(DELAY, &c->state, 'l') == 0u);
        if (read && (c->set >> i & 1u) != 0u && is_nan(c->ports[i])) {
            return 0;
        }
    }
    return 1;
}

/* 6: "curve number NaN, a sine outside -1 to 1, a frequency outside 0 to 32", and by document 02 "a coefficient outside -1 to
   1" and "a saturated value NaN or outside -1 to 1", which a store half alone has. The delay's is milliseconds, for exponential
   mode alone; of the others the first is the frequency. */
static int curves_hold(const struct call *c)
{
    unsigned i;
    if (c->effect == TAPE) {
        return c->kind != STORE || (c->curves[0] >= -1.0 && c->curves[0] <= 1.0);
    }
    if (c->effect == DELAY) {
        return value_of(DELAY, &c->state, 'l') != 0u || !is_nan(c->curves[0]);
    }
    for (i = 0; i < curves_of(c->effect); i++) {
        const double low = i == 0u ? 0.0 : -1.0;
        const double high = i == 0u ? 32.0 : 1.0;
        if (!(c->curves[i] >= low && c->curves[i] <= high)) {
            return 0;
        }
    }
    return 1;
}

/* "Order: start 1, 2, 3; retune 4, 1, 2, 3; reset and silent 4, 3; tick 4, 3, 5, 6. The first that applies is given"; of 7 "it
   comes after 4 and before 3"; and by document 02 "silent takes no memory and gives no 3". */
uint32_t number_for(const struct call *c)
{
    static const char *const orders[CALLS] = {"123", "4123", "43", "47356", "4", "47356"};
    const char *cause;
    for (cause = orders[c->kind]; *cause != '\0'; cause++) {
        const int holds = *cause == '1'   ? rate_holds(c->rate)
                          : *cause == '2' ? !has_coefficient(c->effect) || coefficient_holds(c->coefficient)
                          : *cause == '3' ? memory_holds(c)
                          : *cause == '4' ? state_passes(c->effect, &c->state)
                          : *cause == '5' ? controls_hold(c)
                          : *cause == '7' ? turn_holds(c)
                                          : curves_hold(c);
        if (!holds) {
            return (uint32_t)(*cause - '0');
        }
    }
    return 0;
}
