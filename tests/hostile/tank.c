/* Document 01: the reverb's tank, its lengths and its tick. */
#include "hostile.h"

#include <math.h>

/* "The tank lies as eight left combs of 4,096 places, eight right, four left all-passes of 1,500, four right, predelay
   9,600" */
uint64_t tank_start(unsigned line)
{
    return line < 16u ? line * 4096u : 16u * 4096u + (line - 16u) * 1500u;
}

/* "Each is multiplied by rate/44100 and cut to its whole part, at most 4,095 and 1,499. Spread: 23 x ratio rounded half away
   from zero, at least 1; right lengths are left plus spread, under the same caps." */
uint64_t tank_length(unsigned line, double rate)
{
    static const double combs[] = {1116, 1188, 1277, 1356, 1422, 1491, 1557, 1617};
    static const double passes[] = {556, 441, 341, 225};
    const double ratio = rate / 44100.0;
    const int comb = line < 16u;
    const int right = comb ? line >= 8u : line >= 20u;
    const uint64_t most = comb ? 4095u : 1499u;
    uint64_t length, spread;
    if (line == 24u) {
        return 9600u;
    }
    length = (uint64_t)((comb ? combs[line % 8u] : passes[line % 4u]) * ratio);
    length = length < most ? length : most;
    spread = (uint64_t)round(23.0 * ratio);
    length += right ? (spread > 1u ? spread : 1u) : 0u;
    return length < most ? length : most;
}

/* The place of a line's position. */
static uint64_t place_of(const struct call *c, unsigned line)
{
    return tank_start(line) + c->state.word[line];
}

/* One write of a line, and its position one on. */
static void write_line(struct ticked *t, const struct call *c, unsigned line, double value)
{
    t->place[t->writes] = place_of(c, line);
    t->value[t->writes] = value;
    t->writes++;
    t->state.word[line] = (c->state.word[line] + 1u) % length_at(REVERB, &c->state, line);
}

/* "it writes the audio first, and a delay of 0 passes the audio itself" */
static double predelayed(struct ticked *t, const struct call *c, double audio)
{
    const double control = clamped(port(c, 4, 0.0), 0.0, 1.0);
    const uint64_t whole = (uint64_t)(control * 0.1 * rate_of(REVERB, &c->state));
    const uint64_t back = whole < 9599u ? whole : 9599u;
    write_line(t, c, 24, audio);
    return back == 0u ? audio : c->memory[tank_start(24) + (c->state.word[24] + 9600u - back) % 9600u];
}

/* A side's combs: "answer the place; store = answer x (1 - damping) + store x damping; write input + store x feedback" */
static double combed(struct ticked *t, const struct call *c, unsigned first, double input)
{
    const double feedback = 0.28 + clamped(port(c, 1, 0.5), 0.0, 1.0) * 0.7;
    const double damping = clamped(port(c, 2, 0.5), 0.0, 1.0) * 0.4;
    const unsigned stores = word_of(REVERB, 's');
    double sum = 0.0;
    unsigned i;
    for (i = first; i < first + 8u; i++) {
        const double answer = c->memory[place_of(c, i)];
        const double store = answer * (1.0 - damping) + of_bits(c->state.word[stores + i]) * damping;
        t->state.word[stores + i] = bits(store);
        write_line(t, c, i, input + store * feedback);
        sum = sum + answer;
    }
    return sum * 0.125;
}

/* A side's all-passes: "answer -input + place; write input + place x 0.5" */
static double passed(struct ticked *t, const struct call *c, unsigned first, double input)
{
    unsigned i;
    for (i = first; i < first + 4u; i++) {
        const double held = c->memory[place_of(c, i)];
        write_line(t, c, i, input + held * 0.5);
        input = -input + held;
    }
    return input;
}

void reverb_tick(struct ticked *t, const struct call *c)
{
    const double audio = input_rule(port(c, 0, 0.0));
    const double mix = clamped(port(c, 3, 0.5), 0.0, 1.0);
    const double input = predelayed(t, c, audio);
    t->out[0] = blended(audio, passed(t, c, 16, combed(t, c, 0, input)), mix);
    t->out[1] = blended(audio, passed(t, c, 20, combed(t, c, 8, input)), mix);
}
