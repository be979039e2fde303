/* Draws units and calls: most calls could be a host's, in a chain; of the others one thing or several are wrong. */
#include "hostile.h"

/* The tape delay's line is long at every rate: high ones are rare. */
static double unit_rate(int effect)
{
    double rate = good_rate();
    while (effect == TAPE && rate > 12000.0 && !one_in(40)) {
        rate = good_rate();
    }
    return rate;
}

/* A unit has no state yet: its first call is a start. Memory enough for one at some rate, and a long line if so asked. */
struct unit draw_unit(int effect, int long_line)
{
    struct unit unit = {0, {{0}}, 0, 0, 0, 0};
    const uint64_t places = long_line ? 11520001u : needed(effect, unit_rate(effect), good_maximum());
    unit.effect = effect;
    unit.arena = arena_for(places + below(20));
    if (unit.arena->places <= 20480u) {
        fill_arena(unit.arena);
    }
    unit.memory = unit.arena->first;
    return unit;
}

/* So many places of the arena, close to one of its guard pages. */
static void lend_places(struct call *c, const struct arena *arena, uint64_t places)
{
    c->places = places < arena->places ? places : arena->places;
    c->memory = one_in(2) ? arena->first : arena->first + (arena->places - c->places);
}

/* Enough places where the arena has them: just as many, one more, some more, all. */
static void lend_enough(struct call *c, const struct arena *arena, uint64_t need)
{
    const uint64_t more = need < arena->places ? arena->places - need : 0u;
    switch (below(4)) {
    case 0:
        lend_places(c, arena, need + 1u);
        break;
    case 1:
        lend_places(c, arena, need + below(more + 1u));
        break;
    case 2:
        lend_places(c, arena, one_in(4) ? arena->places : need);
        break;
    default:
        lend_places(c, arena, need);
    }
}

/* None, one, one short, or fewer. */
static void lend_too_few(struct call *c, const struct arena *arena, uint64_t need)
{
    switch (below(4)) {
    case 0:
        lend_places(c, arena, 0);
        break;
    case 1:
        lend_places(c, arena, 1);
        break;
    case 2:
        lend_places(c, arena, below(need == 0u ? 1u : need < arena->places ? need : arena->places));
        break;
    default:
        lend_places(c, arena, need == 0u ? 0u : need - 1u);
    }
}

/* The places that a call needs if nothing else is wrong with it. */
uint64_t call_needs(const struct call *c)
{
    const int anew = c->kind == START || c->kind == RETUNE;
    const double rate = anew ? c->rate : rate_of(c->effect, &c->state);
    return needed(c->effect, rate, held_maximum(c->kind == START ? c->maximum : maximum_of(c->effect, &c->state)));
}

/* A number for a port: mostly within the controls' ranges or a little beyond, NaN never. */
static double control(void)
{
    double x;
    switch (below(8)) {
    case 0:
        x = any_float();
        return is_nan(x) ? -0.0 : x;
    case 1:
        return one_in(2) ? 0.0 : 1.0;
    default:
        return from_to(-0.2, 1.2);
    }
}

/* The audio may be any float; from -1 to 1 most of the time, so that lines that feed back are not full of NaN at once. */
static double audio(void)
{
    return one_in(12) ? any_float() : one_in(3) ? 0.0 : from_to(-1.0, 1.0);
}

/* What a tape delay's controls are clamped to is more: seconds up to 12, a feedback up to 1.5. */
static double widened(const struct call *c, unsigned which, double x)
{
    static const double widths[PORTS] = {1.0, 12.0, 1.5, 1.0, 1.0};
    return c->effect == TAPE && !one_in(8) ? x * widths[which] : x;
}

/* -1 to 1, the ends and the floats next to them among them. */
static double saturated(void)
{
    const double at_an_end = of_bits(bits(1.0) - below(3));
    return !one_in(4) ? from_to(-1.0, 1.0) : one_in(3) ? (one_in(2) ? 0.0 : -0.0) : one_in(2) ? at_an_end : -at_an_end;
}

/* Milliseconds up to the maximum and beyond; any but NaN. */
static double milliseconds(const struct call *c)
{
    const double x = one_in(6) ? any_float() : from_to(-1.0, 1100.0) * held_maximum(maximum_of(DELAY, &c->state));
    return is_nan(x) ? 1.0 : x;
}

static double curve(const struct call *c, unsigned which)
{
    static const double ends[] = {1.0, -1.0, 0.0, -0.0};
    if (c->effect == DELAY) {
        return milliseconds(c);
    }
    if (c->effect == TAPE) {
        return saturated();
    }
    if (which == 0u) {
        return one_in(6) ? 32.0 : one_in(6) ? of_bits(any_bits() & UINT64_C(0x8000000000000000)) : from_to(0.0, 32.0);
    }
    return one_in(4) ? ends[below(COUNT(ends))] : from_to(-1.0, 1.0);
}

/* Ports that are not set hold anything, and the mask's bits beyond the ports are anything. */
static void draw_tick(struct call *c)
{
    unsigned i;
    c->set = (uint32_t)any_bits() | (one_in(2) ? 0x1fu : 0u);
    for (i = 0; i < PORTS; i++) {
        const int set = (c->set >> i & 1u) != 0u;
        c->ports[i] = !set ? any_float() : i == 0u ? audio() : widened(c, i, control());
    }
    for (i = 0; i < CURVES; i++) {
        c->curves[i] = curve(c, i);
    }
}

/* A rate at which the arena is large enough, if one comes up soon. In the arena for long lines the longest is usual. */
static void draw_settings(struct call *c, const struct arena *arena)
{
    const int long_line = arena->places >= 11520001u;
    unsigned tries = 4;
    do {
        c->rate = long_line && !one_in(4) ? 192000.0 : good_rate();
        c->maximum = long_line ? from_to(59.9, 62.0) : one_in(12) ? any_float() : good_maximum();
        c->coefficient = good_coefficient();
        c->linear = one_in(2) ? 0u : one_in(2) ? 1u : (uint32_t)any_bits();
        tries--;
    } while (tries > 0u && call_needs(c) > arena->places);
}

/* Positions at the length and around it, at the top bit, at the end of 32 bits, and anywhere. */
static uint32_t wrong_position(const struct call *c, unsigned word)
{
    const int has_length = rate_holds(rate_of(c->effect, &c->state));
    const uint32_t length = has_length ? (uint32_t)length_at(c->effect, &c->state, word) : 4096u;
    switch (below(6)) {
    case 0:
        return (uint32_t)any_bits() >> below(32);
    case 1:
        return (uint32_t)below(length);
    case 2:
        return (UINT32_C(1) << 31) + (one_in(2) ? 0u : (uint32_t)below(length));
    case 3:
        return UINT32_MAX - (one_in(4) ? (uint32_t)below(length) : 0u);
    default:
        return length + (uint32_t)below(3) - 1u;
    }
}

/* Counts at both ends and around them, at the end of 32 bits, and anywhere. */
static uint32_t wrong_count(const struct call *c)
{
    const int has_length = rate_holds(rate_of(c->effect, &c->state));
    const uint32_t all = has_length ? (uint32_t)places_in_use(c->effect, &c->state) : 4096u;
    switch (below(6)) {
    case 0:
        return (uint32_t)any_bits() >> below(32);
    case 1:
        return all + 1u;
    case 2:
        return UINT32_MAX - (one_in(4) ? (uint32_t)below(all) : 0u);
    case 3:
        return (uint32_t)below(2);
    default:
        return all + (uint32_t)below(5) - 2u;
    }
}

/* Distances at the line's end and at 1, of either sign, and anywhere. */
static double wrong_distance(const struct call *c)
{
    const double length = rate_holds(rate_of(c->effect, &c->state)) ? (double)length_at(c->effect, &c->state, 0) : 9.0;
    switch (below(4)) {
    case 0:
        return near(length - 1.0);
    case 1:
        return near(1.0);
    case 2:
        return from_to(0.0, length);
    default:
        return any_float();
    }
}

/* Zeros of either sign, the ends of a mix, and anything. */
static double wrong_kept(void)
{
    switch (below(4)) {
    case 0:
        return one_in(2) ? 0.0 : -0.0;
    case 1:
        return near(1.0);
    case 2:
        return of_bits((one_in(2) ? UINT64_C(1) << 63 : 0u) | below(3));
    default:
        return any_float();
    }
}

static void set_wrong_word(struct call *c, unsigned word)
{
    const char letter = state_words[c->effect][word];
    if (is_position(c->effect, word)) {
        c->state.word[word] = wrong_position(c, word);
    } else if (is_count(c->effect, word)) {
        c->state.word[word] = wrong_count(c);
    } else if (letter == 'k') {
        c->state.word[word] = bits(wrong_kept());
    } else if (is_flag(c->effect, word)) {
        c->state.word[word] = one_in(3) ? 0u : (uint32_t)(any_bits() >> below(64));
    } else {
        c->state.word[word] = bits(letter == 'd' ? wrong_distance(c) : letter == 'r' && one_in(2) ? good_rate() : any_float());
    }
}

/* One argument made wrong, or at least other. */
static void set_wrong_argument(struct call *c, const struct arena *arena)
{
    switch (below(5)) {
    case 0:
        set_wrong_word(c, (unsigned)below(words_of(c->effect)));
        break;
    case 1:
        lend_too_few(c, arena, call_needs(c));
        break;
    case 2:
        c->ports[below(PORTS)] = one_in(2) ? any_nan() : any_float();
        c->rate = any_float();
        break;
    case 3:
        c->curves[below(c->effect == TAPE ? 1u : CURVES)] = one_in(3) ? any_nan() : one_in(3) ? near(1.0) : any_float();
        c->coefficient = any_float();
        break;
    default:
        c->rate = near(one_in(2) ? 8000.0 : 192000.0);
        c->coefficient = near(1.0);
        c->maximum = any_float();
    }
}

/* Every word of the state anything; or a state at another rate, whose positions and phases may or may not do there. */
static void draw_state(struct call *c)
{
    unsigned i;
    for (i = 0; i < words_of(c->effect); i++) {
        set_wrong_word(c, i);
    }
    if (one_in(2)) {
        c->state.word[word_of(c->effect, 'r')] = bits(good_rate());
    }
}

/* A count that passes the state test and need not be the memory's: none, one, all places in use, all but one, any. */
static void draw_count(struct call *c)
{
    const uint64_t all = rate_holds(rate_of(c->effect, &c->state)) ? places_in_use(c->effect, &c->state) : 1u;
    const uint64_t counts[] = {0u, 0u, 1u, all, all - 1u, below(all + 1u)};
    c->state.word[word_of(c->effect, 'n')] = counts[below(COUNT(counts))];
}

/* A state of a tape delay in which a read waits, with any floats kept and a mix of 0 to 1. */
static void draw_waiting(struct call *c)
{
    const double mixes[] = {0.0, -0.0, 1.0, of_bits(1u), of_bits(bits(1.0) - 1u), from_to(0.0, 1.0)};
    uint64_t *kept = &c->state.word[word_of(TAPE, 'k')];
    c->state.word[word_of(TAPE, 'q')] = one_in(2) ? 1u : (uint32_t)any_bits() | 2u;
    kept[0] = bits(any_float());
    kept[1] = bits(any_float());
    kept[2] = bits(mixes[below(COUNT(mixes))]);
}

/* A half of the tape delay in its turn or, now and then, out of it. */
static int draw_half(const struct state *state)
{
    return read_waits(TAPE, state) == one_in(12) ? TICK : STORE;
}

/* Clearings of long memories take long, and stand back. */
static int draw_kind(const struct unit *unit)
{
    const uint64_t rarer = unit->arena->places > 100000u ? 8u : unit->arena->places > 20480u ? 4u : 1u;
    if (!state_passes(unit->effect, &unit->state) && !one_in(8)) {
        return START;
    }
    if (one_in(10)) {
        return SILENT;
    }
    if (one_in(6u * rarer)) {
        const int kind = (int)below(3);
        return kind == RETUNE && lines_of(unit->effect) == 0u ? START : kind;
    }
    return TICK;
}

struct call draw_call(const struct unit *unit)
{
    struct call c = {0};
    uint64_t wrong = one_in(3) ? 1u + below(3) : 0u;
    c.effect = unit->effect;
    c.kind = draw_kind(unit);
    c.state = unit->state;
    c.memory = unit->memory;
    c.places = unit->places;
    draw_settings(&c, unit->arena);
    draw_tick(&c);
    if (one_in(30)) {
        draw_state(&c);
    }
    if (c.effect == TAPE && one_in(5)) {
        draw_waiting(&c);
    }
    if (lines_of(c.effect) > 0u && one_in(12)) {
        draw_count(&c);
    }
    if (c.effect == TAPE && c.kind == TICK) {
        c.kind = draw_half(&c.state);
    }
    if (c.kind <= RESET || one_in(8)) {
        lend_enough(&c, unit->arena, call_needs(&c));
    }
    for (; wrong > 0u; wrong--) {
        set_wrong_argument(&c, unit->arena);
    }
    c.places = lines_of(unit->effect) == 0u ? 0u : c.places; /* it is lent none */
    return c;
}
