/* The facts of lines, positions, phases and distances, and how often each was seen to hold. */
#include "hire.h"

#include <math.h>
#include <stdio.h>
#include <string.h>

#define FACTS 64u

static struct {
    const char *name;
    uint64_t held, broken;
} facts[FACTS];

/* A fact is known by its name; each name stands in one place of the program. */
void fact(int holds, const char *name)
{
    unsigned i = 0;
    while (i < FACTS - 1u && facts[i].name != NULL && facts[i].name != name) {
        i++;
    }
    facts[i].name = name;
    facts[i].held += holds != 0;
    facts[i].broken += holds == 0;
}

int say_facts(void)
{
    unsigned i, failed = 0;
    for (i = 0; i < FACTS && facts[i].name != NULL; i++) {
        printf("%s%s: seen %llu times", facts[i].broken > 0u ? "FAILED: " : "", facts[i].name,
               (unsigned long long)(facts[i].held + facts[i].broken));
        if (facts[i].broken > 0u) {
            printf(", broken %llu times", (unsigned long long)facts[i].broken);
            failed++;
        }
        puts("");
    }
    printf("%u passed, %u failed\n", i - failed, failed);
    return failed != 0u;
}

static int same(double a, double b)
{
    return memcmp(&a, &b, sizeof a) == 0 || (isnan(a) && isnan(b));
}

int plus_zero(const double *from, uint64_t count)
{
    static const double zeros[512];
    uint64_t i;
    for (i = 0; i < count; i += 512u) {
        if (memcmp(from + i, zeros, (count - i < 512u ? count - i : 512u) * sizeof(double)) != 0) {
            return 0;
        }
    }
    return 1;
}

uint32_t nonzero(const double *from, uint64_t count)
{
    const uint64_t all_but_the_sign = UINT64_MAX >> 1;
    uint64_t i, sum = 0;
    for (i = 0; i < count; i++) {
        uint64_t bits;
        memcpy(&bits, &from[i], sizeof bits);
        sum += (bits & all_but_the_sign) != 0u;
    }
    return (uint32_t)sum;
}

/* A line read newest to oldest, at (w + L - d) mod L for d from 1 to L, beside the recent past: +0 before the clearing. */
static int line_is_past(const double *line, uint64_t length, uint32_t w, const double *past, uint64_t ticks)
{
    uint64_t d;
    for (d = 1; d <= length; d++) {
        const double should = d <= ticks ? past[(ticks - d) % PAST] : 0.0;
        const uint64_t place = d <= w ? w - d : w + length - d;
        if (!same(line[place], should)) {
            return 0;
        }
    }
    return 1;
}

/* Lengths of the reverb's lines at 192,000, by document 01, and where they lie. */
static uint64_t tank_length(unsigned line)
{
    static const uint64_t passes[] = {1499, 1499, 1484, 979, 1499, 1499, 1499, 1079};
    return line < 16u ? 4095u : line < 24u ? passes[line - 16u] : 9600u;
}

static uint64_t tank_start(unsigned line)
{
    return line < 16u ? line * 4096u : line < 24u ? 65536u + (line - 16u) * 1500u : 77536u;
}

static uint32_t tank_position(const room_reverb *state, unsigned line)
{
    return line < 8u    ? state->comb_pos_l[line]
           : line < 16u ? state->comb_pos_r[line - 8u]
           : line < 20u ? state->allpass_pos_l[line - 16u]
           : line < 24u ? state->allpass_pos_r[line - 20u]
                        : state->predelay_pos;
}

static void position_facts(const struct room *room)
{
    const uint64_t t = room->ticks;
    int good = 1;
    unsigned line;
    fact(room->delay.write_pos == t % DELAY_LENGTH && room->linear.write_pos == t % DELAY_LENGTH &&
             room->chorus.write_pos == t % CHORUS_LENGTH && room->flanger.write_pos == t % FLANGER_LENGTH &&
             room->vibrato.write_pos == t % VIBRATO_LENGTH && room->tape.write_pos == t % TAPE_LENGTH,
         "each position is the count of ticks modulo L");
    for (line = 0; line < 25u; line++) {
        good = good && tank_position(&room->reverb, line) == t % tank_length(line);
    }
    fact(good, "each of the reverb's 25 positions is the count of ticks modulo its length");
}

static int in_unit(double phase)
{
    return phase >= 0.0 && phase < 1.0;
}

static int within(const room_delay *state)
{
    return state->smoothed_delay >= 1.0 && state->smoothed_delay <= (double)(DELAY_LENGTH - 1u);
}

/* Between ticks no read waits. The newest places, more than were written since the last look, and as many that were not yet. */
static void tape_facts(const struct room *room)
{
    const room_tape_delay *s = &room->tape;
    const uint64_t t = room->ticks;
    int stored = 1, bounded = 1;
    uint64_t d;
    for (d = 1; d <= PAST && d <= t; d++) {
        const double place = room->lent[TAPE][(s->write_pos + TAPE_LENGTH - d) % TAPE_LENGTH];
        stored = stored && same(place, room->taped[(t - d) % PAST]);
        bounded = bounded && place >= -5.0 && place <= 5.0;
    }
    fact(stored, "the tape's newest places hold five times what its store halves were handed");
    fact(bounded, "these lie from -5 to 5");
    fact(t + PAST > TAPE_LENGTH || plus_zero(room->lent[TAPE] + t, PAST), "those after them, not written yet, are +0");
    fact(t == 0u || (s->delay_primed == 1u && s->smoothed_delay >= 1.0 && s->smoothed_delay <= (double)(TAPE_LENGTH - 1u)),
         "the tape's distance is 1 to L - 1");
    fact(s->waiting == 0u && plus_zero(&s->kept_audio, 1) && plus_zero(&s->kept_read, 1) && plus_zero(&s->kept_mix, 1),
         "between ticks no read of the tape waits, and what it kept is +0");
}

static void number_facts(const struct room *room)
{
    const double *phases = room->chorus.lfo_phases;
    fact(in_unit(phases[0]) && in_unit(phases[1]) && in_unit(phases[2]) && in_unit(room->flanger.lfo_phase) &&
             in_unit(room->vibrato.lfo_phase) && in_unit(room->tremolo.lfo_phase) && in_unit(room->phaser.lfo_phase),
         "each phase is at least 0 and below 1");
    fact(room->ticks == 0u || (within(&room->delay) && room->delay.delay_primed == 1u && within(&room->linear)),
         "the delays' distances are 1 to L - 1");
    tape_facts(room);
    fact(room->refused == 0u, "no tick was refused");
    fact(room->aged == room->ticks, "each tick's ages are 1 to L - 1, the delays' and the tape's those of their distances");
    fact(room->unsound == 0.0, "what plays under the input rule, but for the phaser, is finite");
}

static void spare_facts(const struct room *room)
{
    int good = 1;
    unsigned i;
    for (i = 0; i < LINED; i++) {
        good = good && plus_zero(room->lent[i] + room->places[i] - SPARE, SPARE);
    }
    fact(good, "spare places are +0");
    for (good = 1, i = 0; i < 25u; i++) {
        const uint64_t end = i < 24u ? tank_start(i + 1u) : TANK;
        const uint64_t unused = tank_start(i) + tank_length(i);
        good = good && plus_zero(room->lent[REVERB] + unused, end - unused);
    }
    fact(good, "places of the tank that are not in use are +0");
}

void line_facts(const struct room *room)
{
    const uint64_t t = room->ticks;
    fact(line_is_past(room->lent[CHORUS], CHORUS_LENGTH, room->chorus.write_pos, room->heard, t),
         "the chorus's line is the recent past under the input rule");
    fact(line_is_past(room->lent[VIBRATO], VIBRATO_LENGTH, room->vibrato.write_pos, room->past, t),
         "the vibrato's line is the recent past");
    fact(line_is_past(room->lent[REVERB] + tank_start(24), tank_length(24), room->reverb.predelay_pos, room->heard, t),
         "the reverb's predelay is the recent past under the input rule");
    position_facts(room);
    number_facts(room);
    spare_facts(room);
}

/* Of the reverb's tank the lines alone are in use, of the others' memory all but the spare places. */
static uint32_t nonzero_in_use(const struct room *room, unsigned unit)
{
    uint32_t sum = 0;
    unsigned line;
    if (unit != REVERB) {
        return nonzero(room->lent[unit], room->places[unit] - SPARE);
    }
    for (line = 0; line < 25u; line++) {
        sum += nonzero(room->lent[REVERB] + tank_start(line), tank_length(line));
    }
    return sum;
}

void count_facts(const struct room *room)
{
    const room_reverb *r = &room->reverb;
    const int stores = nonzero(r->comb_filter_state_l, 8) + nonzero(r->comb_filter_state_r, 8) != 0u;
    int yes[LINED] = {0}, counted = 1, answered = 1;
    unsigned i;
    ask_units(room, yes);
    for (i = 0; i < LINED; i++) {
        const uint32_t reading = nonzero_in_use(room, i);
        const int sounds = reading != 0u || (i == REVERB && stores) || (i == TAPE && room->tape.waiting != 0u);
        counted = counted && room_count(room, i) == reading;
        answered = answered && yes[i] == !sounds;
    }
    fact(counted, "each unit's count is how many of its places in use are neither +0 nor -0");
    fact(answered, "each unit's question is answered as these places, stores and waiting read say");
}

static int counts_zero(const struct room *room)
{
    unsigned i;
    for (i = 0; i < LINED && room_count(room, i) == 0u; i++) {
    }
    return i == LINED;
}

static int delay_cleared(const room_delay *s)
{
    return s->write_pos == 0u && plus_zero(&s->smoothed_delay, 1) && s->delay_primed == 0u && s->sample_rate == RATE &&
           s->max_delay_secs == MAXIMUM;
}

void cleared_facts(const struct room *room)
{
    const double *phases = room->chorus.lfo_phases;
    int good = 1;
    unsigned i;
    for (i = 0; i < LINED; i++) {
        good = good && plus_zero(room->lent[i], room->places[i]);
    }
    fact(good, "after a reset every place is +0, spare ones too");
    fact(counts_zero(room), "after a reset each count is 0");
    fact(delay_cleared(&room->delay) && delay_cleared(&room->linear) && room->delay.linear_time == 0u &&
             room->linear.linear_time == 1u && plus_zero(&room->tape.smoothed_delay, 1) && room->tape.delay_primed == 0u,
         "after a reset the delays are not primed, their distances +0");
    fact(plus_zero(phases, 1) && phases[1] == 0.33 && phases[2] == 0.67 && plus_zero(&room->flanger.lfo_phase, 1) &&
             plus_zero(&room->vibrato.lfo_phase, 1) && plus_zero(&room->tremolo.lfo_phase, 1) &&
             plus_zero(&room->phaser.lfo_phase, 1),
         "after a reset the phases are those of a start");
    fact(plus_zero(room->reverb.comb_filter_state_l, 8) && plus_zero(room->reverb.comb_filter_state_r, 8),
         "after a reset the damping stores are +0");
    fact(plus_zero(room->phaser.allpass_x1_l, 6) && plus_zero(room->phaser.allpass_x1_r, 6) &&
             plus_zero(room->phaser.allpass_y1_l, 6) && plus_zero(room->phaser.allpass_y1_r, 6),
         "after a reset the phaser's last inputs and outputs are +0");
    line_facts(room);
    count_facts(room);
}
