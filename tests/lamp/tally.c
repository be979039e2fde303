/* The facts, how often each was seen to hold of each effect, and what the calls reached. */
#include "lamp.h"

#include <stdio.h>

/* So many of what went wrong are shown. */
#define SHOWN 20u

static const char *const effect_names[EFFECTS_END] = {"",        "delay",  "chorus", "flanger", "vibrato",
                                                      "tremolo", "reverb", "phaser", "tape"};
static const char *const fact_names[FACTS] = {
    "a unit that was made silent says so",
    "a tick with accepted controls is accepted",
    "a tick of a silent unit with zero audio answers only zeros",
    "the unit is silent after it",
    "a clearing in between is accepted and leaves the unit silent",
    "a refused call gives its number, plays +0 at age 0, changes nothing and leaves the unit silent",
    "at the end places in use and stores hold zeros",
    "with a sound in one of them the unit is not silent",
    "while a read waits the unit is not silent",
    "the answer is what places in use, stores and a waiting read say",
};

static struct {
    uint64_t held[FACTS], broken[FACTS];
    uint64_t by_way[WAYS], by_audio[AUDIOS], by_sign[2], by_number[8], by_fade[2];
} tally[EFFECTS_END];
static unsigned broken;

static void show(const struct unit *u, enum fact which, const struct effect_call *c)
{
    unsigned i;
    printf("FAILED: %s: %s\n  rate %a, maximum %a, coefficient %a, linear %u, %llu places\n", effect_names[u->effect],
           fact_names[which], u->rate, u->maximum, u->coefficient, (unsigned)u->linear, (unsigned long long)u->places);
    if (c == NULL) {
        return;
    }
    printf("  call %d, ports", c->call);
    for (i = 0; i < effect_ports(u->effect); i++) {
        printf(c->ports[i].set ? " %a" : " (%a)", c->ports[i].value);
    }
    printf("; curve numbers %a %a %a %a\n", c->curves[0], c->curves[1], c->curves[2], c->curves[3]);
}

int fact(const struct unit *u, enum fact which, int holds, const struct effect_call *c)
{
    tally[u->effect].held[which] += holds != 0;
    tally[u->effect].broken[which] += holds == 0;
    broken += holds == 0;
    if (!holds && broken <= SHOWN) {
        show(u, which, c);
    }
    return holds;
}

unsigned facts_broken(void)
{
    return broken;
}

void count_tick(const struct unit *u, enum way way, enum audio audio)
{
    tally[u->effect].by_way[way]++;
    tally[u->effect].by_audio[audio]++;
}

void count_samples(const struct unit *u, const double *out)
{
    unsigned i;
    for (i = 0; i < effect_samples(u->effect); i++) {
        tally[u->effect].by_sign[0] += same(out[i], 0.0) != 0;
        tally[u->effect].by_sign[1] += same(out[i], -0.0) != 0;
    }
}

void count_refusal(int effect, uint32_t number)
{
    tally[effect].by_number[number]++;
}

void count_fade(const struct unit *u, int silent)
{
    tally[u->effect].by_fade[silent != 0]++;
}

static void print_counts(const char *name, const uint64_t *counts, unsigned count)
{
    unsigned i;
    printf("  %-8s", name);
    for (i = 0; i < count; i++) {
        printf(" %9llu", (unsigned long long)counts[i]);
    }
}

static void print_tables(void)
{
    int effect;
    printf("ticks     %9s %9s %9s %9s   with %5s %9s %9s %9s %9s %9s\n", "started", "reset", "retuned", "handed in", "unset",
           "+0", "-0", "NaN", "infinity", "-infinity");
    for (effect = ROOM_DELAY; effect < EFFECTS_END; effect++) {
        print_counts(effect_names[effect], tally[effect].by_way, WAYS);
        print_counts("", tally[effect].by_audio, AUDIOS);
        puts("");
    }
    printf("samples   %9s %9s   refused %2s %9s %9s %9s %9s %9s %9s   fade %4s %9s\n", "+0", "-0", "by 1", "by 2", "by 3",
           "by 4", "by 5", "by 6", "by 7", "not", "to silent");
    for (effect = ROOM_DELAY; effect < EFFECTS_END; effect++) {
        print_counts(effect_names[effect], tally[effect].by_sign, 2);
        print_counts("", tally[effect].by_number + 1, 7);
        print_counts("", tally[effect].by_fade, 2);
        puts("");
    }
}

/* The effects whose lines have no feedback are silent again once they have gone round. */
static int fades(int effect)
{
    return effect == ROOM_CHORUS || effect == ROOM_VIBRATO || effect == ROOM_TREMOLO;
}

/* A fact that was seen and never broken, and what every effect must have come to. */
static void check_effect(int effect)
{
    const unsigned e = (unsigned)effect;
    unsigned i;
    for (i = 0; i < FACTS; i++) {
        const int has = i == WAITS ? effect == ROOM_TAPE_DELAY : i != SOUNDS || effect != ROOM_TREMOLO;
        check((tally[e].held[i] > 0u) == has && tally[e].broken[i] == 0u, fact_names[i], e);
    }
    for (i = 0; i < WAYS; i++) {
        check((tally[e].by_way[i] > 0u) == (i != WAS_RETUNED || effect_has(effect, RETUNE)), "ticks of each way", 10u * e + i);
    }
    for (i = 0; i < AUDIOS; i++) {
        check((tally[e].by_audio[i] > 0u) == (i < zero_audios(effect)), "ticks of each zero audio", 10u * e + i);
    }
    check(tally[e].by_sign[0] > 0u, "samples of +0", e);
    check(tally[e].by_sign[1] > 0u, "samples of -0", e);
    check(tally[e].by_fade[0] > 0u || effect == ROOM_TREMOLO, "runs that still sound some ticks after a sound", e);
    check(tally[e].by_fade[1] > 0u || !fades(effect), "runs that fall silent after a sound", e);
    for (i = 1; i <= 7u; i++) {
        const int can = effect_can_refuse(effect, i) && (i != 1u || effect_has(effect, RETUNE)) &&
                        (i != 7u || effect == ROOM_TAPE_DELAY);
        check((tally[e].by_number[i] > 0u) == can, "calls refused by each number", 10u * e + i);
    }
}

void check_tally(void)
{
    int effect;
    print_tables();
    for (effect = ROOM_DELAY; effect < EFFECTS_END; effect++) {
        check_effect(effect);
    }
}
