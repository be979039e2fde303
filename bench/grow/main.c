/*
 * How costs grow with the length of the lines: ns for each tick, ns for each place of a reset beside memset, and ns for each
 * question, which reads no place. "swept" is the delay above it, the ordinary one or the tape's, with a time that never stands
 * still. A tick of the tape delay is a pair of halves; between them a clamp stands for the host's saturation, whose tanh is no
 * cost of ours.
 *
 * Rounds go through the lengths of an effect in turn, so that a machine that slows down slows all of them. The lowest round is
 * what the code can do; the median, in brackets, says how noisy the machine was. A question is asked of a cleared unit, so that
 * all that the state keeps is read.
 */
#include "grow.h"

#include <stdio.h>
#include <stdlib.h>
#include <string.h>

#define TICKS 40000u
#define MOST 11u

/* In each round about so many places are cleared by calls of one kind, or all by one call. */
#define PLACES 200000u
#define QUESTIONS 20000u

static const struct {
    const char *name;
    int effect;
    unsigned count;
    struct {
        double rate, maximum;
    } at[MOST];
} rows[] = {
    {"vibrato", ROOM_VIBRATO, 3, {{8000, 0}, {48000, 0}, {192000, 0}}},
    {"chorus", ROOM_CHORUS, 3, {{8000, 0}, {48000, 0}, {192000, 0}}},
    {"flanger", ROOM_FLANGER, 3, {{8000, 0}, {48000, 0}, {192000, 0}}},
    {"delay", ROOM_DELAY, 6, {{8000, 0.001}, {48000, 0.1}, {48000, 2}, {192000, 2}, {48000, 60}, {192000, 60}}},
    {"swept", ROOM_DELAY, 6, {{8000, 0.001}, {48000, 0.1}, {48000, 2}, {192000, 2}, {48000, 60}, {192000, 60}}},
    {"tape", ROOM_TAPE_DELAY, 3, {{8000, 12}, {48000, 12}, {192000, 12}}},
    {"swept", ROOM_TAPE_DELAY, 3, {{8000, 12}, {48000, 12}, {192000, 12}}},
    {"reverb",
     ROOM_REVERB,
     11,
     {{8000, 0},
      {22050, 0},
      {44100, 0},
      {48000, 0},
      {96000, 0},
      {120000, 0},
      {132000, 0},
      {150000, 0},
      {162000, 0},
      {176400, 0},
      {192000, 0}}},
};

/* What was worked out goes here, so that it is worked out. */
static volatile double kept;

static void plain_clear(const struct unit *u)
{
    memset(u->lent, 0, u->places * sizeof *u->lent);
    kept = u->lent[u->places / 2u];
}

static void question(const struct unit *u)
{
    if (!unit_silent(u)) {
        puts("a cleared unit sounds");
        exit(1);
    }
}

enum { TICK, RESET, MEMSET, SILENT, KINDS };

static void call(struct unit *u, int kind)
{
    if (kind == RESET) {
        reset_unit(u);
    } else if (kind == MEMSET) {
        plain_clear(u);
    } else {
        question(u);
    }
}

/* ns a tick, a place that is cleared, or a question. */
static double one_round(struct unit *u, int kind)
{
    const uint64_t each = kind == SILENT ? 1u : u->places;
    const uint64_t calls = kind == SILENT ? QUESTIONS : PLACES / each + 1u;
    const double start = seconds();
    uint64_t i;
    if (kind == TICK) {
        kept = tick_unit(u, TICKS);
        return (seconds() - start) * 1e9 / TICKS;
    }
    for (i = 0; i < calls; i++) {
        call(u, kind);
    }
    return (seconds() - start) * 1e9 / (double)(calls * each);
}

static struct times times[MOST][KINDS];

static void print_clearing(struct times *ours, struct times *plain)
{
    printf("   reset %.3f (%.3f), ratio %.2f (%.2f)", lowest(ours), median(ours), lowest(ours) / lowest(plain),
           median(ours) / median(plain));
}

static struct unit units[MOST];

/* Of the two clearings each comes as often after the other as before it: what lies in the cache then is shared out alike. */
static void one_round_of_all(unsigned count, unsigned round)
{
    static const int order[2][KINDS] = {{TICK, RESET, MEMSET, SILENT}, {TICK, MEMSET, RESET, SILENT}};
    unsigned i, k;
    for (i = 0; i < count; i++) {
        for (k = 0; k < KINDS; k++) {
            const int kind = order[round % 2u][k];
            times[i][kind].list[round] = one_round(&units[i], kind);
        }
    }
}

static void time_row(unsigned row)
{
    const unsigned count = rows[row].count;
    unsigned round, i;
    for (i = 0; i < count; i++) {
        units[i].name = rows[row].name;
        units[i].effect = rows[row].effect;
        units[i].swept = strcmp(rows[row].name, "swept") == 0;
        units[i].rate = rows[row].at[i].rate;
        units[i].maximum = rows[row].at[i].maximum;
        start_unit(&units[i]);
    }
    for (round = 0; round < ROUNDS; round++) {
        one_round_of_all(count, round);
    }
    for (i = 0; i < count; i++) {
        printf("%-8s %6.0f", units[i].name, units[i].rate);
        if (units[i].maximum > 0) {
            printf(" %6.3f s", units[i].maximum);
        } else {
            printf("%9s", "");
        }
        printf("%9llu places   tick %.2f (%.2f)", (unsigned long long)units[i].places, lowest(&times[i][TICK]),
               median(&times[i][TICK]));
        print_clearing(&times[i][RESET], &times[i][MEMSET]);
        printf("   silent %.2f (%.2f)\n", lowest(&times[i][SILENT]), median(&times[i][SILENT]));
        free(units[i].lent);
    }
}

int main(void)
{
    unsigned row;
    puts("ns a tick; ns a place of reset, with the ratio to memset; ns a question");
    for (row = 0; row < sizeof rows / sizeof rows[0]; row++) {
        time_row(row);
        fflush(stdout);
    }
    return 0;
}
