/* The positions that calls were handed, at the end of 32 bits and at both sides of the end of a line: how often a call was
   refused for one alone, and how often accepted with one. */
#include "hostile.h"

#include <stdio.h>

enum { AT_MOST, AT_LENGTH, AT_LAST, ENDS };
static const char *const end_names[ENDS] = {"2^32 - 1 refused", "L refused", "L - 1 accepted"};
static uint64_t ends[EFFECTS][TANK_LINES][ENDS];

/* Positions stand first in a state. */
static unsigned positions_of(int effect)
{
    unsigned i = 0;
    while (is_position(effect, i)) {
        i++;
    }
    return i;
}

/* Refused by 4 for this position alone: with 0 in its place the state passes. */
static int refused_for(const struct call *c, const struct answer *a, unsigned position)
{
    struct state other = c->state;
    other.word[position] = 0u;
    return a->number == 4u && state_passes(c->effect, &other);
}

/* A start reads no position. */
void count_positions(const struct call *c, const struct answer *a)
{
    unsigned i;
    for (i = 0; c->kind != START && i < positions_of(c->effect); i++) {
        const uint64_t at = c->state.word[i];
        uint64_t *counts = ends[c->effect][i];
        if (a->number == 0u) {
            counts[AT_LAST] += at == length_at(c->effect, &c->state, i) - 1u;
        } else if (refused_for(c, a, i)) {
            counts[AT_MOST] += at == UINT32_MAX;
            counts[AT_LENGTH] += at == length_at(c->effect, &c->state, i);
        }
    }
}

static void print_name(char *name, size_t bytes, int effect, unsigned position)
{
    static const char *const lines[] = {"left comb", "right comb", "left all-pass", "right all-pass"};
    const unsigned kind = position < 16u ? position / 8u : 2u + (position - 16u) / 4u;
    if (effect != REVERB) {
        snprintf(name, bytes, "%s", effect_names[effect]);
    } else if (kind == COUNT(lines)) {
        snprintf(name, bytes, "reverb, predelay");
    } else {
        snprintf(name, bytes, "reverb, %s %u", lines[kind], kind < 2u ? position % 8u : position % 4u);
    }
}

static void print_position(unsigned *passed, unsigned *failed, int effect, unsigned position)
{
    char name[40], cell[80];
    int end;
    print_name(name, sizeof name, effect, position);
    printf("%-26s", name);
    for (end = 0; end < ENDS; end++) {
        printf(" %18llu", (unsigned long long)ends[effect][position][end]);
    }
    puts("");
    for (end = 0; end < ENDS; end++) {
        snprintf(cell, sizeof cell, "%s, position %s", name, end_names[end]);
        count(passed, failed, ends[effect][position][end] > 0u, cell);
    }
}

void print_positions(unsigned *passed, unsigned *failed)
{
    int effect, end;
    unsigned i;
    printf("%-26s", "positions");
    for (end = 0; end < ENDS; end++) {
        printf(" %18s", end_names[end]);
    }
    puts("");
    for (effect = DELAY; effect < EFFECTS; effect++) {
        for (i = 0; i < positions_of(effect); i++) {
            print_position(passed, failed, effect, i);
        }
    }
}
