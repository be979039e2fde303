/*
 * hostile CALLS SEED: so many random calls of every exported function, each held against documents 01 and 02.
 *
 * Units come one after another, each with a chain of calls. The table printed at the end says how often each call was accepted
 * and refused by each number; a cell that the table of refusals has and that no call came to is a failure. The last line is
 * `N passed, M failed`, counted in cells, and in what reached.c, positions.c and counts.c count.
 */
#define _POSIX_C_SOURCE 200809L
#include "hostile.h"

#include <signal.h>
#include <stdio.h>
#include <stdlib.h>
#include <string.h>
#include <unistd.h>

#define NUMBERS 8
#define LONG_CHAIN 60u

static struct {
    uint64_t made[NUMBERS];
    uint64_t wrong[NUMBERS];
    uint64_t silent;
} tally[EFFECTS][CALLS];
static uint64_t by_stores; /* questions of a reverb whose count is 0 and whose stores are not */
static uint64_t made, places_made, places_wrong;

/* How many places calls were lent, beside what they need where nothing else is wrong. */
enum { NO_PLACES, FEWER, ONE_SHORT, JUST_ENOUGH, MORE, LENGTHS };
static const char *const length_names[LENGTHS] = {"none", "fewer", "one short", "just enough", "more"};
static uint64_t lengths[LENGTHS], long_lines;

static unsigned shown;

/* A fault is a call that went out of what it was lent: say which, and end. */
static char faulted[160];

static void on_fault(int sign)
{
    (void)sign;
    if (write(STDOUT_FILENO, faulted, strlen(faulted)) < 0) {
        _exit(3);
    }
    _exit(2);
}

static void watch_faults(void)
{
    struct sigaction action;
    memset(&action, 0, sizeof action);
    action.sa_handler = on_fault;
    sigaction(SIGSEGV, &action, NULL);
    sigaction(SIGBUS, &action, NULL);
}

static void show_wrong(const struct call *c, const struct answer *a, const char *what)
{
    unsigned i;
    shown++;
    if (shown > 20u) {
        return;
    }
    printf("FAILED: call %llu, %s %s: %s; number %u, by the table %u, %llu places, age %u\n  state", (unsigned long long)made,
           effect_names[c->effect], call_name(c->effect, c->kind), what, (unsigned)a->number, (unsigned)number_for(c),
           (unsigned long long)c->places, (unsigned)a->age);
    for (i = 0; i < words_of(c->effect); i++) {
        printf(" %llx", (unsigned long long)c->state.word[i]);
    }
    printf("\n  rate %a maximum %a coefficient %a set %x ports", c->rate, c->maximum, c->coefficient, (unsigned)c->set);
    for (i = 0; i < PORTS; i++) {
        printf(" %a", c->ports[i]);
    }
    printf(" curves %a %a %a %a\n", c->curves[0], c->curves[1], c->curves[2], c->curves[3]);
}

/* A place of a line of the unit: its first, its last, the one behind, or the one that the next tick writes. Of the reverb's
   lines it is the predelay half of the time: that holds the audio, and so may lose a sound and gain none. */
static uint64_t place_of_a_line(const struct unit *unit)
{
    const unsigned lines = lines_of(unit->effect);
    const unsigned line = one_in(2) ? lines - 1u : (unsigned)below(lines);
    const uint64_t length = length_at(unit->effect, &unit->state, line);
    const uint64_t start = unit->effect == REVERB ? tank_start(line) : line * length;
    const uint64_t ends[] = {0u, length - 1u, length, unit->state.word[unit->effect == REVERB ? line : 0u]};
    return start + ends[below(COUNT(ends))];
}

/* The host's own hand: a place of the memory, a number of the phaser's chains or a damping store holds something else from now
   on. */
static void disturb(struct unit *unit)
{
    const uint64_t offset = (uint64_t)(unit->memory - unit->arena->first);
    const int has_lines = lines_of(unit->effect) > 0u && state_passes(unit->effect, &unit->state);
    uint64_t place = below(unit->arena->places);
    const double x = one_in(2) ? of_bits(any_bits() & UINT64_C(0x8000000000000001)) : any_float();
    unit->untouched = 0;
    if (unit->effect == PHASER || (unit->effect == REVERB && one_in(2))) {
        unit->state.word[word_of(unit->effect, 's') + below(unit->effect == PHASER ? 24u : 16u)] = bits(x);
        return;
    }
    if (has_lines && !one_in(4)) {
        place = (offset + place_of_a_line(unit)) % unit->arena->places;
    }
    unit->arena->first[place] = x;
    unit->arena->should[place] = x;
}

static void count_length(const struct call *c)
{
    const uint64_t need = call_needs(c);
    if (lines_of(c->effect) > 0u && need != UINT64_MAX) {
        lengths[c->places == 0u          ? NO_PLACES
                : c->places + 1u < need  ? FEWER
                : c->places + 1u == need ? ONE_SHORT
                : c->places == need      ? JUST_ENOUGH
                                         : MORE]++;
        long_lines += need == 11520001u && c->places >= need;
    }
}

/* The unit goes on with what the call left, at times with the zeros of a refused start. Then the host's hand may come, and come
   again. */
static void go_on(struct unit *unit, const struct call *c, const struct answer *a)
{
    const int clears = a->number == 0u && c->kind <= RESET;
    if (a->number == 0u || (c->kind == START && one_in(4))) {
        unit->untouched = clears || (a->number == 0u && in_a_run(unit, c));
        unit->state = a->state;
    }
    if (clears) {
        unit->memory = c->memory;
        unit->places = c->places;
    }
    while (one_in(clears ? 2 : 40)) {
        disturb(unit);
    }
}

/* One call, counted. */
static void one_call(struct unit *unit)
{
    const struct call c = draw_call(unit);
    struct answer a = {0, {{0}}, {0}, 0, 0};
    const char *wrong;
    snprintf(faulted, sizeof faulted, "FAILED: a fault in call %llu, %s %s, %llu places\n", (unsigned long long)made,
             effect_names[c.effect], call_name(c.effect, c.kind), (unsigned long long)c.places);
    wrong = check_call(unit, &c, &a);
    made++;
    count_length(&c);
    count_age(&c, &a);
    count_reached(&c, &a);
    count_positions(&c, &a);
    count_counts(&c, &a);
    if (wrong != NULL) {
        show_wrong(&c, &a, wrong);
        tally[c.effect][c.kind].wrong[number_for(&c)]++;
        memcpy(unit->arena->should, unit->arena->first, unit->arena->places * sizeof(double));
        return;
    }
    tally[c.effect][c.kind].made[a.number]++;
    tally[c.effect][c.kind].silent += c.kind == SILENT && a.silent != 0u;
    by_stores += c.effect == REVERB && c.kind == SILENT && a.number == 0u && a.silent == 0u &&
                 value_of(REVERB, &c.state, 'n') == 0u;
    go_on(unit, &c, &a);
}

/* The question at power-up. */
static void one_places_call(void)
{
    const uint32_t effect = one_in(8) ? (uint32_t)any_bits() : (uint32_t)below(EFFECTS + 1);
    const double rate = one_in(3) ? any_float() : good_rate();
    const double maximum = one_in(2) ? any_float() : good_maximum();
    const uint64_t should = needed(effect < EFFECTS ? (int)effect : 0, rate, held_maximum(maximum));
    const uint64_t is = room_places_needed(effect, rate, maximum);
    places_made++;
    made++;
    if (is != should) {
        places_wrong++;
        printf("FAILED: places needed of effect %u at %a with %a: %llu, by the paper %llu\n", (unsigned)effect, rate, maximum,
               (unsigned long long)is, (unsigned long long)should);
    }
}

/* The numbers that a call of an effect can return, 0 among them. */
static int has_cell(int effect, int kind, int number)
{
    static const char *const numbers[CALLS] = {"0123", "04123", "043", "047356", "04", "04736"};
    if ((kind == RETUNE && lines_of(effect) == 0u) || (kind == STORE && effect != TAPE)) {
        return 0;
    }
    if ((number == 2 && !has_coefficient(effect)) || (number == 3 && lines_of(effect) == 0u) ||
        (number == 6 && (effect == REVERB || (effect == TAPE && kind == TICK))) || (number == 7 && effect != TAPE)) {
        return 0;
    }
    return strchr(numbers[kind], '0' + number) != NULL;
}

static unsigned passed, failed;

static void count_cell(int effect, int kind, int number)
{
    const int good = tally[effect][kind].made[number] > 0u && tally[effect][kind].wrong[number] == 0u;
    passed += good != 0;
    failed += good == 0;
    if (tally[effect][kind].made[number] == 0u) {
        printf("FAILED: no %s %s with number %d went well\n", effect_names[effect], call_name(effect, kind), number);
    }
}

static void print_row(int effect, int kind)
{
    int number;
    printf("%-8s %-7s", effect_names[effect], call_name(effect, kind));
    for (number = 0; number < NUMBERS; number++) {
        if (has_cell(effect, kind, number)) {
            printf(" %11llu", (unsigned long long)tally[effect][kind].made[number]);
        } else {
            printf(" %11s", "");
        }
    }
    if (kind == SILENT) {
        printf("   %llu yes", (unsigned long long)tally[effect][kind].silent);
    }
    if (kind == SILENT && effect == REVERB) {
        printf(", %llu no of a count of 0%s", (unsigned long long)by_stores, by_stores == 0u ? ": FAILED, never asked" : "");
        passed += by_stores > 0u;
        failed += by_stores == 0u;
    }
    puts("");
    for (number = 0; number < NUMBERS; number++) {
        if (has_cell(effect, kind, number)) {
            count_cell(effect, kind, number);
        }
    }
}

static void print_table(void)
{
    int effect, kind;
    printf("%-16s %11s %11s %11s %11s %11s %11s %11s %11s\n", "", "accepted", "by 1", "by 2", "by 3", "by 4", "by 5", "by 6",
           "by 7");
    for (effect = DELAY; effect < EFFECTS; effect++) {
        for (kind = START; kind < CALLS; kind++) {
            if (has_cell(effect, kind, 0)) {
                print_row(effect, kind);
            }
        }
    }
    printf("places needed    %11llu\nlent:", (unsigned long long)places_made);
    for (kind = 0; kind < LENGTHS; kind++) {
        printf(" %s %llu%s", length_names[kind], (unsigned long long)lengths[kind], kind + 1 < LENGTHS ? "," : "");
    }
    printf("; a line of 11,520,001 places in %llu calls\n", (unsigned long long)long_lines);
    passed += places_wrong == 0u;
    failed += places_wrong != 0u;
}

int main(int argc, char **argv)
{
    const uint64_t calls = argc == 3 ? strtoull(argv[1], NULL, 10) : 0u;
    const uint64_t seed = argc == 3 ? strtoull(argv[2], NULL, 10) : 0u;
    if (calls == 0u) {
        puts("hostile CALLS SEED");
        return 2;
    }
    printf("%llu calls, seed %llu\n", (unsigned long long)calls, (unsigned long long)seed);
    fflush(stdout);
    watch_faults();
    seed_random(seed);
    while (made < calls) {
        const int long_line = made == 0u || one_in(30000); /* 60 s at 192,000: a clearing takes long */
        struct unit unit = draw_unit(long_line ? DELAY : (int)(1u + below(EFFECTS - 1)), long_line);
        const uint64_t end = made + (long_line ? LONG_CHAIN : 20u + below(300));
        while (made < end) {
            one_call(&unit);
        }
        one_places_call();
    }
    print_table();
    print_reached(&passed, &failed);
    print_positions(&passed, &failed);
    print_counts(&passed, &failed);
    printf("%u passed, %u failed\n", passed, failed);
    return failed != 0u;
}
