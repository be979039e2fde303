/*
 * Hostile calls: what the files of this driver share.
 *
 * A call is drawn, the memory and the state are put between guard pages, the exported function is called, and all that it
 * returned and left is held against a reading of documents 01 and 02 that was made without a look at the crates.
 */
#ifndef HOSTILE_H
#define HOSTILE_H

#include "random.h"
#include "room_effects.h"

#define COUNT(list) (sizeof(list) / sizeof((list)[0]))

/* The effects' numbers in documents 01 and 02. */
enum { DELAY = 1, CHORUS, FLANGER, VIBRATO, TREMOLO, REVERB, PHASER, TAPE, EFFECTS };

/* The tape delay's tick is its read half, and its store half is a call that it alone has. */
enum { START, RETUNE, RESET, TICK, SILENT, STORE, CALLS };

extern const char *const effect_names[EFFECTS];
const char *call_name(int effect, int kind);

/* The most words of a state, ports and curve numbers of a tick, samples of an answer, and places that a tick writes. */
#define WORDS 43
#define PORTS 5
#define CURVES 4
#define SAMPLES 3
#define WRITES 25

/*
 * A state in one form for all effects: its fields in the order of the header's struct. What each word is stands in a string: w
 * a position, n the count of places that are neither +0 nor -0, p a phase, r the rate, d a delay's distance, k a number that a
 * read that waits keeps, c the coefficient, m the maximum, s a store that may be any float: a damping store, an all-pass's last
 * input or output; and the flags: f whether a delay is primed, q whether a read waits, l whether the time is linear. A word is
 * a float by its bits, or a number of 32 bits: a position, the count, a flag.
 */
struct state {
    uint64_t word[WORDS];
};
extern const char *const state_words[EFFECTS];

unsigned words_of(int effect);

/* The first word of this letter, and what it holds. */
unsigned word_of(int effect, char letter);
uint64_t value_of(int effect, const struct state *state, char letter);

int is_position(int effect, unsigned word);
int is_count(int effect, unsigned word);
int is_flag(int effect, unsigned word);
int has_coefficient(int effect);
int read_waits(int effect, const struct state *state);
double rate_of(int effect, const struct state *state);
double maximum_of(int effect, const struct state *state); /* a delay's; of the others 0, which their lengths do not read */

/* A call with its arguments. Ports and curve numbers stand in the order of the exported function. */
struct call {
    int effect, kind;
    struct state state;
    double *memory;
    uint64_t places;
    double rate, maximum, coefficient; /* of a start or a retune */
    uint32_t linear;
    uint32_t set; /* the mask: 1 is the first port */
    double ports[PORTS], curves[CURVES]; /* of a store half the first curve number is the saturated value */
};

/* Whether the call answers samples, of which a read half's sum is one. */
int plays_samples(const struct call *c);

/* What a call returned and left, the memory apart. */
struct answer {
    uint32_t number;
    struct state state;
    double out[SAMPLES];
    uint32_t silent, age;
};

/* What the numbers that a call puts out hold before it. */
#define UNTOUCHED 12345u

/* floats.c */
uint64_t bits(double x);
double of_bits(uint64_t u);
int same(double a, double b);  /* to the bit */
int plays(double a, double b); /* to the bit, or both NaN: document 01's equality */
int is_nonzero(double x);      /* neither +0 nor -0 */
int is_nan(double x);
int is_finite(double x);

/* table.c: lengths, state test and table of refusals. */
int rate_holds(double rate);
double held_maximum(double maximum);
uint64_t line_length(int effect, double rate, double maximum);
uint64_t length_at(int effect, const struct state *state, unsigned position); /* of the line whose position this word is */
unsigned lines_of(int effect); /* 0: it is lent no memory and has no retune */
uint64_t needed(int effect, double rate, double maximum);
uint64_t places_in_use(int effect, const struct state *state); /* at a rate that is accepted */
int state_passes(int effect, const struct state *state);
uint32_t number_for(const struct call *c);

/* tank.c: the reverb's lines, 0 to 7 combs left, to 15 right, to 19 all-passes left, to 23 right, 24 the predelay; in this
   order the state begins with their positions. */
#define TANK_LINES 25
uint64_t tank_start(unsigned line);
uint64_t tank_length(unsigned line, double rate);

/* What an accepted tick must leave: the places of the lent memory that it writes, and what it writes there. */
struct ticked {
    struct state state;
    double out[SAMPLES];
    uint32_t age; /* 0 where the effect answers none */
    unsigned writes;
    uint64_t place[WRITES];
    double value[WRITES];
    /* Whether the count's net change went below 0 or above the places in use; whether an end at each write would leave another. */
    int below, above, apart;
};
unsigned samples_of(int effect);
unsigned ports_of(int effect);
unsigned curves_of(int effect);
int has_ages(int effect);
double port(const struct call *c, unsigned which, double unset); /* its number, or this one where it is unset */
double clamped(double x, double low, double high);
double input_rule(double audio);
double blended(double audio, double wet, double mix);
struct ticked tick_by_the_paper(const struct call *c); /* ticks.c */
void reverb_tick(struct ticked *t, const struct call *c); /* tank.c */

/* clearings.c: the state that an accepted start, retune or reset leaves, and whether the unit is silent. */
struct state cleared_by_the_paper(const struct call *c);
int keeps_no_sound(const struct call *c); /* in its state */
int silent_by_the_paper(const struct call *c);

/* lent.c: memory between guard pages, and beside it a copy of what it must hold. */
struct arena {
    double *first;
    uint64_t places;
    double *should;
};
struct arena *arena_for(uint64_t places); /* one that has at least as many */
void fill_arena(struct arena *arena);
int arena_as_it_should(const struct arena *arena);
int window_as_it_should(const struct arena *arena, uint64_t place); /* the places around this one */

/* A small object between guard pages, close to the higher or to the lower one. */
void *spot(unsigned which, unsigned bytes, int high);
#define SPOTS 13

/* make.c: makes the call, its numbers in spots. */
struct answer make(const struct call *c);

/* draw.c: units, and calls of them. */
struct unit {
    int effect;
    struct state state;
    struct arena *arena;
    double *memory; /* what it was lent by the last clearing */
    uint64_t places;
    int untouched; /* whether state and memory are as the calls since then left them */
};
struct unit draw_unit(int effect, int long_line);
struct call draw_call(const struct unit *unit);
uint64_t call_needs(const struct call *c); /* how many places, if nothing else is wrong with it */

/* counts.c: the count that a tick leaves by its writes; how many places in use are neither +0 nor -0, by a reading of them all;
   whether a call finds the unit untouched; and of one that is accepted and no clearing, what is wrong with the count that it
   leaves, by such a reading before it and another after it. */
void count_writes(struct ticked *t, const struct call *c);
uint64_t nonzero_places(const struct call *c);
int in_a_run(const struct unit *unit, const struct call *c);
const char *check_count(const struct unit *unit, const struct call *c, const struct answer *a, uint64_t before);

/* reached.c: what calls of the tape delay, and ages, came to; how much of it was reached and how much was not. positions.c: the
   same of positions, counts.c of counts. */
void count_reached(const struct call *c, const struct answer *a);
void count_age(const struct call *c, const struct answer *a);
void print_reached(unsigned *passed, unsigned *failed);
void count_positions(const struct call *c, const struct answer *a);
void print_positions(unsigned *passed, unsigned *failed);
void count_ends(const struct call *c, const struct ticked *t);
void count_counts(const struct call *c, const struct answer *a);
void print_counts(unsigned *passed, unsigned *failed);
void count(unsigned *passed, unsigned *failed, int good, const char *name);

/* check.c: makes the call and holds all that it left against the paper; the words say what is wrong, NULL if nothing. */
const char *check_call(struct unit *unit, const struct call *c, struct answer *a);

#endif
