/* Document 01, of phaser, stores and tape delay document 02: what an accepted start, retune or reset leaves; the question. */
#include "hostile.h"

#include <string.h>

/* "Start phases: chorus 0, 0.33, 0.67; others 0. Reset restores them. Retune keeps the phases of chorus and flanger and zeroes
   the vibrato's." */
static double phase_after(const struct call *c, unsigned word)
{
    if (c->kind == RETUNE && (c->effect == CHORUS || c->effect == FLANGER)) {
        return of_bits(c->state.word[word]);
    }
    return c->effect != CHORUS || word == word_of(CHORUS, 'p') ? 0.0 : word == word_of(CHORUS, 'p') + 1u ? 0.33 : 0.67;
}

/* "Start, reset and retune all set positions to 0, unprime the delay's glide with distance +0, and set the reverb's damping
   stores to +0", of the phaser "all 24 stored numbers of its chains, +0 after start and reset", and of the tape delay "reset
   and retune drop a waiting read", with what it kept "+0 while none waits". The count is that of a memory of +0. What is no
   setting of the call stays. */
struct state cleared_by_the_paper(const struct call *c)
{
    struct state s = c->state;
    unsigned i;
    for (i = 0; i < words_of(c->effect); i++) {
        const char letter = state_words[c->effect][i];
        if (strchr("wndsfqk", letter) != NULL) {
            s.word[i] = 0;
        } else if (letter == 'p') {
            s.word[i] = bits(phase_after(c, i));
        } else if (letter == 'r' && c->kind != RESET) {
            s.word[i] = bits(c->rate);
        } else if (letter == 'c' && c->kind != RESET) {
            s.word[i] = bits(c->coefficient);
        } else if (letter == 'm' && c->kind == START) {
            s.word[i] = bits(held_maximum(c->maximum));
        } else if (letter == 'l' && c->kind == START) {
            s.word[i] = c->linear != 0u;
        }
    }
    return s;
}

/* Document 02, of the phaser: "silent exactly when all 24 stored numbers of its chains .. are +0 or -0", and of the reverb:
   "silent only if its sixteen damping stores are also +0 or -0". */
static int stores_zero(const struct call *c)
{
    unsigned i;
    for (i = 0; i < words_of(c->effect); i++) {
        if (state_words[c->effect][i] == 's' && of_bits(c->state.word[i]) != 0.0) {
            return 0;
        }
    }
    return 1;
}

/* "A tape unit with a read waiting isn't silent." */
int keeps_no_sound(const struct call *c)
{
    return stores_zero(c) && !read_waits(c->effect, &c->state);
}

/* By document 01 "yes when every place in use of the unit's lines is +0 or -0", which the count answers: "The answer then needs
   only the state". Tremolo and phaser have no lines. */
int silent_by_the_paper(const struct call *c)
{
    return keeps_no_sound(c) && (lines_of(c->effect) == 0u || value_of(c->effect, &c->state, 'n') == 0u);
}
