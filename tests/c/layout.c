/* How the structs lie in memory: their sizes, where their fields are, and that each field follows the one before it with no
   byte between them. All of it is said to the compiler, which takes this file only where it holds. */
#include "room_effects.h"

#include <stddef.h>

/* Compiles only where it holds. */
#define HOLDS(name, condition) typedef char name[(condition) ? 1 : -1]

#define BYTES_OF(E, field) sizeof(((room_##E *)0)->field)
#define HAS_BYTES(E, field, bytes) HOLDS(E##_##field##_has_its_bytes, BYTES_OF(E, field) == (bytes))

/* This field comes right behind that one; this one is the last, and nothing is behind it. */
#define BEHIND(E, field) (offsetof(room_##E, field) + BYTES_OF(E, field))
#define FOLLOWS(E, field, that) HOLDS(E##_##field##_follows, offsetof(room_##E, field) == BEHIND(E, that))
#define IS_LAST(E, field) HOLDS(E##_##field##_is_last, BEHIND(E, field) == sizeof(room_##E))

/* An effect with lines: its positions, from `first` to `last`, come first, then the count, a number of 32 bits as they are, and
   then the first of the floats. */
#define LINED(E, bytes, first, last, floats)                                                                            \
    HOLDS(E##_has_its_bytes, sizeof(room_##E) == (bytes));                                                              \
    HOLDS(E##_begins_with_positions, offsetof(room_##E, first) == 0u);                                                  \
    HAS_BYTES(E, last, 4u);                                                                                             \
    FOLLOWS(E, nonzero_places, last);                                                                                   \
    HAS_BYTES(E, nonzero_places, 4u);                                                                                   \
    FOLLOWS(E, floats, nonzero_places)

HOLDS(tremolo_has_its_bytes, sizeof(room_tremolo) == 16u);
HOLDS(phaser_has_its_bytes, sizeof(room_phaser) == 208u);

LINED(vibrato, 24u, write_pos, write_pos, lfo_phase);
FOLLOWS(vibrato, sample_rate, lfo_phase);
IS_LAST(vibrato, sample_rate);

LINED(chorus, 40u, write_pos, write_pos, lfo_phases);
FOLLOWS(chorus, sample_rate, lfo_phases);
IS_LAST(chorus, sample_rate);

LINED(flanger, 24u, write_pos, write_pos, lfo_phase);
FOLLOWS(flanger, sample_rate, lfo_phase);
IS_LAST(flanger, sample_rate);

LINED(delay, 48u, write_pos, write_pos, smoothed_delay);
FOLLOWS(delay, sample_rate, smoothed_delay);
FOLLOWS(delay, delay_smooth_coef, sample_rate);
FOLLOWS(delay, max_delay_secs, delay_smooth_coef);
FOLLOWS(delay, delay_primed, max_delay_secs);
FOLLOWS(delay, linear_time, delay_primed);
IS_LAST(delay, linear_time);

LINED(tape_delay, 64u, write_pos, write_pos, smoothed_delay);
FOLLOWS(tape_delay, kept_audio, smoothed_delay);
FOLLOWS(tape_delay, kept_read, kept_audio);
FOLLOWS(tape_delay, kept_mix, kept_read);
FOLLOWS(tape_delay, sample_rate, kept_mix);
FOLLOWS(tape_delay, delay_smooth_coef, sample_rate);
FOLLOWS(tape_delay, delay_primed, delay_smooth_coef);
FOLLOWS(tape_delay, waiting, delay_primed);
IS_LAST(tape_delay, waiting);

LINED(reverb, 240u, comb_pos_l, predelay_pos, comb_filter_state_l);
HAS_BYTES(reverb, comb_pos_l, 32u);
HAS_BYTES(reverb, comb_pos_r, 32u);
HAS_BYTES(reverb, allpass_pos_l, 16u);
HAS_BYTES(reverb, allpass_pos_r, 16u);
FOLLOWS(reverb, comb_pos_r, comb_pos_l);
FOLLOWS(reverb, allpass_pos_l, comb_pos_r);
FOLLOWS(reverb, allpass_pos_r, allpass_pos_l);
FOLLOWS(reverb, predelay_pos, allpass_pos_r);
FOLLOWS(reverb, comb_filter_state_r, comb_filter_state_l);
FOLLOWS(reverb, sample_rate, comb_filter_state_r);
IS_LAST(reverb, sample_rate);
