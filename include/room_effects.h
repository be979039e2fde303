/*
 * room_effects.h: the room effects for C99 and C++11 hosts.
 *
 * Link with target/staticlib/libroom_effects.a, which `tools/archive room_effects` makes, and `make host` too. It is for
 * Linux on processors of the level x86-64-v2 (SSE4.1 among it), for which the Rattle kit compiles. docs/DEMANDS.md has what
 * is promised of the calls, point by point, and what holds each point.
 *
 * How to use an effect E
 *
 *   room_E state;                        one for each unit; the host keeps it
 *   double memory[...];                  likewise, for an effect with lines: see "Memory"
 *   room_E_start(&state, memory, places, ...)
 *                                        makes a state at a sample rate
 *   room_E_tick(&state, memory, places, ports..., curve numbers..., out, &age)
 *                                        one sample in, one, two or three out; see "Ages". The tape delay's tick is two
 *                                        calls, a read half and a store half: see there
 *   room_E_retune(&state, memory, places, ...)
 *                                        goes to another sample rate, its lines cleared (effects with lines)
 *   room_E_reset(&state, memory, places) back to what start left, at the same rate
 *   room_E_silent(&state, &silent)       asks whether the unit still sounds
 *
 * Calls of an effect without lines, as the tremolo and the phaser, have no `memory, places`; the ticks of tremolo, reverb and
 * phaser have no age. Between calls the host leaves the state as the last call returned it. Sizes in bytes: tremolo 16, vibrato
 * and flanger 24, chorus 40, delay 48, tape delay 64, phaser 208, reverb 240. No struct has bytes between its fields or behind
 * them.
 *
 * What a call returns
 *
 * Every call returns 0 if it was accepted, else the number of the cause for which it was refused (enum room_cause):
 *
 *   1  the sample rate is NaN or outside 8,000 to 192,000
 *   2  the glide coefficient is NaN, below 0, or 1 or more (delay and tape delay only)
 *   3  the memory has fewer places than the effect needs at its rate, for a retune at the new one (effects with lines)
 *   4  a field of the state is outside what its struct's comments say
 *   5  a control that this tick reads is set and is NaN
 *   6  a curve number is NaN, a sine, an all-pass coefficient or a saturated value is outside -1 to 1, or a frequency is
 *      outside 0 to 32
 *   7  a half of a tick is out of turn: a read half while a read waits, a store half while none does (tape delay only)
 *
 * Where several apply, the first in this order is returned: start 1, 2, 3; retune 4, 1, 2, 3; reset 4, 3; silent 4; tick 4, 7,
 * 3, 5, 6, of which the tape delay's read half has 4, 7, 3, 5, and its store half 4, 7, 3, 6.
 *
 * A refused call changes nothing: every field of the state and every place of the memory is left as it was, to the bit. What it
 * puts out is written all the same, so that a host that overlooks the number plays silence and not noise: a refused tick puts
 * +0 into every sample of `out`, or into the sum, and 0 into the age, a refused silent puts 0, for no, and a refused start,
 * which has no state to leave, writes a state of zeros, which every later call refuses with 4.
 *
 * Memory
 *
 * An effect with lines is lent its places with each call: `memory` is the address of the first, `places` how many there are.
 * The host keeps them. It lends a unit the same places each time, writes nothing there between calls, and keeps them apart from
 * the state, from `out` or the sum and from the age, and those from each other. What they hold before a start is of no account.
 *
 * A line has L places, by the sample rate: the whole part of n x rate / 1000, plus 10, with n as the effect says; the delay's
 * has the whole part of rate x maximum, plus 1, and the tape delay's as many as with a maximum of 12 s. A unit's lines follow
 * each other from place 0. The reverb's lie in a tank of one size: see there. The memory may be longer than that. Start, retune
 * and reset put +0 into every place, spare ones too; a tick writes one place of each line and never a spare one; of the tape
 * delay's halves the read half writes none. room_places_needed says how many places an effect needs.
 *
 * With 0 places the address is not used and may be NULL: an effect with lines refuses that as any memory that is too short.
 * Every other address that a call is handed is that of an object of its type, never NULL: that of the age too, where a host
 * has no use for it.
 *
 * Ports
 *
 * A port carries a number or is unset. An unset port takes the effect's default, and its number is not read. Controls are
 * clamped to their range, infinities too; -0 stays -0. The audio port is no control: any float is accepted there.
 *
 * Ages
 *
 * A tick of delay, tape delay, chorus, flanger or vibrato answers, beside its samples, an age: how many ticks back the oldest
 * sample lies that its reads weigh above 0. A read between two places weighs both, the older one by the fraction of its
 * distance; so the age of a read is the whole part of its distance, plus 1 where the fraction is not 0. That of a tick is the
 * largest over its reads: one in delay, tape delay and vibrato, two in the flanger, three in the chorus. The tape delay's read
 * half answers it, the sum beside it. It is 1 to L - 1, where 1 is what the tick before stored. Where it is more than the
 * accepted ticks made between the last clearing and this one, that sample is a +0 that the clearing left. In milliseconds it is
 * age x 1000.0 / rate: age x 1000 may be too large for 32 bits. A refused tick answers 0.
 *
 * It speaks of reads. A mix of 0 hides none. While a delay glides, its age is that of the glide, where the tick reads, and not
 * of the target. Where a line feeds back, a sample carries older sound on: the age is the sample's.
 *
 * It says nothing of which samples the output depends on. A distance without a fraction multiplies the place behind it by 0,
 * and 0 x NaN is NaN, as is 0 x infinity: a place of weight 0 still counts there, and for the sign of a zero.
 *
 * Silence
 *
 * "Silent?" is answered yes where every place in use is +0 or -0, and with them what the state itself keeps of the sound: the
 * reverb's damping stores, the phaser's 24 numbers; while a read of the tape delay waits, it is no. The call takes no memory: a
 * state of lines keeps `nonzero_places`, the count of the places in use that are neither +0 nor -0 (a NaN counts, a subnormal
 * number too). Start, retune and reset set it to 0, and a tick changes it by what it writes over what. So it is the number of
 * these places after every call from a start on, as long as nobody else writes to the memory and the host leaves the state as
 * it was returned. A host that writes there, or makes a state of its own, has to count itself: no call counts anew. From a
 * count that is not the memory's, a tick goes on by the net change of all its places together, and stays at 0, or at the number
 * of places in use, where that would take it beyond; a start, a retune or a reset puts it right.
 *
 * A silent unit whose audio is 0 (unset, +0 or -0; in delay, tape delay, chorus, flanger, reverb and phaser also NaN or
 * infinite) and whose controls are accepted puts out only +0 and -0, and is silent after the tick: it stays so until other
 * audio comes. So a lamp that shows the answer may be trusted, of every unit that was started and whose state and memory nobody
 * else wrote. Of the tape delay that holds of each pair of halves where the host hands in a zero for a sum that is a zero, as
 * its formula does.
 *
 * A unit that feeds back may never fall silent by itself, however long its audio is 0: delay and flanger with a feedback above
 * 0.5 (of the flanger also below -0.5), the tape delay from 0.5 on, and from 0.46875 on where it reads half way between two
 * places, the reverb from a size of about 0.315 on, so at its default of 0.5 too. What goes round becomes subnormal, and there
 * every product is rounded to a multiple of 2^-1074: 1 x 2^-1074 x 0.6 is nearer to 1 x 2^-1074 than to 0, so the sample stays
 * as it is and goes round for good. (x 0.5 it is a tie, which goes to the even neighbour, 0; but what the tape's saturation
 * rounds up, as 15 x 2^-1074, comes back as it was. Half of 15 is rounded to 8, so a read half way between two such places
 * finds 16, of which 0.46875 is enough.) That is more than 6,000 dB below full scale; but "silent?" says no, and ticks over
 * subnormal numbers take longer, the reverb's twice as long. The remedy is a reset, once nothing can be heard any more. A tape
 * delay with a feedback above 1 does not fade: it grows until its saturation holds it.
 *
 * The phaser's answer reads the 24 numbers of its state, those of all-passes that are not in use too, which no tick changes. It
 * need not feed back to go on for good: an all-pass multiplies its own last output by its coefficient, and one above 0.5 or
 * below -0.5 keeps it as above. At 0.7 it ends at 2^-1074 and -2^-1074 in turns. The coefficients that a host makes (see "Curve
 * numbers") are above 0.5 at every depth from a rate of 40,000 on, and at every rate where the depth is small, so that a phaser
 * that has sounded hardly ever falls silent there. Each tick then takes some 20 times as long: 0.6 us where it took 29 ns, on
 * the machine below. A phaser that overflowed is not silent either. Again the remedy is a reset.
 *
 * Floating-point mode
 *
 * Calls are made in the mode that C starts a program in: rounding to nearest, subnormal numbers kept, exceptions masked. A host
 * that flushes subnormals to zero (FTZ, DAZ), as some do for speed, turns that off around the calls, or what is said here does
 * not hold: a tick in that mode leaves a count that is not true, so that sound may be called silent, or silence not, until a
 * start, a retune or a reset. room_float_mode_ok asks; a host calls it at power-up, in each thread that makes calls, since each
 * thread has a mode of its own, which it gets from the one that makes it.
 *
 * `-ffast-math`, `-Ofast` and `-funsafe-math-optimizations` break that mode where they stand on the command that links the
 * program or a shared library that it loads: gcc then links crtfastmath.o, which sets FTZ and DAZ before main. (Seen with gcc
 * 12.2; with clang 14 for the first two.) Compiled with them and linked without, a host keeps the mode.
 *
 * Threads, stack, what is linked
 *
 * The library holds no memory, no state and no lock of its own: the archive has no section that can be written, and everything
 * is in what a call is handed. So the calls are reentrant: they may be made in any thread and at the same time, as long as no
 * two of them at a time are of the same unit; a unit that goes from one thread to another needs the host's own
 * synchronisation. No call waits, allocates or calls the system. One that is cut off before it returns may have written part
 * of its state and places; its unit is then started anew.
 *
 * By the frames of the compiled functions a call takes at most 792 bytes of stack (a reverb's tick; its question takes 392, its
 * other calls at most 168, and those of the other effects 96), and beside that what memset takes, the one function that the
 * archive needs from elsewhere. Where memset is bound at its first call, that takes some 3 KB more, once. Below its frame a
 * call may use up to 88 bytes more (a chorus's tick; a flanger's 80), in the red zone that the ABI keeps there.
 *
 * What calls cost
 *
 * A tick takes some 10 ns (tremolo) to 79 to 87 ns (reverb at 44,100 to 96,000) on an Intel Xeon of 2.5 GHz, whatever the
 * length of the lines, but for three. The reverb takes some 25 ns more at rates whose lengths are not at hand (at hand are
 * 44,100, 48,000, 88,200, 96,000, 176,400 and 192,000), and more above some 130,000, where more than eight of its combs are
 * equally long and fall into one set of the cache; from 161,819 on all sixteen are. Before it kept a count it took 1.9 to 2.4
 * times as long there as at 96,000. A delay whose time is swept over a line that no cache holds takes up to 150 ns. The tape
 * delay's halves together take about twice as long as a delay's tick, without what the host computes between them; with a time
 * that is swept at 192,000, over 2,304,001 places, up to 170 ns. Start, retune and reset write all places that are lent, at
 * memset's speed. Seen there: reset 15 us for the reverb, 16 ms for a delay of 60 s at 192,000. A sample at 192,000 lasts 5.2
 * us: these calls belong between takes. Silent reads the state alone, and takes some 7 to 15 ns, the reverb's some 50, whatever
 * the lines' length. docs/BENCHMARKS.md has more.
 *
 * Curve numbers
 *
 * The host computes them before the tick: a frequency in Hz from its rate control, and the sine of 2 pi times the phase that
 * the state holds before the tick. (The flanger's second sine is of a phase further on: see there.) The delay has one, a time
 * in milliseconds. (Its glide coefficient goes to start and retune, and is cause 2.) The tape delay's is made between its
 * halves, of what the first answers: see there. The reverb has none.
 *
 * The phaser has a frequency and, instead of sines, an all-pass coefficient for each side, which the host makes of a sine, the
 * sample rate and its depth control, 0 to 1:
 *
 *   F = 200 + ((((sine x 0.5) + 0.5) x depth) x 3800)     in Hz, 200 to 4,000
 *   t = tan(((TAU x F) / rate) x 0.5)                     TAU is 2 pi
 *   coefficient = (1 - t) / (1 + t)
 *
 * The left sine is that of 2 pi times the phase; the right one is of the phase plus spread x 0.5, not wrapped, where the spread
 * is another control of the host, 0 to 1: with 0 both sides play alike.
 */
#ifndef ROOM_EFFECTS_H
#define ROOM_EFFECTS_H

#include <stdint.h>
#include <xmmintrin.h>

/*
 * The version of this interface: MAJOR moves where a struct or a call's form is changed or goes, so that a host has to be
 * looked over; MINOR where an effect or a call is added; PATCH where neither is, as where a call answers otherwise in some
 * case. The archive does not tell its version: a controller is built with the header and the archive of one version. One that
 * mixes majors links without a word: with 1.x on one side, ticks write an age to an address that nobody gave them; with 2.x on
 * one side, the two take a position for numbers of different widths, and in delay, tape delay and reverb fields for others;
 * with 3.x on one side, calls hand on an address more or less than the other side takes, so that it takes one for another.
 */
#define ROOM_EFFECTS_VERSION_MAJOR 4
#define ROOM_EFFECTS_VERSION_MINOR 0
#define ROOM_EFFECTS_VERSION_PATCH 0

/* The effects by their numbers, for room_places_needed. */
enum room_effect {
    ROOM_DELAY = 1,
    ROOM_CHORUS = 2,
    ROOM_FLANGER = 3,
    ROOM_VIBRATO = 4,
    ROOM_TREMOLO = 5,
    ROOM_REVERB = 6,
    ROOM_PHASER = 7,
    ROOM_TAPE_DELAY = 8
};

/* What a call returns: that it was accepted, or why it was refused. */
enum room_cause {
    ROOM_ACCEPTED = 0,
    ROOM_REFUSED_SAMPLE_RATE = 1,
    ROOM_REFUSED_GLIDE_COEFFICIENT = 2,
    ROOM_REFUSED_MEMORY = 3,
    ROOM_REFUSED_STATE = 4,
    ROOM_REFUSED_CONTROL = 5,
    ROOM_REFUSED_CURVE = 6,
    ROOM_REFUSED_TURN = 7
};

/*
 * Whether this thread's floating-point mode is the one that calls are made in: 1 where sums are rounded to the nearest,
 * subnormal numbers are kept, read and made, and every exception is masked; else 0. It reads the control word of the unit that
 * the library computes with, so that no compiler option changes the answer.
 */
static inline int room_float_mode_ok(void)
{
    return (_mm_getcsr() & 0xffc0u) == 0x1f80u;
}

/* A port: `value`, or unset where `set` is 0. */
typedef struct room_port {
    int set;
    double value;
} room_port;

static inline room_port room_set(double value)
{
    room_port port;
    port.set = 1;
    port.value = value;
    return port;
}

static inline room_port room_unset(void)
{
    room_port port;
    port.set = 0;
    port.value = 0.0;
    return port;
}

/* The bit of a port in the mask of set ports that the library's own functions take. */
static inline uint32_t room_set_bit(room_port port, uint32_t bit)
{
    return port.set != 0 ? bit : 0u;
}

/* The mask of a tick's first three ports: 1, 2 and 4 in the order in which it takes them. */
static inline uint32_t room_set_mask(room_port first, room_port second, room_port third)
{
    return room_set_bit(first, 1u) | room_set_bit(second, 2u) | room_set_bit(third, 4u);
}

/*
 * What the library exports. The functions further down are what a host calls; they hand a struct's fields to these.
 * A state comes as its fields, by their names, a number that may change by its address; what a start or a retune is handed for
 * a field has `new_` before that name. Ports come as a mask of those that are set and their numbers; memory comes as the
 * address of its first place and the count of places. Numbers returned, and what is written on a refusal, are as said above.
 * Masks: 1 is the tick's first port, 2 the second, 4 the third, 8 the fourth, 16 the fifth; bits beyond its ports are not
 * read. A silent's `out` gets 1 for yes, else 0; 0 on a refusal. The tape delay's read half has no `out`: its `sum` gets the
 * sum, +0 on a refusal. A tick's `age`, and a read half's, is as said above.
 */
#ifdef __cplusplus
extern "C" {
#endif

uint32_t room_raw_tremolo_start(double new_sample_rate, double *lfo_phase, double *sample_rate);
uint32_t room_raw_tremolo_reset(double *lfo_phase, double sample_rate);
uint32_t room_raw_tremolo_tick(double *lfo_phase, double sample_rate, uint32_t set, double audio, double depth, double shape,
                               double frequency, double sine, double *out);
uint32_t room_raw_tremolo_silent(double lfo_phase, double sample_rate, uint32_t *out);

uint32_t room_raw_vibrato_start(double new_sample_rate, double *memory, uint64_t places, uint32_t *write_pos,
                                uint32_t *nonzero_places, double *lfo_phase, double *sample_rate);
uint32_t room_raw_vibrato_retune(double new_sample_rate, double *memory, uint64_t places, uint32_t *write_pos,
                                 uint32_t *nonzero_places, double *lfo_phase, double *sample_rate);
uint32_t room_raw_vibrato_reset(double *memory, uint64_t places, uint32_t *write_pos, uint32_t *nonzero_places,
                                double *lfo_phase, double sample_rate);
uint32_t room_raw_vibrato_tick(uint32_t *write_pos, uint32_t *nonzero_places, double *lfo_phase, double sample_rate,
                               double *memory, uint64_t places, uint32_t set, double audio, double depth, double mix,
                               double frequency, double sine, double *out, uint32_t *age);
uint32_t room_raw_vibrato_silent(uint32_t write_pos, uint32_t nonzero_places, double lfo_phase, double sample_rate,
                                 uint32_t *out);

uint32_t room_raw_chorus_start(double new_sample_rate, double *memory, uint64_t places, uint32_t *write_pos,
                               uint32_t *nonzero_places, double lfo_phases[3], double *sample_rate);
uint32_t room_raw_chorus_retune(double new_sample_rate, double *memory, uint64_t places, uint32_t *write_pos,
                                uint32_t *nonzero_places, double lfo_phases[3], double *sample_rate);
uint32_t room_raw_chorus_reset(double *memory, uint64_t places, uint32_t *write_pos, uint32_t *nonzero_places,
                               double lfo_phases[3], double sample_rate);
uint32_t room_raw_chorus_tick(uint32_t *write_pos, uint32_t *nonzero_places, double lfo_phases[3], double sample_rate,
                              double *memory, uint64_t places, uint32_t set, double audio, double depth, double mix,
                              double frequency, double sine0, double sine1, double sine2, double out[3], uint32_t *age);
uint32_t room_raw_chorus_silent(uint32_t write_pos, uint32_t nonzero_places, const double lfo_phases[3], double sample_rate,
                                uint32_t *out);

uint32_t room_raw_flanger_start(double new_sample_rate, double *memory, uint64_t places, uint32_t *write_pos,
                                uint32_t *nonzero_places, double *lfo_phase, double *sample_rate);
uint32_t room_raw_flanger_retune(double new_sample_rate, double *memory, uint64_t places, uint32_t *write_pos,
                                 uint32_t *nonzero_places, double *lfo_phase, double *sample_rate);
uint32_t room_raw_flanger_reset(double *memory, uint64_t places, uint32_t *write_pos, uint32_t *nonzero_places,
                                double *lfo_phase, double sample_rate);
uint32_t room_raw_flanger_tick(uint32_t *write_pos, uint32_t *nonzero_places, double *lfo_phase, double sample_rate,
                               double *memory, uint64_t places, uint32_t set, double audio, double depth, double feedback,
                               double mix, double frequency, double sine0, double sine1, double out[3], uint32_t *age);
uint32_t room_raw_flanger_silent(uint32_t write_pos, uint32_t nonzero_places, double lfo_phase, double sample_rate,
                                 uint32_t *out);

uint32_t room_raw_delay_start(double new_sample_rate, double new_max_delay_secs, double new_delay_smooth_coef,
                              uint32_t new_linear_time, double *memory, uint64_t places, uint32_t *write_pos,
                              uint32_t *nonzero_places, double *smoothed_delay, double *sample_rate,
                              double *delay_smooth_coef, double *max_delay_secs, uint32_t *delay_primed,
                              uint32_t *linear_time);
uint32_t room_raw_delay_retune(double new_sample_rate, double new_delay_smooth_coef, double *memory, uint64_t places,
                               uint32_t *write_pos, uint32_t *nonzero_places, double *smoothed_delay, double *sample_rate,
                               double *delay_smooth_coef, double max_delay_secs, uint32_t *delay_primed,
                               uint32_t linear_time);
uint32_t room_raw_delay_reset(double *memory, uint64_t places, uint32_t *write_pos, uint32_t *nonzero_places,
                              double *smoothed_delay, double sample_rate, double delay_smooth_coef, double max_delay_secs,
                              uint32_t *delay_primed, uint32_t linear_time);
uint32_t room_raw_delay_tick(uint32_t *write_pos, uint32_t *nonzero_places, double *smoothed_delay, double sample_rate,
                             double delay_smooth_coef, double max_delay_secs, uint32_t *delay_primed, uint32_t linear_time,
                             double *memory, uint64_t places, uint32_t set, double audio, double time, double feedback,
                             double mix, double milliseconds, double *out, uint32_t *age);
uint32_t room_raw_delay_silent(uint32_t write_pos, uint32_t nonzero_places, double smoothed_delay, double sample_rate,
                               double delay_smooth_coef, double max_delay_secs, uint32_t delay_primed, uint32_t linear_time,
                               uint32_t *out);

uint32_t room_raw_tape_delay_start(double new_sample_rate, double new_delay_smooth_coef, double *memory, uint64_t places,
                                   uint32_t *write_pos, uint32_t *nonzero_places, double *smoothed_delay, double *kept_audio,
                                   double *kept_read, double *kept_mix, double *sample_rate, double *delay_smooth_coef,
                                   uint32_t *delay_primed, uint32_t *waiting);
uint32_t room_raw_tape_delay_retune(double new_sample_rate, double new_delay_smooth_coef, double *memory, uint64_t places,
                                    uint32_t *write_pos, uint32_t *nonzero_places, double *smoothed_delay,
                                    double *kept_audio, double *kept_read, double *kept_mix, double *sample_rate,
                                    double *delay_smooth_coef, uint32_t *delay_primed, uint32_t *waiting);
uint32_t room_raw_tape_delay_reset(double *memory, uint64_t places, uint32_t *write_pos, uint32_t *nonzero_places,
                                   double *smoothed_delay, double *kept_audio, double *kept_read, double *kept_mix,
                                   double sample_rate, double delay_smooth_coef, uint32_t *delay_primed, uint32_t *waiting);
uint32_t room_raw_tape_delay_read_half(uint32_t write_pos, uint32_t nonzero_places, double *smoothed_delay,
                                       double *kept_audio, double *kept_read, double *kept_mix, double sample_rate,
                                       double delay_smooth_coef, uint32_t *delay_primed, uint32_t *waiting,
                                       const double *memory, uint64_t places, uint32_t set, double audio, double time,
                                       double feedback, double mix, double *sum, uint32_t *age);
uint32_t room_raw_tape_delay_store_half(uint32_t *write_pos, uint32_t *nonzero_places, double smoothed_delay,
                                        double *kept_audio, double *kept_read, double *kept_mix, double sample_rate,
                                        double delay_smooth_coef, uint32_t delay_primed, uint32_t *waiting, double *memory,
                                        uint64_t places, double saturated, double *out);
uint32_t room_raw_tape_delay_silent(uint32_t write_pos, uint32_t nonzero_places, double smoothed_delay, double kept_audio,
                                    double kept_read, double kept_mix, double sample_rate, double delay_smooth_coef,
                                    uint32_t delay_primed, uint32_t waiting, uint32_t *out);

uint32_t room_raw_reverb_start(double new_sample_rate, double *memory, uint64_t places, uint32_t comb_pos_l[8],
                               uint32_t comb_pos_r[8], uint32_t allpass_pos_l[4], uint32_t allpass_pos_r[4],
                               uint32_t *predelay_pos, uint32_t *nonzero_places, double comb_filter_state_l[8],
                               double comb_filter_state_r[8], double *sample_rate);
uint32_t room_raw_reverb_retune(double new_sample_rate, double *memory, uint64_t places, uint32_t comb_pos_l[8],
                                uint32_t comb_pos_r[8], uint32_t allpass_pos_l[4], uint32_t allpass_pos_r[4],
                                uint32_t *predelay_pos, uint32_t *nonzero_places, double comb_filter_state_l[8],
                                double comb_filter_state_r[8], double *sample_rate);
uint32_t room_raw_reverb_reset(double *memory, uint64_t places, uint32_t comb_pos_l[8], uint32_t comb_pos_r[8],
                               uint32_t allpass_pos_l[4], uint32_t allpass_pos_r[4], uint32_t *predelay_pos,
                               uint32_t *nonzero_places, double comb_filter_state_l[8], double comb_filter_state_r[8],
                               double sample_rate);
uint32_t room_raw_reverb_tick(uint32_t comb_pos_l[8], uint32_t comb_pos_r[8], uint32_t allpass_pos_l[4],
                              uint32_t allpass_pos_r[4], uint32_t *predelay_pos, uint32_t *nonzero_places,
                              double comb_filter_state_l[8], double comb_filter_state_r[8], double sample_rate,
                              double *memory, uint64_t places, uint32_t set, double audio, double size, double damping,
                              double mix, double predelay, double out[2]);
uint32_t room_raw_reverb_silent(const uint32_t comb_pos_l[8], const uint32_t comb_pos_r[8], const uint32_t allpass_pos_l[4],
                                const uint32_t allpass_pos_r[4], uint32_t predelay_pos, uint32_t nonzero_places,
                                const double comb_filter_state_l[8], const double comb_filter_state_r[8], double sample_rate,
                                uint32_t *out);

uint32_t room_raw_phaser_start(double new_sample_rate, double allpass_x1_l[6], double allpass_x1_r[6],
                               double allpass_y1_l[6], double allpass_y1_r[6], double *lfo_phase, double *sample_rate);
uint32_t room_raw_phaser_reset(double allpass_x1_l[6], double allpass_x1_r[6], double allpass_y1_l[6],
                               double allpass_y1_r[6], double *lfo_phase, double sample_rate);
uint32_t room_raw_phaser_tick(double allpass_x1_l[6], double allpass_x1_r[6], double allpass_y1_l[6],
                              double allpass_y1_r[6], double *lfo_phase, double sample_rate, uint32_t set, double audio,
                              double feedback, double mix, double stages, double frequency, double coef_l, double coef_r,
                              double out[3]);
uint32_t room_raw_phaser_silent(const double allpass_x1_l[6], const double allpass_x1_r[6], const double allpass_y1_l[6],
                                const double allpass_y1_r[6], double lfo_phase, double sample_rate, uint32_t *out);

/*
 * How many places an effect needs at this rate, for a controller that asks at power-up. effect: 1 delay, 2 chorus, 3 flanger,
 * 4 vibrato, 5 tremolo, 6 reverb, 7 phaser, 8 tape delay (enum room_effect). max_delay_secs: the delay's alone, held as its
 * start holds it; the others' counts don't read it. Tremolo and phaser need 0. For another number, and for a rate that is
 * refused, 2^64 - 1. A host calls this one as it is.
 */
uint64_t room_places_needed(uint32_t effect, double sample_rate, double max_delay_secs);

#ifdef __cplusplus
}
#endif

/* The tremolo */

typedef struct room_tremolo {
    double lfo_phase;   /* at least 0 and below 1 */
    double sample_rate; /* 8,000 to 192,000 */
} room_tremolo;

/* A tremolo at this rate, its phase +0. Refusal: 1. There is no retune: a new rate means a new start. */
static inline uint32_t room_tremolo_start(room_tremolo *state, double sample_rate)
{
    return room_raw_tremolo_start(sample_rate, &state->lfo_phase, &state->sample_rate);
}

/* The phase back to +0. Refusal: 4. */
static inline uint32_t room_tremolo_reset(room_tremolo *state)
{
    return room_raw_tremolo_reset(&state->lfo_phase, state->sample_rate);
}

/*
 * One sample: `audio` made softer and louder, in out[0]; the phase moves on by frequency / rate.
 * depth: 0 to 1, how much; 0.5 if unset. shape: 0 sine to 1 triangle; 0 if unset. Audio is 0 if unset.
 * Refusals: 4, 5, 6.
 */
static inline uint32_t room_tremolo_tick(room_tremolo *state, room_port audio, room_port depth, room_port shape,
                                         double frequency, double sine, double out[1])
{
    return room_raw_tremolo_tick(&state->lfo_phase, state->sample_rate, room_set_mask(audio, depth, shape), audio.value,
                                 depth.value, shape.value, frequency, sine, out);
}

/* Whether the unit is silent. The tremolo keeps no sound, so *silent is 1; on a refusal it is 0. Refusal: 4. */
static inline uint32_t room_tremolo_silent(const room_tremolo *state, int *silent)
{
    uint32_t yes = 0u;
    const uint32_t number = room_raw_tremolo_silent(state->lfo_phase, state->sample_rate, &yes);
    *silent = yes != 0u;
    return number;
}

/* The vibrato. One line, n = 20: at 44,100 it needs 892 places, at 8,000 170, at 192,000 3,850. */

typedef struct room_vibrato {
    uint32_t write_pos;      /* below L */
    uint32_t nonzero_places; /* how many places of the line are neither +0 nor -0: at most L */
    double lfo_phase;        /* at least 0 and below 1 */
    double sample_rate;      /* 8,000 to 192,000 */
} room_vibrato;

/* A vibrato at this rate: position 0, phase +0, +0 in every place. Refusals: 1, 3. */
static inline uint32_t room_vibrato_start(room_vibrato *state, double *memory, uint64_t places, double sample_rate)
{
    return room_raw_vibrato_start(sample_rate, memory, places, &state->write_pos, &state->nonzero_places, &state->lfo_phase,
                                  &state->sample_rate);
}

/* As a new start: position 0, phase +0, +0 in every place, the same rate or another. Refusals: 4, 1, 3. */
static inline uint32_t room_vibrato_retune(room_vibrato *state, double *memory, uint64_t places, double sample_rate)
{
    return room_raw_vibrato_retune(sample_rate, memory, places, &state->write_pos, &state->nonzero_places, &state->lfo_phase,
                                   &state->sample_rate);
}

/* Position 0, count 0, phase +0, +0 in every place; the rate stays. Refusals: 4, 3. */
static inline uint32_t room_vibrato_reset(room_vibrato *state, double *memory, uint64_t places)
{
    return room_raw_vibrato_reset(memory, places, &state->write_pos, &state->nonzero_places, &state->lfo_phase,
                                  state->sample_rate);
}

/*
 * One sample in out[0]: `audio` blended with the line, read about 10 ms back; `audio` is stored as it is, NaN and infinities
 * too. The phase moves on by frequency / rate.
 * depth: 0 to 1, how far the read moves; 0.5 if unset. mix: 0 dry to 1 wet; 1 if unset. Audio is 0 if unset. At mix 1 the
 * audio is still multiplied by 0, so that an infinite one gives NaN at once.
 * *age is that of its read; 0 on a refusal. Refusals: 4, 3, 5, 6.
 */
static inline uint32_t room_vibrato_tick(room_vibrato *state, double *memory, uint64_t places, room_port audio,
                                         room_port depth, room_port mix, double frequency, double sine, double out[1],
                                         uint32_t *age)
{
    return room_raw_vibrato_tick(&state->write_pos, &state->nonzero_places, &state->lfo_phase, state->sample_rate, memory,
                                 places, room_set_mask(audio, depth, mix), audio.value, depth.value, mix.value, frequency,
                                 sine, out, age);
}

/* Whether the unit is silent: every place of its line is +0 or -0. On a refusal *silent is 0. Refusal: 4. */
static inline uint32_t room_vibrato_silent(const room_vibrato *state, int *silent)
{
    uint32_t yes = 0u;
    const uint32_t number = room_raw_vibrato_silent(state->write_pos, state->nonzero_places, state->lfo_phase,
                                                    state->sample_rate, &yes);
    *silent = yes != 0u;
    return number;
}

/* The chorus. One line, n = 32: at 44,100 it needs 1,421 places, at 8,000 266, at 192,000 6,154. */

typedef struct room_chorus {
    uint32_t write_pos;      /* below L */
    uint32_t nonzero_places; /* how many places of the line are neither +0 nor -0: at most L */
    double lfo_phases[3];    /* each at least 0 and below 1 */
    double sample_rate;      /* 8,000 to 192,000 */
} room_chorus;

/* A chorus at this rate: position 0, phases 0, 0.33 and 0.67, +0 in every place. Refusals: 1, 3. */
static inline uint32_t room_chorus_start(room_chorus *state, double *memory, uint64_t places, double sample_rate)
{
    return room_raw_chorus_start(sample_rate, memory, places, &state->write_pos, &state->nonzero_places, state->lfo_phases,
                                 &state->sample_rate);
}

/* The same rate or another: position 0, +0 in every place; the phases stay. Refusals: 4, 1, 3. */
static inline uint32_t room_chorus_retune(room_chorus *state, double *memory, uint64_t places, double sample_rate)
{
    return room_raw_chorus_retune(sample_rate, memory, places, &state->write_pos, &state->nonzero_places, state->lfo_phases,
                                  &state->sample_rate);
}

/* Position 0, count 0, phases 0, 0.33 and 0.67, +0 in every place; the rate stays. Refusals: 4, 3. */
static inline uint32_t room_chorus_reset(room_chorus *state, double *memory, uint64_t places)
{
    return room_raw_chorus_reset(memory, places, &state->write_pos, &state->nonzero_places, state->lfo_phases,
                                 state->sample_rate);
}

/*
 * Three samples, mono, left and right: `audio` blended with three voices, which all read the one line, each 7 to 32 ms back,
 * before the audio is stored there. Audio that is NaN or infinite counts as +0. Phase i, which is voice i's, moves on by
 * frequency x (1 + (i - 1) x 0.1) / rate.
 * depth: 0 to 1, how far the reads move; 0.5 if unset. mix: 0 dry to 1 wet; 0.5 if unset. Audio is 0 if unset. sines[i] is
 * the sine of phase i.
 * *age is the largest of the three voices'; 0 on a refusal. Refusals: 4, 3, 5, 6.
 */
static inline uint32_t room_chorus_tick(room_chorus *state, double *memory, uint64_t places, room_port audio,
                                        room_port depth, room_port mix, double frequency, const double sines[3],
                                        double out[3], uint32_t *age)
{
    return room_raw_chorus_tick(&state->write_pos, &state->nonzero_places, state->lfo_phases, state->sample_rate, memory,
                                places, room_set_mask(audio, depth, mix), audio.value, depth.value, mix.value, frequency,
                                sines[0], sines[1], sines[2], out, age);
}

/* Whether the unit is silent: every place of its line is +0 or -0. On a refusal *silent is 0. Refusal: 4. */
static inline uint32_t room_chorus_silent(const room_chorus *state, int *silent)
{
    uint32_t yes = 0u;
    const uint32_t number = room_raw_chorus_silent(state->write_pos, state->nonzero_places, state->lfo_phases,
                                                   state->sample_rate, &yes);
    *silent = yes != 0u;
    return number;
}

/* The flanger. Two lines, n = 10: at 44,100 it needs 2 x 451 places, at 8,000 2 x 90, at 192,000 2 x 1,930. */

typedef struct room_flanger {
    uint32_t write_pos;      /* below L; one for the two lines */
    uint32_t nonzero_places; /* how many places of both lines are neither +0 nor -0: at most 2 L */
    double lfo_phase;        /* at least 0 and below 1 */
    double sample_rate;      /* 8,000 to 192,000 */
} room_flanger;

/* A flanger at this rate: position 0, phase +0, +0 in every place. Refusals: 1, 3. */
static inline uint32_t room_flanger_start(room_flanger *state, double *memory, uint64_t places, double sample_rate)
{
    return room_raw_flanger_start(sample_rate, memory, places, &state->write_pos, &state->nonzero_places, &state->lfo_phase,
                                  &state->sample_rate);
}

/* The same rate or another: position 0, count 0, +0 in every place; the phase stays. Refusals: 4, 1, 3. */
static inline uint32_t room_flanger_retune(room_flanger *state, double *memory, uint64_t places, double sample_rate)
{
    return room_raw_flanger_retune(sample_rate, memory, places, &state->write_pos, &state->nonzero_places, &state->lfo_phase,
                                   &state->sample_rate);
}

/* Position 0, count 0, phase +0, +0 in every place; the rate stays. Refusals: 4, 3. */
static inline uint32_t room_flanger_reset(room_flanger *state, double *memory, uint64_t places)
{
    return room_raw_flanger_reset(memory, places, &state->write_pos, &state->nonzero_places, &state->lfo_phase,
                                  state->sample_rate);
}

/*
 * Three samples, mono, left and right: `audio` blended with what its lines play, left with the first, right with the second,
 * each read 1 to 10 ms back; mono is left. Audio that is NaN or infinite counts as +0. Each line stores the audio plus what
 * it played itself times the feedback; with huge audio that may overflow. The phase moves on by frequency / rate.
 * depth: 0 to 1, how far the reads move; 0.5 if unset. feedback: -0.95 to 0.95; 0 if unset. mix: 0 dry to 1 wet; 0.5 if
 * unset. Audio is 0 if unset. sines[0] is the sine of the phase, sines[1] that of the phase plus half the spread, which is the
 * host's: 0 to 1, 0 to sweep both lines alike.
 * *age is the larger of the two lines'; 0 on a refusal. Refusals: 4, 3, 5, 6.
 */
static inline uint32_t room_flanger_tick(room_flanger *state, double *memory, uint64_t places, room_port audio,
                                         room_port depth, room_port feedback, room_port mix, double frequency,
                                         const double sines[2], double out[3], uint32_t *age)
{
    return room_raw_flanger_tick(&state->write_pos, &state->nonzero_places, &state->lfo_phase, state->sample_rate, memory,
                                 places, room_set_mask(audio, depth, feedback) | room_set_bit(mix, 8u), audio.value,
                                 depth.value, feedback.value, mix.value, frequency, sines[0], sines[1], out, age);
}

/* Whether the unit is silent: every place of its lines is +0 or -0. On a refusal *silent is 0. Refusal: 4. */
static inline uint32_t room_flanger_silent(const room_flanger *state, int *silent)
{
    uint32_t yes = 0u;
    const uint32_t number = room_raw_flanger_silent(state->write_pos, state->nonzero_places, state->lfo_phase,
                                                    state->sample_rate, &yes);
    *silent = yes != 0u;
    return number;
}

/*
 * The delay. One line of L places, the whole part of rate x maximum, plus 1: for 2 s at 44,100 it needs 88,201 places, for
 * 0.001 s at 8,000 9, for 60 s at 192,000 11,520,001.
 *
 * A flag is off where it is 0 and on where it is any other number; a call that writes one writes 0 or 1.
 *
 * The glide coefficient is the host's: exp(-1 / (0.005 x rate)) glides to a new time in a few ms, 0 jumps there at once.
 */

typedef struct room_delay {
    uint32_t write_pos;       /* below L */
    uint32_t nonzero_places;  /* how many places of the line are neither +0 nor -0: at most L */
    double smoothed_delay;    /* how many places back the last tick read: 1 to L - 1; +0, sign included, while not primed */
    double sample_rate;       /* 8,000 to 192,000 */
    double delay_smooth_coef; /* of the glide: at least 0 and below 1 */
    double max_delay_secs;    /* the maximum: 0.001 to 60 */
    uint32_t delay_primed;    /* a flag: whether a tick has read since the last start, retune or reset */
    uint32_t linear_time;     /* a flag: whether ticks take their time from the time port, in seconds, not in milliseconds */
} room_delay;

/*
 * A delay at this rate with this glide coefficient: position 0, not primed, smoothed_delay +0, +0 in every place. The maximum,
 * in seconds, is clamped to 0.001 to 60; an infinite one, and NaN, means 2. It is the state's `max_delay_secs` that L goes by.
 * `linear_time` is a flag. Refusals: 1, 2, 3.
 */
static inline uint32_t room_delay_start(room_delay *state, double *memory, uint64_t places, double sample_rate,
                                        double max_delay_secs, double delay_smooth_coef, uint32_t linear_time)
{
    return room_raw_delay_start(sample_rate, max_delay_secs, delay_smooth_coef, linear_time, memory, places,
                                &state->write_pos, &state->nonzero_places, &state->smoothed_delay, &state->sample_rate,
                                &state->delay_smooth_coef, &state->max_delay_secs, &state->delay_primed,
                                &state->linear_time);
}

/*
 * The same rate or another, and the coefficient that goes with it: position 0, not primed, smoothed_delay +0, +0 in every
 * place; the maximum and `linear_time` stay. Refusals: 4, 1, 2, 3.
 */
static inline uint32_t room_delay_retune(room_delay *state, double *memory, uint64_t places, double sample_rate,
                                         double delay_smooth_coef)
{
    return room_raw_delay_retune(sample_rate, delay_smooth_coef, memory, places, &state->write_pos, &state->nonzero_places,
                                 &state->smoothed_delay, &state->sample_rate, &state->delay_smooth_coef,
                                 state->max_delay_secs, &state->delay_primed, state->linear_time);
}

/* Position 0, count 0, not primed, smoothed_delay +0, +0 in every place; the rest stays. Refusals: 4, 3. */
static inline uint32_t room_delay_reset(room_delay *state, double *memory, uint64_t places)
{
    return room_raw_delay_reset(memory, places, &state->write_pos, &state->nonzero_places, &state->smoothed_delay,
                                state->sample_rate, state->delay_smooth_coef, state->max_delay_secs, &state->delay_primed,
                                state->linear_time);
}

/*
 * One sample in out[0]: `audio` blended with what the line plays. Audio that is NaN or infinite counts as +0. The line stores
 * the audio plus what it played times the feedback; with huge audio that may overflow.
 * time: read where `linear_time` is on, and there alone: seconds, 0 to the maximum; 0.5 if unset. milliseconds: read where
 * `linear_time` is off, and there alone: the host's curve number from its time control, as 1 x (maximum x 1000)^time; any but
 * NaN. Either goes as milliseconds x rate / 1000 places back, clamped to 1 to L - 1, so that a time of 0 is one sample. The
 * first tick after a start, a retune or a reset reads there; later ones glide there, and read at that target +
 * (smoothed_delay - the target) x delay_smooth_coef.
 * feedback: 0 to 0.99; 0 if unset. mix: 0 dry to 1 wet; 0.5 if unset. Audio is 0 if unset.
 * *age is that of its read, which glides; 0 on a refusal. Refusals: 4, 3, 5, 6.
 */
static inline uint32_t room_delay_tick(room_delay *state, double *memory, uint64_t places, room_port audio, room_port time,
                                       room_port feedback, room_port mix, double milliseconds, double out[1],
                                       uint32_t *age)
{
    return room_raw_delay_tick(&state->write_pos, &state->nonzero_places, &state->smoothed_delay, state->sample_rate,
                               state->delay_smooth_coef, state->max_delay_secs, &state->delay_primed, state->linear_time,
                               memory, places, room_set_mask(audio, time, feedback) | room_set_bit(mix, 8u), audio.value,
                               time.value, feedback.value, mix.value, milliseconds, out, age);
}

/* Whether the unit is silent: every place of its line is +0 or -0. On a refusal *silent is 0. Refusal: 4. */
static inline uint32_t room_delay_silent(const room_delay *state, int *silent)
{
    uint32_t yes = 0u;
    const uint32_t number = room_raw_delay_silent(state->write_pos, state->nonzero_places, state->smoothed_delay,
                                                  state->sample_rate, state->delay_smooth_coef, state->max_delay_secs,
                                                  state->delay_primed, state->linear_time, &yes);
    *silent = yes != 0u;
    return number;
}

/*
 * The tape delay. One line of L places, the whole part of rate x 12, plus 1: at 44,100 it needs 529,201 places, at 8,000
 * 96,001, at 192,000 2,304,001. Flags and the glide coefficient are as the delay's.
 *
 * What goes onto the tape is saturated, which is the host's to do, in the middle of a tick. So a tick is two calls:
 *
 *   room_tape_delay_read_half(&state, memory, places, audio, time, feedback, mix, &sum, &age)
 *   v = tanh_sat(sum / 5.0, 1.0)
 *   room_tape_delay_store_half(&state, memory, places, v, out)
 *
 * where the host computes tanh_sat as
 *
 *   t = max(tanh(1.0), 0.001)
 *   v = tanh((sum / 5.0) x t) / t       held to -1 to 1
 *
 * From a read half that is accepted to the store half after it the read waits: the state keeps what the store half puts out,
 * every other read half is refused with 7, and the unit is not silent, whatever its line holds. Start, retune and reset drop a
 * read that waits, and its tick is never heard. A store half that is refused leaves it waiting, for the right one to follow.
 * There is no call that drops a read that waits and keeps the line: a host that wants to keep it hands a store half a value,
 * which plays the tick and stores five times that value.
 *
 * Every place lies in -5 to 5 as long as nobody else writes there. In memory that somebody wrote, a read may find a NaN, or an
 * infinity, of which 0 x infinity makes one: the sum is then NaN, and so is v, with which the store half is refused with 6, and
 * the read goes on waiting. A host then clears (start, retune or reset), or hands a store half any value from -1 to 1, as 0.0:
 * that ends the read, stores five times the value, and puts out NaN or an infinity, of what was read.
 */

typedef struct room_tape_delay {
    uint32_t write_pos;       /* below L */
    uint32_t nonzero_places;  /* how many places of the line are neither +0 nor -0: at most L */
    double smoothed_delay;    /* how many places back the last read was: 1 to L - 1; +0, sign included, while not primed */
    double kept_audio;        /* of a read that waits the audio, any float; +0, sign included, while none waits */
    double kept_read;         /* what was read, any float; likewise */
    double kept_mix;          /* the mix, 0 to 1; likewise */
    double sample_rate;       /* 8,000 to 192,000 */
    double delay_smooth_coef; /* of the glide: at least 0 and below 1 */
    uint32_t delay_primed;    /* a flag: whether a read half has read since the last start, retune or reset */
    uint32_t waiting;         /* a flag: whether a read waits for its store half */
} room_tape_delay;

/*
 * A tape delay at this rate with this glide coefficient: position 0, not primed, smoothed_delay +0, no read that waits, +0 in
 * every place. Refusals: 1, 2, 3.
 */
static inline uint32_t room_tape_delay_start(room_tape_delay *state, double *memory, uint64_t places, double sample_rate,
                                             double delay_smooth_coef)
{
    return room_raw_tape_delay_start(sample_rate, delay_smooth_coef, memory, places, &state->write_pos,
                                     &state->nonzero_places, &state->smoothed_delay, &state->kept_audio, &state->kept_read,
                                     &state->kept_mix, &state->sample_rate, &state->delay_smooth_coef, &state->delay_primed,
                                     &state->waiting);
}

/*
 * As a new start, the same rate or another, and the coefficient that goes with it: position 0, not primed, smoothed_delay +0,
 * no read that waits, +0 in every place. Refusals: 4, 1, 2, 3.
 */
static inline uint32_t room_tape_delay_retune(room_tape_delay *state, double *memory, uint64_t places, double sample_rate,
                                              double delay_smooth_coef)
{
    return room_raw_tape_delay_retune(sample_rate, delay_smooth_coef, memory, places, &state->write_pos,
                                      &state->nonzero_places, &state->smoothed_delay, &state->kept_audio, &state->kept_read,
                                      &state->kept_mix, &state->sample_rate, &state->delay_smooth_coef, &state->delay_primed,
                                      &state->waiting);
}

/* Position 0, count 0, not primed, smoothed_delay +0, no read that waits, +0 in every place; the rest stays. Refusals: 4, 3. */
static inline uint32_t room_tape_delay_reset(room_tape_delay *state, double *memory, uint64_t places)
{
    return room_raw_tape_delay_reset(memory, places, &state->write_pos, &state->nonzero_places, &state->smoothed_delay,
                                     &state->kept_audio, &state->kept_read, &state->kept_mix, state->sample_rate,
                                     state->delay_smooth_coef, &state->delay_primed, &state->waiting);
}

/*
 * The first half of a tick: reads the line, and puts into *sum the audio plus what it read times the feedback, of which the
 * host makes v. It writes no place and leaves the position; the read waits from then on. Audio that is NaN or infinite counts
 * as +0. time: seconds, 0 to 12; 0.5 if unset; it goes as (time x 1000) x rate / 1000 places back, clamped to 1 to L - 1, so
 * that a time of 0 is one sample. The first read after a start, a retune or a reset is there; later ones glide there, and are
 * at that target + (smoothed_delay - the target) x delay_smooth_coef.
 * feedback: 0 to 1.5; 0 if unset. mix: 0 dry to 1 wet; 0.5 if unset. Audio is 0 if unset.
 * *age is that of its read, which glides; 0 on a refusal, as *sum is +0. Refusals: 4, 7, 3, 5.
 */
static inline uint32_t room_tape_delay_read_half(room_tape_delay *state, const double *memory, uint64_t places,
                                                 room_port audio, room_port time, room_port feedback, room_port mix,
                                                 double *sum, uint32_t *age)
{
    return room_raw_tape_delay_read_half(state->write_pos, state->nonzero_places, &state->smoothed_delay, &state->kept_audio,
                                         &state->kept_read, &state->kept_mix, state->sample_rate, state->delay_smooth_coef,
                                         &state->delay_primed, &state->waiting, memory, places,
                                         room_set_mask(audio, time, feedback) | room_set_bit(mix, 8u), audio.value,
                                         time.value, feedback.value, mix.value, sum, age);
}

/*
 * The second half: stores 5 times `saturated`, which is v, -1 to 1, at the position, which moves on, and puts one sample into
 * out[0]: the audio of the read that waits, blended with what it read. None waits then, and what was kept is +0. A store half
 * has no age. Refusals: 4, 7, 3, 6.
 */
static inline uint32_t room_tape_delay_store_half(room_tape_delay *state, double *memory, uint64_t places, double saturated,
                                                  double out[1])
{
    return room_raw_tape_delay_store_half(&state->write_pos, &state->nonzero_places, state->smoothed_delay,
                                          &state->kept_audio, &state->kept_read, &state->kept_mix, state->sample_rate,
                                          state->delay_smooth_coef, state->delay_primed, &state->waiting, memory, places,
                                          saturated, out);
}

/*
 * Whether the unit is silent: no read waits, and every place of its line is +0 or -0. On a refusal *silent is 0. Refusal: 4.
 */
static inline uint32_t room_tape_delay_silent(const room_tape_delay *state, int *silent)
{
    uint32_t yes = 0u;
    const uint32_t number = room_raw_tape_delay_silent(state->write_pos, state->nonzero_places, state->smoothed_delay,
                                                       state->kept_audio, state->kept_read, state->kept_mix,
                                                       state->sample_rate, state->delay_smooth_coef, state->delay_primed,
                                                       state->waiting, &yes);
    *silent = yes != 0u;
    return number;
}

/*
 * The reverb. Its lines lie in a tank of 87,136 places, the same at every rate:
 *
 *   left comb i        from place i x 4,096 on            i from 0 to 7, 4,096 places
 *   right comb i       from 32,768 + i x 4,096 on         i from 0 to 7, 4,096 places
 *   left all-pass i    from 65,536 + i x 1,500 on         i from 0 to 3, 1,500 places
 *   right all-pass i   from 71,536 + i x 1,500 on         i from 0 to 3, 1,500 places
 *   predelay           from 77,536 on                     9,600 places
 *
 * Of a comb or an all-pass the first places are in use, as many as its length at the rate: on the left 1116, 1188, 1277, 1356,
 * 1422, 1491, 1557, 1617 and 556, 441, 341, 225, each x rate / 44,100 cut to its whole part; on the right as many and the
 * spread, 23 x rate / 44,100 rounded, at least 1; at most 4,095 and 1,499. The predelay is in use entirely. In all 14,200
 * places are in use at 8,000, 86,157 at 192,000.
 */

typedef struct room_reverb {
    uint32_t comb_pos_l[8]; /* each below its comb's length, left and right */
    uint32_t comb_pos_r[8];
    uint32_t allpass_pos_l[4]; /* each below its all-pass's length */
    uint32_t allpass_pos_r[4];
    uint32_t predelay_pos;         /* below 9,600 */
    uint32_t nonzero_places;       /* how many places in use are neither +0 nor -0: at most the lengths and 9,600 together */
    double comb_filter_state_l[8]; /* the combs' damping stores: any floats */
    double comb_filter_state_r[8];
    double sample_rate; /* 8,000 to 192,000 */
} room_reverb;

/* A reverb at this rate: positions 0, damping stores +0, +0 in every place. Refusals: 1, 3. */
static inline uint32_t room_reverb_start(room_reverb *state, double *memory, uint64_t places, double sample_rate)
{
    return room_raw_reverb_start(sample_rate, memory, places, state->comb_pos_l, state->comb_pos_r, state->allpass_pos_l,
                                 state->allpass_pos_r, &state->predelay_pos, &state->nonzero_places,
                                 state->comb_filter_state_l, state->comb_filter_state_r, &state->sample_rate);
}

/* As a new start: positions 0, damping stores +0, +0 in every place, the same rate or another. Refusals: 4, 1, 3. */
static inline uint32_t room_reverb_retune(room_reverb *state, double *memory, uint64_t places, double sample_rate)
{
    return room_raw_reverb_retune(sample_rate, memory, places, state->comb_pos_l, state->comb_pos_r, state->allpass_pos_l,
                                  state->allpass_pos_r, &state->predelay_pos, &state->nonzero_places,
                                  state->comb_filter_state_l, state->comb_filter_state_r, &state->sample_rate);
}

/* Positions 0, count 0, damping stores +0, +0 in every place; the rate stays. Refusals: 4, 3. */
static inline uint32_t room_reverb_reset(room_reverb *state, double *memory, uint64_t places)
{
    return room_raw_reverb_reset(memory, places, state->comb_pos_l, state->comb_pos_r, state->allpass_pos_l,
                                 state->allpass_pos_r, &state->predelay_pos, &state->nonzero_places,
                                 state->comb_filter_state_l, state->comb_filter_state_r, state->sample_rate);
}

/*
 * Two samples, left and right: `audio` blended with what the room plays. Audio that is NaN or infinite counts as +0. It goes
 * through the predelay into the eight combs of each side, whose sum times 0.125 goes through that side's four all-passes. One
 * place of each line is written, 25 in all; with huge audio that may overflow.
 * size: 0 to 1, the combs' feedback is 0.28 + size x 0.7; 0.5 if unset. damping: 0 bright to 1 dark; 0.5 if unset. mix: 0 dry
 * to 1 wet; 0.5 if unset. predelay: 0 to 1, the whole part of predelay x 0.1 x rate samples, at most 9,599; 0 if unset; at 0
 * samples the combs get the audio itself. Audio is 0 if unset.
 * Refusals: 4, 3, 5.
 */
static inline uint32_t room_reverb_tick(room_reverb *state, double *memory, uint64_t places, room_port audio, room_port size,
                                        room_port damping, room_port mix, room_port predelay, double out[2])
{
    return room_raw_reverb_tick(state->comb_pos_l, state->comb_pos_r, state->allpass_pos_l, state->allpass_pos_r,
                                &state->predelay_pos, &state->nonzero_places, state->comb_filter_state_l,
                                state->comb_filter_state_r, state->sample_rate, memory, places,
                                room_set_mask(audio, size, damping) | room_set_bit(mix, 8u) | room_set_bit(predelay, 16u),
                                audio.value, size.value, damping.value, mix.value, predelay.value, out);
}

/*
 * Whether the unit is silent: every place in use and each of the sixteen damping stores is +0 or -0. On a refusal *silent is
 * 0. Refusal: 4.
 */
static inline uint32_t room_reverb_silent(const room_reverb *state, int *silent)
{
    uint32_t yes = 0u;
    const uint32_t number = room_raw_reverb_silent(state->comb_pos_l, state->comb_pos_r, state->allpass_pos_l,
                                                   state->allpass_pos_r, state->predelay_pos, state->nonzero_places,
                                                   state->comb_filter_state_l, state->comb_filter_state_r,
                                                   state->sample_rate, &yes);
    *silent = yes != 0u;
    return number;
}

/* The phaser. Two chains, left and right, of six all-passes each, whose 24 numbers are in the state: it has no lines. */

typedef struct room_phaser {
    double allpass_x1_l[6]; /* each all-pass's last input, left and right: any floats */
    double allpass_x1_r[6];
    double allpass_y1_l[6]; /* each all-pass's last output, left and right: any floats */
    double allpass_y1_r[6];
    double lfo_phase;   /* at least 0 and below 1 */
    double sample_rate; /* 8,000 to 192,000 */
} room_phaser;

/* A phaser at this rate: all 24 numbers +0, phase +0. Refusal: 1. There is no retune: a new rate means a new start. */
static inline uint32_t room_phaser_start(room_phaser *state, double sample_rate)
{
    return room_raw_phaser_start(sample_rate, state->allpass_x1_l, state->allpass_x1_r, state->allpass_y1_l,
                                 state->allpass_y1_r, &state->lfo_phase, &state->sample_rate);
}

/* All 24 numbers +0, phase +0; the rate stays. Refusal: 4. */
static inline uint32_t room_phaser_reset(room_phaser *state)
{
    return room_raw_phaser_reset(state->allpass_x1_l, state->allpass_x1_r, state->allpass_y1_l, state->allpass_y1_r,
                                 &state->lfo_phase, state->sample_rate);
}

/*
 * Three samples, mono, left and right: `audio` blended with what the two chains play; mono is left. Audio that is NaN or
 * infinite counts as +0. A chain is handed the audio plus the feedback times the last output of its last all-pass in use, as
 * that was before this tick. An all-pass plays (coefficient x input) + its last input - (coefficient x its last output). Those
 * not in use keep both numbers: once they are in use again, the first tick feeds back the old output of the last one. The phase
 * moves on by frequency / rate. With huge audio, and with any where the feedback is large and the coefficients jump, a number
 * may overflow: its all-pass then stays infinite or NaN until a reset, and its side plays that while the all-pass is in use.
 * feedback: -0.95 to 0.95; 0 if unset. mix: 0 dry to 1 wet; 0.5 if unset. stages: how many all-passes of each chain are in use,
 * the first two below 0.33, the first four below 0.66, else all six; 1 if unset. Audio is 0 if unset. coef_l and coef_r: each
 * chain's coefficient, -1 to 1.
 * Refusals: 4, 5, 6.
 */
static inline uint32_t room_phaser_tick(room_phaser *state, room_port audio, room_port feedback, room_port mix,
                                        room_port stages, double frequency, double coef_l, double coef_r, double out[3])
{
    return room_raw_phaser_tick(state->allpass_x1_l, state->allpass_x1_r, state->allpass_y1_l, state->allpass_y1_r,
                                &state->lfo_phase, state->sample_rate,
                                room_set_mask(audio, feedback, mix) | room_set_bit(stages, 8u), audio.value, feedback.value,
                                mix.value, stages.value, frequency, coef_l, coef_r, out);
}

/*
 * Whether the unit is silent: each of its 24 numbers is +0 or -0, those of all-passes that are not in use too. On a refusal
 * *silent is 0. Refusal: 4.
 */
static inline uint32_t room_phaser_silent(const room_phaser *state, int *silent)
{
    uint32_t yes = 0u;
    const uint32_t number = room_raw_phaser_silent(state->allpass_x1_l, state->allpass_x1_r, state->allpass_y1_l,
                                                   state->allpass_y1_r, state->lfo_phase, state->sample_rate, &yes);
    *silent = yes != 0u;
    return number;
}

#endif
