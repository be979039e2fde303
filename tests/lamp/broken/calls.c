/*
 * Broken calls, so that the driver is seen to notice them: linked with --wrap, each stands before the library's own and breaks
 * it in one way, where LAMP_BROKEN in the environment is the number of that way; else it hands on.
 */
#include "room_effects.h"

#include <math.h>
#include <stdlib.h>

#define REAL(call) extern __typeof__(room_raw_##call) __real_room_raw_##call, __wrap_room_raw_##call
REAL(delay_tick);
REAL(delay_retune);
REAL(delay_silent);
REAL(chorus_tick);
REAL(chorus_retune);
REAL(flanger_tick);
REAL(flanger_reset);
REAL(vibrato_tick);
REAL(tremolo_tick);
REAL(reverb_tick);
REAL(reverb_silent);
REAL(phaser_silent);
REAL(tape_delay_reset);
REAL(tape_delay_read_half);
REAL(tape_delay_store_half);
REAL(tape_delay_silent);

static int broken(int way)
{
    static int is = -1;
    if (is < 0) {
        const char *said = getenv("LAMP_BROKEN");
        is = said == NULL ? 0 : atoi(said);
    }
    return is == way;
}

static const double zeros[8];

/* 1: the question asks the count alone. 2: of the stores it reads the left ones alone. */
uint32_t __wrap_room_raw_reverb_silent(const uint32_t *comb_l, const uint32_t *comb_r, const uint32_t *pass_l,
                                       const uint32_t *pass_r, uint32_t predelay_pos, uint32_t count, const double *store_l,
                                       const double *store_r, double rate, uint32_t *out)
{
    return __real_room_raw_reverb_silent(comb_l, comb_r, pass_l, pass_r, predelay_pos, count, broken(1) ? zeros : store_l,
                                         broken(1) || broken(2) ? zeros : store_r, rate, out);
}

/* 3: the question reads the last outputs alone. */
uint32_t __wrap_room_raw_phaser_silent(const double *x1_l, const double *x1_r, const double *y1_l, const double *y1_r,
                                       double phase, double rate, uint32_t *out)
{
    return __real_room_raw_phaser_silent(broken(3) ? zeros : x1_l, broken(3) ? zeros : x1_r, y1_l, y1_r, phase, rate, out);
}

/* 6: the question is always answered with yes. */
uint32_t __wrap_room_raw_delay_silent(uint32_t pos, uint32_t count, double distance, double rate, double coefficient,
                                      double maximum, uint32_t primed, uint32_t linear, uint32_t *out)
{
    const uint32_t number =
        __real_room_raw_delay_silent(pos, count, distance, rate, coefficient, maximum, primed, linear, out);
    *out = broken(6) && number == 0u ? 1u : *out;
    return number;
}

/* 26: a retune keeps the count. */
uint32_t __wrap_room_raw_delay_retune(double new_rate, double new_coefficient, double *memory, uint64_t places, uint32_t *pos,
                                      uint32_t *count, double *distance, double *rate, double *coefficient, double maximum,
                                      uint32_t *primed, uint32_t linear)
{
    const uint32_t before = *count;
    const uint32_t number = __real_room_raw_delay_retune(new_rate, new_coefficient, memory, places, pos, count, distance, rate,
                                                         coefficient, maximum, primed, linear);
    *count = broken(26) ? before : *count;
    return number;
}

/* 7: an audio of -0 is stored as the smallest sound, and not counted. 8: infinite milliseconds come out as no number. 28: a
   subnormal number is not counted. */
uint32_t __wrap_room_raw_delay_tick(uint32_t *pos, uint32_t *count, double *distance, double rate, double coefficient,
                                    double maximum, uint32_t *primed, uint32_t linear, double *memory, uint64_t places,
                                    uint32_t set, double audio, double time, double feedback, double mix, double milliseconds,
                                    double *out, uint32_t *age)
{
    const uint32_t at = *pos, before = *count;
    const uint32_t number =
        __real_room_raw_delay_tick(pos, count, distance, rate, coefficient, maximum, primed, linear, memory, places, set,
                                   audio, time, feedback, mix, milliseconds, out, age);
    if (broken(7) && number == 0u && (set & 1u) != 0u && audio == 0.0 && signbit(audio)) {
        memory[at] = 0x1p-1074;
    }
    if (broken(8) && number == 0u && linear == 0u && isinf(milliseconds)) {
        out[0] = (double)NAN;
    }
    *count = broken(28) && number == 0u && fpclassify(memory[at]) == FP_SUBNORMAL ? before : *count;
    return number;
}

/* 5: -0 is counted. 9: samples of -0 come out as +0. */
uint32_t __wrap_room_raw_chorus_tick(uint32_t *pos, uint32_t *count, double *phases, double rate, double *memory,
                                     uint64_t places, uint32_t set, double audio, double depth, double mix, double frequency,
                                     double sine0, double sine1, double sine2, double *out, uint32_t *age)
{
    const uint32_t at = *pos;
    const uint32_t number = __real_room_raw_chorus_tick(pos, count, phases, rate, memory, places, set, audio, depth, mix,
                                                        frequency, sine0, sine1, sine2, out, age);
    int i;
    *count += broken(5) && number == 0u && memory[at] == 0.0 && signbit(memory[at]);
    for (i = 0; broken(9) && i < 3; i++) {
        out[i] = out[i] + 0.0;
    }
    return number;
}

/* 10: a retune leaves a sound in the first place, and does not count it. */
uint32_t __wrap_room_raw_chorus_retune(double new_rate, double *memory, uint64_t places, uint32_t *pos, uint32_t *count,
                                       double *phases, double *rate)
{
    const uint32_t number = __real_room_raw_chorus_retune(new_rate, memory, places, pos, count, phases, rate);
    if (broken(10) && number == 0u) {
        memory[0] = 1.0;
    }
    return number;
}

/* 11: no input rule. 27: of the two lines the left one alone is counted. */
uint32_t __wrap_room_raw_flanger_tick(uint32_t *pos, uint32_t *count, double *phase, double rate, double *memory,
                                      uint64_t places, uint32_t set, double audio, double depth, double feedback, double mix,
                                      double frequency, double sine0, double sine1, double *out, uint32_t *age)
{
    const uint32_t at = *pos, before = *count;
    const int sounded = memory[at] != 0.0;
    const uint32_t number = __real_room_raw_flanger_tick(pos, count, phase, rate, memory, places, set, audio, depth, feedback,
                                                         mix, frequency, sine0, sine1, out, age);
    if (broken(11) && number == 0u && (set & 1u) != 0u && !isfinite(audio)) {
        out[2] = audio;
    }
    *count = broken(27) && number == 0u ? before + (memory[at] != 0.0) - (before > 0u && sounded) : *count;
    return number;
}

/* 12: a reset leaves a sound in the last place in use, and does not count it. */
uint32_t __wrap_room_raw_flanger_reset(double *memory, uint64_t places, uint32_t *pos, uint32_t *count, double *phase,
                                       double rate)
{
    const uint32_t number = __real_room_raw_flanger_reset(memory, places, pos, count, phase, rate);
    if (broken(12) && number == 0u) {
        memory[room_places_needed(ROOM_FLANGER, rate, 0.0) - 1u] = 1.0;
    }
    return number;
}

/* 4: the first spare place is counted. 13: the input rule where there is none. 17: a refused tick leaves the age that was
   there. 25: what is lost is not counted. 29: a NaN is not counted. */
uint32_t __wrap_room_raw_vibrato_tick(uint32_t *pos, uint32_t *count, double *phase, double rate, double *memory,
                                      uint64_t places, uint32_t set, double audio, double depth, double mix, double frequency,
                                      double sine, double *out, uint32_t *age)
{
    const uint32_t before = *age, at = *pos, counted = *count;
    const double heard = broken(13) && !isfinite(audio) ? 0.0 : audio;
    const uint32_t number = __real_room_raw_vibrato_tick(pos, count, phase, rate, memory, places, set, heard, depth, mix,
                                                         frequency, sine, out, age);
    const uint64_t in_use = room_places_needed(ROOM_VIBRATO, rate, 0.0);
    *age = broken(17) && number != 0u ? before : *age;
    if (number == 0u) {
        *count += broken(4) && places > in_use && memory[in_use] != 0.0;
        *count = broken(25) && *count < counted ? counted : broken(29) && isnan(memory[at]) ? counted : *count;
    }
    return number;
}

/* 14: a depth that is not clamped: zero times infinity. */
uint32_t __wrap_room_raw_tremolo_tick(double *phase, double rate, uint32_t set, double audio, double depth, double shape,
                                      double frequency, double sine, double *out)
{
    const uint32_t number = __real_room_raw_tremolo_tick(phase, rate, set, audio, depth, shape, frequency, sine, out);
    if (broken(14) && number == 0u && (set & 2u) != 0u && isinf(depth)) {
        out[0] = out[0] * depth;
    }
    return number;
}

/* 15: a tick that is refused for its controls moves a position. 16: a tick leaves a sound in a store. 30: a tick that is
   refused for its memory counts. */
uint32_t __wrap_room_raw_reverb_tick(uint32_t *comb_l, uint32_t *comb_r, uint32_t *pass_l, uint32_t *pass_r,
                                     uint32_t *predelay_pos, uint32_t *count, double *store_l, double *store_r, double rate,
                                     double *memory, uint64_t places, uint32_t set, double audio, double size, double damping,
                                     double mix, double predelay, double *out)
{
    const uint32_t number =
        __real_room_raw_reverb_tick(comb_l, comb_r, pass_l, pass_r, predelay_pos, count, store_l, store_r, rate, memory,
                                    places, set, audio, size, damping, mix, predelay, out);
    if (broken(15) && number == 5u) {
        *predelay_pos = (*predelay_pos + 1u) % 9600u;
    }
    if (broken(16) && number == 0u) {
        store_r[7] = 0x1p-1074;
    }
    *count += broken(30) && number == 3u;
    return number;
}

/* 18: the question asks the count alone, and not whether a read waits. */
uint32_t __wrap_room_raw_tape_delay_silent(uint32_t pos, uint32_t count, double distance, double kept_audio, double kept_read,
                                           double kept_mix, double rate, double coefficient, uint32_t primed,
                                           uint32_t waiting, uint32_t *out)
{
    const int fits = kept_mix >= 0.0 && kept_mix <= 1.0;
    if (broken(18) && waiting != 0u && fits) {
        return __real_room_raw_tape_delay_silent(pos, count, distance, 0.0, 0.0, 0.0, rate, coefficient, primed, 0, out);
    }
    return __real_room_raw_tape_delay_silent(pos, count, distance, kept_audio, kept_read, kept_mix, rate, coefficient, primed,
                                             waiting, out);
}

/* 19: a reset leaves a read waiting. */
uint32_t __wrap_room_raw_tape_delay_reset(double *memory, uint64_t places, uint32_t *pos, uint32_t *count, double *distance,
                                          double *kept_audio, double *kept_read, double *kept_mix, double rate,
                                          double coefficient, uint32_t *primed, uint32_t *waiting)
{
    const uint32_t before = *waiting;
    const uint32_t number = __real_room_raw_tape_delay_reset(memory, places, pos, count, distance, kept_audio, kept_read,
                                                             kept_mix, rate, coefficient, primed, waiting);
    *waiting = broken(19) && number == 0u ? before : *waiting;
    return number;
}

/* 20: no input rule. 21: what was read is kept as a sound. */
uint32_t __wrap_room_raw_tape_delay_read_half(uint32_t pos, uint32_t count, double *distance, double *kept_audio,
                                              double *kept_read, double *kept_mix, double rate, double coefficient,
                                              uint32_t *primed, uint32_t *waiting, const double *memory, uint64_t places,
                                              uint32_t set, double audio, double time, double feedback, double mix,
                                              double *sum, uint32_t *age)
{
    const uint32_t number =
        __real_room_raw_tape_delay_read_half(pos, count, distance, kept_audio, kept_read, kept_mix, rate, coefficient, primed,
                                             waiting, memory, places, set, audio, time, feedback, mix, sum, age);
    if (broken(20) && number == 0u && (set & 1u) != 0u && !isfinite(audio)) {
        *sum = audio;
    }
    if (broken(21) && number == 0u) {
        *kept_read = 0x1p-1074;
    }
    return number;
}

/* 22: a store half that is refused drops the read. 23: the mix that was kept stays. 24: -0 is stored as the smallest sound, and
   not counted. 31: a sound is not counted. */
uint32_t __wrap_room_raw_tape_delay_store_half(uint32_t *pos, uint32_t *count, double distance, double *kept_audio,
                                               double *kept_read, double *kept_mix, double rate, double coefficient,
                                               uint32_t primed, uint32_t *waiting, double *memory, uint64_t places,
                                               double saturated, double *out)
{
    const uint32_t at = *pos, before = *count;
    const double mix = *kept_mix;
    const uint32_t number =
        __real_room_raw_tape_delay_store_half(pos, count, distance, kept_audio, kept_read, kept_mix, rate, coefficient, primed,
                                              waiting, memory, places, saturated, out);
    if (broken(22) && number == 6u) {
        *waiting = 0;
        *kept_audio = *kept_read = *kept_mix = 0.0;
    }
    if (broken(23) && number == 0u) {
        *kept_mix = mix;
    }
    if (broken(24) && number == 0u && saturated == 0.0 && signbit(saturated)) {
        memory[at] = 0x1p-1074;
    }
    *count = broken(31) && *count > before ? before : *count;
    return number;
}
