/* A wrong vibrato, a wrong phaser and a wrong tape delay: the reset of the first, the start of the second and the retune of the
   third say that they were done, and count no place that sounds, and leave the line, the phaser's its 24 numbers, as it is. And
   a wrong chorus, whose reset clears the line and keeps the count. The demonstration has to find it out. Each has the form of
   the call in whose place it is linked. */
#include "room_effects.h"

#include <string.h>

extern __typeof__(room_raw_chorus_reset) reset_without_counting;
extern __typeof__(room_raw_vibrato_reset) reset_without_clearing;
extern __typeof__(room_raw_phaser_start) start_without_clearing;
extern __typeof__(room_raw_tape_delay_retune) retune_without_clearing;

uint32_t reset_without_clearing(double *memory, uint64_t places, uint32_t *write_pos, uint32_t *nonzero_places,
                                double *lfo_phase, double sample_rate)
{
    (void)memory;
    (void)places;
    (void)sample_rate;
    *write_pos = *nonzero_places = 0;
    *lfo_phase = 0.0;
    return 0;
}

uint32_t reset_without_counting(double *memory, uint64_t places, uint32_t *write_pos, uint32_t *nonzero_places,
                                double lfo_phases[3], double sample_rate)
{
    (void)nonzero_places;
    (void)sample_rate;
    memset(memory, 0, places * sizeof *memory);
    *write_pos = 0;
    lfo_phases[0] = 0.0;
    lfo_phases[1] = 0.33;
    lfo_phases[2] = 0.67;
    return 0;
}

uint32_t start_without_clearing(double new_sample_rate, double allpass_x1_l[6], double allpass_x1_r[6],
                                double allpass_y1_l[6], double allpass_y1_r[6], double *lfo_phase, double *sample_rate)
{
    (void)allpass_x1_l;
    (void)allpass_x1_r;
    (void)allpass_y1_l;
    (void)allpass_y1_r;
    *lfo_phase = 0.0;
    *sample_rate = new_sample_rate;
    return 0;
}

uint32_t retune_without_clearing(double new_sample_rate, double new_coefficient, double *memory, uint64_t places,
                                 uint32_t *write_pos, uint32_t *nonzero_places, double *smoothed_delay, double *kept_audio,
                                 double *kept_read, double *kept_mix, double *sample_rate, double *delay_smooth_coef,
                                 uint32_t *delay_primed, uint32_t *waiting)
{
    (void)memory;
    (void)places;
    *write_pos = *nonzero_places = 0;
    *smoothed_delay = *kept_audio = *kept_read = *kept_mix = 0.0;
    *delay_primed = *waiting = 0;
    *sample_rate = new_sample_rate;
    *delay_smooth_coef = new_coefficient;
    return 0;
}
