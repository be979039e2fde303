/*
 * The curve numbers of the effects, as quiver's timefx.rs maps its controls, and the tape delay's saturation, as its analog.rs
 * has it. The ticks have no powers, exponentials, sines or tangents of their own: they are handed these.
 */
#ifndef HOST_CURVES_H
#define HOST_CURVES_H

/* x held to low..high; -0 and NaN pass, as in the Rust. */
double clamp(double x, double low, double high);

/* LFO frequencies in Hz from a rate control, 0 to 1. */
double chorus_frequency(double rate_cv);  /* 0.1 to 5 */
double flanger_frequency(double rate_cv); /* 0.05 to 5, the phaser's too */
double vibrato_frequency(double rate_cv); /* 0.1 to 15 */
double tremolo_frequency(double rate_cv); /* 0.1 to 20 */

/* The delay's time in milliseconds from a time control, 0 to 1: from 1 ms to the maximum, which is in seconds. */
double delay_milliseconds(double maximum, double time_cv);

/* The coefficient with which something glides to its target within some `seconds`: exp(-1 / (seconds x rate)). */
double env_coef(double seconds, double sample_rate);

/* The delay's glide coefficient at this rate, the tape delay's too. */
double delay_coefficient(double sample_rate);

/* The sine of a phase, which counts in whole turns. */
double phase_sine(double phase);

/* The coefficient of the phaser's all-passes, -1 to 1: of a sweep from 200 Hz up to 4,000, by a sine and a depth, 0 to 1. */
double phaser_coefficient(double sine, double depth, double sample_rate);

/* Soft clipping to -1 to 1 by a hyperbolic tangent, of slope 1 at 0; NaN passes. */
double tanh_sat(double x, double drive);

/* What the tape delay's store half is handed, -1 to 1, of the sum that its read half answers. */
double tape_saturated(double sum);

#endif
