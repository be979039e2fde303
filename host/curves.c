#include "curves.h"

#include <math.h>

/* 2 pi, in the digits of Rust's TAU: M_PI is not in C99. */
static const double tau = 6.28318530717958647692528676655900577;

/* DelayLine::DELAY_SMOOTH_SECS */
static const double delay_smooth_seconds = 0.005;

double clamp(double x, double low, double high)
{
    if (x < low)
        return low;
    return x > high ? high : x;
}

double chorus_frequency(double rate_cv)
{
    return 0.1 * pow(50.0, clamp(rate_cv, 0.0, 1.0));
}

double flanger_frequency(double rate_cv)
{
    return 0.05 * pow(100.0, clamp(rate_cv, 0.0, 1.0));
}

double vibrato_frequency(double rate_cv)
{
    return 0.1 * pow(150.0, clamp(rate_cv, 0.0, 1.0));
}

double tremolo_frequency(double rate_cv)
{
    return 0.1 * pow(200.0, clamp(rate_cv, 0.0, 1.0));
}

double delay_milliseconds(double maximum, double time_cv)
{
    const double min_delay_ms = 1.0;
    const double max_delay_ms = maximum * 1000.0;
    return min_delay_ms * pow(max_delay_ms / min_delay_ms, clamp(time_cv, 0.0, 1.0));
}

double env_coef(double seconds, double sample_rate)
{
    const double denom = seconds * sample_rate;
    if (denom <= 0.0)
        return 0.0;
    return exp(-1.0 / denom);
}

double delay_coefficient(double sample_rate)
{
    return env_coef(delay_smooth_seconds, sample_rate);
}

double phase_sine(double phase)
{
    return sin(phase * tau);
}

/*
 * It needs no clamp. Half of omega is above 0, does not fall where the frequency grows, nor grow where the rate does; at its
 * largest, of 4,000 Hz at 8,000, it is the float next below pi / 2, whose tangent is some 1.6e16. So tan_w is finite and not
 * below 0, and then |1 - tan_w| is at most 1 + tan_w, rounded too.
 */
double phaser_coefficient(double sine, double depth, double sample_rate)
{
    const double min_freq = 200.0;
    const double max_freq = 4000.0;
    const double freq = min_freq + (sine * 0.5 + 0.5) * depth * (max_freq - min_freq);
    const double omega = tau * freq / sample_rate;
    const double tan_w = tan(omega * 0.5);
    return (1.0 - tan_w) / (1.0 + tan_w);
}

double tanh_sat(double x, double drive)
{
    const double t = fmax(tanh(drive), 0.001);
    return clamp(tanh(x * t) / t, -1.0, 1.0);
}

/* Full scale is 5 here: the store half multiplies by it again. */
double tape_saturated(double sum)
{
    return tanh_sat(sum / 5.0, 1.0);
}
