#include "phrase.h"

#include <math.h>

/* Hz: E minor, up and down. The lowest has 1,165 places round at 192,000, so STRING_PLACES is enough. */
static const double notes[NOTE_COUNT] = {164.81, 196.00, 246.94, 329.63, 293.66, 246.94, 220.00, 164.81};
static const double note_seconds = 0.25;
static const double phrase_seconds = 4.0;
static const double ring_seconds = 2.0; /* until a note is 60 dB down */
static const double gain = 0.4;

/* -1 to 1, from the top bits of a linear congruential counter. */
static double next_noise(phrase *song)
{
    song->noise = song->noise * 1664525u + 1013904223u;
    return (double)(song->noise >> 8) / 8388608.0 - 1.0;
}

static void pluck(phrase *song, string *s, double hz)
{
    s->period = song->rate / hz;
    s->loss = pow(10.0, -3.0 / (ring_seconds * hz));
    s->last = 0.0;
    s->at = (uint32_t)s->period + 2;
    for (uint32_t i = 0; i < s->at; i++)
        s->ring[i] = next_noise(song);
}

/* The average of two neighbours is half a sample late, so the ring is read that much sooner, between two places. */
static double string_sample(string *s)
{
    const double distance = s->period - 0.5;
    const uint32_t whole = (uint32_t)distance;
    const double part = distance - whole;
    const double near = s->ring[(s->at - whole) % STRING_PLACES];
    const double far = s->ring[(s->at - whole - 1) % STRING_PLACES];
    const double read = near * (1.0 - part) + far * part;
    const double sample = s->loss * 0.5 * (read + s->last);
    s->last = read;
    s->ring[s->at % STRING_PLACES] = sample;
    s->at++;
    return sample;
}

void phrase_begin(phrase *song, uint32_t rate)
{
    song->rate = rate;
    song->at = 0;
    song->frames = (uint64_t)(phrase_seconds * rate);
    song->noise = 1;
    for (int i = 0; i < NOTE_COUNT; i++)
        pluck(song, &song->strings[i], notes[i]);
}

void phrase_read(phrase *song, block *sound)
{
    sound->channels = 1;
    for (size_t i = 0; i < sound->frames; i++, song->at++) {
        double sum = 0.0;
        for (int n = 0; n < NOTE_COUNT; n++)
            if ((double)song->at >= n * note_seconds * song->rate)
                sum += string_sample(&song->strings[n]);
        sound->side[0][i] = gain * sum;
    }
}
