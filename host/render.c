#include "render.h"

#include <math.h>
#include <stdlib.h>
#include <string.h>

/* From this length on the host says how far it is; shorter ones are done in a few seconds. */
enum { LONG_SECONDS = 120 };

int source_open(source *from, const char *path, uint32_t rate, trouble *why)
{
    memset(from, 0, sizeof *from);
    if (path != NULL) {
        if (!wav_open(&from->wav, path, why))
            return 0;
        from->rate = from->wav.rate;
        from->channels = from->wav.channels;
        from->frames = from->wav.frames;
        return 1;
    }
    from->song = malloc(sizeof *from->song);
    if (from->song == NULL)
        return trouble_say(why, "not enough memory for the phrase");
    phrase_begin(from->song, rate);
    from->rate = rate;
    from->channels = 1;
    from->frames = from->song->frames;
    return 1;
}

void source_close(source *from)
{
    wav_close(&from->wav);
    free(from->song);
    from->song = NULL;
}

double level_rms(const level *l)
{
    return l->samples > 0 ? sqrt(l->squares / (double)l->samples) : 0.0;
}

static void measure_block(level *l, const block *sound, unsigned bytes)
{
    for (unsigned c = 0; c < sound->channels; c++)
        for (size_t i = 0; i < sound->frames; i++) {
            const double x = sound->side[c][i];
            if (!wav_finite(x, bytes))
                continue;
            l->peak = fmax(l->peak, fabs(x));
            l->squares += x * x;
        }
    l->samples += sound->channels * sound->frames;
}

/* The block from frame `at` on: sound while the source has some, then silence, never both in one block. */
static int next_block(source *from, uint64_t at, uint64_t total, block *sound, trouble *why)
{
    const int sounds = at < from->frames;
    const uint64_t left = (sounds ? from->frames : total) - at;
    sound->frames = left < BLOCK_FRAMES ? (size_t)left : BLOCK_FRAMES;
    sound->channels = from->channels;
    if (sounds && from->song == NULL)
        return wav_read(&from->wav, sound, why);
    if (sounds)
        phrase_read(from->song, sound);
    else
        for (unsigned c = 0; c < sound->channels; c++)
            for (size_t i = 0; i < sound->frames; i++)
                sound->side[c][i] = 0.0;
    return 1;
}

/* A line for every tenth of a long render that is done. */
static void say_progress(uint64_t before, uint64_t done, uint64_t total, uint32_t rate)
{
    if (total / rate >= LONG_SECONDS && before * 10 / total != done * 10 / total)
        fprintf(stderr, "room: %d %% of %.0f s\n", (int)(done * 100 / total), (double)total / rate);
}

static int render_all(source *from, chain *through, wav_writer *to, uint64_t total, level *loud, trouble *why)
{
    block *sound = malloc(sizeof *sound);
    uint64_t at = 0;
    int good = sound != NULL || trouble_say(why, "not enough memory for a block");
    while (good && at < total) {
        const uint64_t before = at;
        good = next_block(from, at, total, sound, why) && chain_play(through, sound, why) && wav_write(to, sound, why);
        if (good) {
            measure_block(loud, sound, to->bytes);
            at += sound->frames;
            say_progress(before, at, total, from->rate);
        }
    }
    free(sound);
    return good;
}

int render(source *from, chain *through, const char *path, unsigned bytes, uint64_t tail, level *loud, trouble *why)
{
    wav_writer to;
    const level nothing = {0.0, 0.0, 0, 0};
    const uint64_t total = from->frames + tail;
    *loud = nothing;
    if (!wav_create(&to, path, from->rate, through->channels, bytes, total, why))
        return 0;
    if (!render_all(from, through, &to, total, loud, why)) {
        wav_drop(&to);
        return 0;
    }
    loud->not_finite = to.not_finite;
    return wav_finish(&to, why);
}
