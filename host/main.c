/* room: plays WAV files through the room effects. See options_help. */
#include "demo.h"
#include "options.h"
#include "render.h"

#include <math.h>
#include <stdio.h>

enum { PHRASE_RATE = 44100 };

static int complain(const trouble *why)
{
    fflush(stdout);
    fprintf(stderr, "room: %s\n", why->text);
    return 1;
}

static void print_summary(const options *o, const source *from, const chain *c, const level *loud)
{
    printf("%s: %u channel%s at %lu, %.2f s, peak %.4f, RMS %.4f, %llu places lent\n", o->out, c->channels,
           c->channels == 1 ? "" : "s", (unsigned long)from->rate,
           (double)loud->samples / c->channels / from->rate, loud->peak, level_rms(loud), (unsigned long long)c->places);
    if (c->oldest > 0) /* there may be no effect that answers ages, and no frame to play */
        printf("largest age of a read: %.9g ms\n", chain_oldest_ms(c, from->rate));
    /* No error: the effects take any audio, and what they make of it is theirs to say. */
    if (loud->not_finite > 0)
        fprintf(stderr, "room: %s: %llu samples are NaN or infinite\n", o->out, (unsigned long long)loud->not_finite);
}

/* Everything is read and tried before the file is begun, so that a mistake costs no time. */
static int run(const options *o, trouble *why)
{
    chain c;
    source from;
    level loud;
    if (!chain_read(&c, o->chain, why))
        return 0;
    for (unsigned i = 0; i < o->setting_count; i++)
        if (!chain_set(&c, o->settings[i], why))
            return 0;
    if (!source_open(&from, o->in, o->rate != 0 ? o->rate : PHRASE_RATE, why))
        return 0;
    const uint64_t tail = (uint64_t)floor(o->tail * from.rate + 0.5);
    const int good = chain_start(&c, from.channels, from.rate, why) &&
                     render(&from, &c, o->out, o->bytes, tail, &loud, why);
    if (good)
        print_summary(o, &from, &c, &loud);
    source_close(&from);
    chain_free(&c);
    return good;
}

int main(int count, char **words)
{
    options o;
    trouble why;
    if (!options_read(&o, count, words, &why))
        return complain(&why);
    if (o.help) {
        options_help();
        return 0;
    }
    if (!room_float_mode_ok()) {
        trouble_say(&why, "the floating-point mode is not the one that C starts a program in: was it linked with -ffast-math?");
        return complain(&why);
    }
    if (!(o.demo != NULL ? demo(o.demo, &why) : run(&o, &why)))
        return complain(&why);
    return 0;
}
