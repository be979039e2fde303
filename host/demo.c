#include "demo.h"

#include "render.h"

#include <stdio.h>
#include <stdlib.h>
#include <string.h>

enum { DEMO_RATE = 44100, OTHER_RATE = 48000, TAIL_SECONDS = 2 };

/* Settings at which each effect is easy to hear. */
typedef struct showing {
    const char *name;
    const char *chain;
    const char *settings[4];
} showing;

static const showing showings[] = {
    {"dry", "none", {NULL}},
    {"delay", "delay", {"delay.time=0.75", "delay.feedback=0.5", NULL}},
    {"chorus", "chorus", {"chorus.rate=0.5", NULL}},
    {"flanger", "flanger", {"flanger.depth=0.8", "flanger.feedback=0.7", NULL}},
    {"vibrato", "vibrato", {"vibrato.rate=0.75", "vibrato.depth=0.2", NULL}},
    {"tremolo", "tremolo", {"tremolo.rate=0.75", "tremolo.depth=1", NULL}},
    {"reverb", "reverb", {"reverb.size=0.8", "reverb.predelay=0.2", NULL}},
    {"phaser", "phaser", {"phaser.rate=0.5", "phaser.feedback=0.7", NULL}},
    {"tape", "tape", {"tape.time=0.35", "tape.feedback=0.9", NULL}},
    {"room", "chorus,delay,reverb", {"delay.time=0.75", "delay.feedback=0.4", "delay.mix=0.3", NULL}},
};
enum { SHOWING_COUNT = sizeof showings / sizeof showings[0] };

static int set_up(chain *c, const showing *s, trouble *why)
{
    if (!chain_read(c, s->chain, why))
        return 0;
    for (int i = 0; s->settings[i] != NULL; i++)
        if (!chain_set(c, s->settings[i], why))
            return 0;
    return 1;
}

static void print_row(const showing *s, const level *loud, const chain *c)
{
    char age[20] = "-";
    if (c->oldest > 0)
        snprintf(age, sizeof age, "%.6g", chain_oldest_ms(c, DEMO_RATE));
    printf("  %-8s %6.4f  %6.4f  %9s  %11llu  --chain %s", s->name, loud->peak, level_rms(loud), age,
           (unsigned long long)c->places, s->chain);
    for (int i = 0; s->settings[i] != NULL; i++)
        printf(" %s", s->settings[i]);
    putchar('\n');
}

static int show(const char *folder, const showing *s, trouble *why)
{
    char path[1000];
    chain c;
    source from;
    level loud;
    if (snprintf(path, sizeof path, "%s/%s.wav", folder, s->name) >= (int)sizeof path)
        return trouble_say(why, "the name of the folder is too long");
    if (!set_up(&c, s, why) || !source_open(&from, NULL, DEMO_RATE, why))
        return 0;
    const int good = chain_start(&c, from.channels, from.rate, why) &&
                     render(&from, &c, path, 4, (uint64_t)TAIL_SECONDS * DEMO_RATE, &loud, why);
    if (good)
        print_row(s, &loud, &c);
    source_close(&from);
    chain_free(&c);
    return good;
}

/* How many of a tick's samples are not +0, bit by bit: -0 counts as one that is not. */
static unsigned sounding(const double *out, int answers)
{
    unsigned count = 0;
    for (int i = 0; i < answers; i++) {
        uint64_t bits;
        memcpy(&bits, &out[i], sizeof bits);
        count += bits != 0;
    }
    return count;
}

/* What a take let be heard: its samples, and how many of them were not +0. */
typedef struct take {
    uint64_t samples, sounding;
    uint32_t refused;
} take;

/* Plays the phrase, or as much silence where `song` is NULL, and looks at every sample that comes out. */
static take play(unit *u, phrase *song)
{
    block sound;
    take t = {0, 0, 0};
    double out[3];
    const uint64_t usual = 4 * OTHER_RATE;
    const uint64_t frames = usual > u->places ? usual : u->places; /* so that any line goes round */
    for (uint64_t at = 0; at < frames && t.refused == 0; at += sound.frames) {
        sound.frames = frames - at < BLOCK_FRAMES ? (size_t)(frames - at) : BLOCK_FRAMES;
        if (song != NULL)
            phrase_read(song, &sound);
        for (size_t i = 0; i < sound.frames && t.refused == 0; i++) {
            t.refused = u->kind->tick(u, song != NULL ? sound.side[0][i] : 0.0, out);
            t.sounding += sounding(out, u->kind->answers);
            t.samples += (unsigned)u->kind->answers;
        }
    }
    return t;
}

/* What stands between two hires. */
enum { RESET, START, RETUNE, CLEARINGS };
static const char *const clearing_names[CLEARINGS] = {"reset", "start", "retune"};

/* A start anew goes to the other rate, a retune comes back from there. */
static uint32_t clear(unit *u, int clearing)
{
    if (clearing == RESET)
        return u->kind->reset(u);
    return clearing == START ? u->kind->start(u, OTHER_RATE) : u->kind->retune(u, DEMO_RATE);
}

/* A song, a clearing, and a take of silence after it. */
static int next_hirer(unit *u, phrase *song, int clearing, trouble *why)
{
    int silent_before = 0;
    int silent = 0;
    phrase_begin(song, DEMO_RATE);
    const take first = play(u, song);
    uint32_t refused = first.refused | u->kind->silent(u, &silent_before);
    refused |= clear(u, clearing);
    refused |= u->kind->silent(u, &silent);
    const take next = play(u, NULL);
    printf("  %-8s %-6s  song: %llu of %llu samples sound; next take: %llu of %llu are not +0\n", u->kind->name,
           clearing_names[clearing], (unsigned long long)first.sounding, (unsigned long long)first.samples,
           (unsigned long long)next.sounding, (unsigned long long)next.samples);
    if ((refused | next.refused) != 0)
        return trouble_say(why, "%s refused a call", u->kind->name);
    if (first.sounding == 0 || silent_before)
        return trouble_say(why, "%s: the song before the clearing is not heard, so this shows nothing", u->kind->name);
    if (next.sounding != 0 || !silent)
        return trouble_say(why, "%s: the next take is not silent", u->kind->name);
    return 1;
}

/* An effect that keeps sound. It is started at the higher rate, so that what it is lent is enough for both. */
static int clears(const showing *s, phrase *song, trouble *why)
{
    chain c;
    if (!set_up(&c, s, why))
        return 0;
    const int good = chain_start(&c, 1, OTHER_RATE, why);
    unit *u = &c.stage[0].unit[0];
    const uint32_t refused = good ? u->kind->retune(u, DEMO_RATE) : 0;
    int shown = good && refused == 0;
    if (refused != 0)
        trouble_say(why, "%s refused a call", u->kind->name);
    for (int clearing = RESET; clearing < CLEARINGS && shown; clearing++)
        if (clearing != RETUNE || u->kind->retune != u->kind->start)
            shown = next_hirer(u, song, clearing, why);
    chain_free(&c);
    return shown;
}

int demo(const char *folder, trouble *why)
{
    phrase *song = malloc(sizeof *song);
    int good = song != NULL || trouble_say(why, "not enough memory for the phrase");
    printf("A plucked phrase of 4 s at %d, with a tail of %d s, through each effect into %s\n\n", DEMO_RATE, TAIL_SECONDS,
           folder);
    puts("  effect     peak     RMS    age, ms  places lent  asked for by");
    for (int i = 0; i < SHOWING_COUNT && good; i++)
        good = show(folder, &showings[i], why);
    puts("\nThe next hirer: a song, then a reset (or a start or a retune at another rate), then a take of silence\n");
    for (int i = 0; i < EFFECT_COUNT && good; i++)
        for (int s = 0; s < SHOWING_COUNT && good; s++)
            if (strcmp(showings[s].chain, effects[i].name) == 0 && strcmp(effects[i].name, "tremolo") != 0)
                good = clears(&showings[s], song, why);
    free(song);
    if (good)
        puts("\nNothing of the song is left: every sample of every next take is +0, bit for bit.");
    return good;
}
