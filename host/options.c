#include "options.h"

#include "chain.h"
#include "wav.h"

#include <math.h>
#include <stdio.h>
#include <string.h>

static const double longest_tail = 600.0;

static int read_tail(options *o, const char *text, trouble *why)
{
    if (!read_number(text, &o->tail) || o->tail < 0.0 || o->tail > longest_tail)
        return trouble_say(why, "--tail %.60s: a tail is 0 to %g seconds", text, longest_tail);
    return 1;
}

static int read_bits(options *o, const char *text, trouble *why)
{
    o->bytes = strcmp(text, "64") == 0 ? 8 : 4;
    if (strcmp(text, "32") != 0 && strcmp(text, "64") != 0)
        return trouble_say(why, "--bits %.60s: floats of 32 or 64 bits are written", text);
    return 1;
}

static int read_rate(options *o, const char *text, trouble *why)
{
    double rate;
    if (!read_number(text, &rate) || rate < LOWEST_RATE || rate > HIGHEST_RATE || rate != floor(rate))
        return trouble_say(why, "--rate %.60s: a sample rate is a whole number from %d to %d", text, LOWEST_RATE,
                           HIGHEST_RATE);
    o->rate = (uint32_t)rate;
    return 1;
}

static int take_text(const char **to, const char *text)
{
    *to = text;
    return 1;
}

/* An option that takes the next word. Returns -1 where it is none of these. */
static int take_option(options *o, const char *word, const char *value, trouble *why)
{
    static const char *const names[] = {"-o", "--chain", "--tail", "--bits", "--rate", "--demo"};
    size_t which = 0;
    while (which < sizeof names / sizeof names[0] && strcmp(word, names[which]) != 0)
        which++;
    if (which == sizeof names / sizeof names[0])
        return -1;
    if (value == NULL)
        return trouble_say(why, "%s needs a word after it", word);
    switch (which) {
    case 0: return take_text(&o->out, value);
    case 1: return take_text(&o->chain, value);
    case 2: return read_tail(o, value, why);
    case 3: return read_bits(o, value, why);
    case 4: return read_rate(o, value, why);
    default: return take_text(&o->demo, value);
    }
}

static int take_file(options *o, const char *word, trouble *why)
{
    if (o->in != NULL)
        return trouble_say(why, "two files to read: %.200s and %.200s", o->in, word);
    return take_text(&o->in, word);
}

/* A word with a = in it sets a control; a file of such a name can be given after --. */
static int take_word(options *o, const char *word, trouble *why)
{
    if (strchr(word, '=') == NULL)
        return take_file(o, word, why);
    if (o->setting_count == MOST_SETTINGS)
        return trouble_say(why, "more than %d controls are set", MOST_SETTINGS);
    return take_text(&o->settings[o->setting_count++], word);
}

static int check_whole(const options *o, trouble *why)
{
    if (o->help)
        return 1;
    if (o->demo != NULL && (o->in != NULL || o->out != NULL || o->chain != NULL || o->setting_count > 0 || o->tail > 0.0 ||
                            o->bytes != 4 || o->rate != 0))
        return trouble_say(why, "--demo chooses its own files, chains, controls, tail, bits and rate");
    if (o->demo != NULL && o->demo[0] == '\0')
        return trouble_say(why, "no folder for the demonstration: --demo names it");
    if (o->demo != NULL)
        return 1;
    if (o->chain == NULL)
        return trouble_say(why, "no chain: --chain names the effects; --help shows all");
    if (o->out == NULL || o->out[0] == '\0')
        return trouble_say(why, "no file to write: -o names it; --help shows all");
    if (o->in != NULL && o->rate != 0)
        return trouble_say(why, "--rate is for the phrase; %.200s has its own", o->in);
    return 1;
}

int options_read(options *o, int count, char **words, trouble *why)
{
    int only_files = 0;
    memset(o, 0, sizeof *o);
    o->bytes = 4;
    for (int i = 1; i < count; i++) {
        const char *word = words[i];
        int done = only_files ? take_file(o, word, why) : take_option(o, word, i + 1 < count ? words[i + 1] : NULL, why);
        if (done > 0 && !only_files)
            i++;
        if (done < 0 && strcmp(word, "--") == 0)
            done = only_files = 1;
        else if (done < 0 && strcmp(word, "--help") == 0)
            done = o->help = 1;
        else if (done < 0 && word[0] == '-')
            return trouble_say(why, "unknown option %.60s; --help shows all", word);
        else if (done < 0)
            done = take_word(o, word, why);
        if (!done)
            return 0;
    }
    return check_whole(o, why);
}

void options_help(void)
{
    puts("room [IN.wav] -o OUT.wav --chain EFFECT[,EFFECT...] [EFFECT.CONTROL=VALUE...]\n"
         "\n"
         "Plays a mono or stereo WAV file, or a plucked phrase where none is given, through the effects in order.\n"
         "\n"
         "  -o OUT.wav       what to write; it is there only if all went well\n"
         "  --chain LIST     up to 16 effects, or none\n"
         "  --tail SECONDS   silence played in after the end, so that echoes ring out: 0 to 600; 0\n"
         "  --bits 32|64     of the floats that are written; 32\n"
         "  --rate RATE      of the phrase: 8000 to 192000; 44100\n"
         "  --demo FOLDER    the phrase through each effect into FOLDER, and a check that after a song a reset, a start anew\n"
         "                   and a retune leave silence; the phaser has no retune, the tremolo keeps no sound\n"
         "\n"
         "A control goes for every effect of its name, delay2.time for the second delay alone; the later setting holds.\n");
    for (int i = 0; i < EFFECT_COUNT; i++)
        for (const control *c = effects[i].controls; c->name != NULL; c++) {
            char initial[20] = "unset";
            if (!isnan(c->initial))
                snprintf(initial, sizeof initial, "%g", c->initial);
            printf("  %7s.%-9s %5g to %-5g %5s  %s\n", effects[i].name, c->name, c->low, c->high, initial, c->what);
        }
}
