#include "chain.h"

#include <ctype.h>
#include <math.h>
#include <stdio.h>
#include <stdlib.h>
#include <string.h>

int read_number(const char *text, double *number)
{
    char *end;
    *number = strtod(text, &end);
    return end != text && *end == '\0' && isfinite(*number);
}

/* "delay, chorus and tape", of all effects. */
static void list_effects(char *list, size_t size)
{
    size_t at = 0;
    for (int i = 0; i < EFFECT_COUNT && at < size; i++) {
        const char *before = i == 0 ? "" : i == EFFECT_COUNT - 1 ? " and " : ", ";
        at += (size_t)snprintf(list + at, size - at, "%s%s", before, effects[i].name);
    }
}

static int unknown_effect(const char *name, size_t length, trouble *why)
{
    char list[400];
    if (length == 0)
        return trouble_say(why, "the chain has an empty place between its commas");
    list_effects(list, sizeof list);
    return trouble_say(why, "unknown effect '%.*s': there are %s", (int)(length < 60 ? length : 60), name, list);
}

static int add_stage(chain *c, const char *name, size_t length, trouble *why)
{
    const effect *kind = effect_named(name, length);
    if (kind == NULL)
        return unknown_effect(name, length, why);
    if (c->stages == MOST_STAGES)
        return trouble_say(why, "the chain is too long: it may have %d effects", MOST_STAGES);
    c->stage[c->stages++].unit[0].kind = kind;
    return 1;
}

int chain_read(chain *c, const char *list, trouble *why)
{
    memset(c, 0, sizeof *c);
    if (strcmp(list, "none") == 0)
        return 1;
    for (;;) {
        const size_t length = strcspn(list, ",");
        if (!add_stage(c, list, length, why))
            return 0;
        if (list[length] == '\0')
            return 1;
        list += length + 1;
    }
}

/* A setting in its parts: EFFECT[NUMBER].CONTROL=VALUE. */
typedef struct setting {
    const effect *kind;
    unsigned long which; /* the how many-th of its kind in the chain; 0 is every one */
    int control;
    double value;
} setting;

static int parse_value(setting *s, const char *whole, const char *text, trouble *why)
{
    const control *c = &s->kind->controls[s->control];
    if (!read_number(text, &s->value))
        return trouble_say(why, "%.100s: '%.60s' is not a number", whole, text);
    if (s->value < c->low || s->value > c->high)
        return trouble_say(why, "%.100s: %s.%s goes from %g to %g", whole, s->kind->name, c->name, c->low, c->high);
    return 1;
}

static int parse_setting(setting *s, const char *whole, trouble *why)
{
    char name[32];
    const size_t front = strcspn(whole, ".=");
    const size_t letters = strcspn(whole, ".=0123456789");
    const size_t length = whole[front] == '.' ? strcspn(whole + front + 1, "=") : 0;
    char *end;
    if (whole[front] != '.' || whole[front + 1 + length] != '=')
        return trouble_say(why, "%.100s: a control is set as EFFECT.CONTROL=VALUE", whole);
    s->kind = effect_named(whole, letters);
    if (s->kind == NULL)
        return unknown_effect(whole, front, why);
    s->which = strtoul(whole + letters, &end, 10);
    if (letters != front && (end != whole + front || s->which == 0))
        return unknown_effect(whole, front, why);
    if (length >= sizeof name)
        return trouble_say(why, "%.100s: %s has no such control", whole, s->kind->name);
    memcpy(name, whole + front + 1, length);
    name[length] = '\0';
    s->control = effect_control(s->kind, name);
    if (s->control < 0)
        return trouble_say(why, "%.100s: %s has no control '%s'", whole, s->kind->name, name);
    return parse_value(s, whole, whole + front + 1 + length + 1, why);
}

int chain_set(chain *c, const char *text, trouble *why)
{
    setting s = {NULL, 0, -1, 0.0};
    unsigned long seen = 0;
    int done = 0;
    if (!parse_setting(&s, text, why))
        return 0;
    for (unsigned i = 0; i < c->stages; i++) {
        unit *u = &c->stage[i].unit[0];
        if (u->kind != s.kind)
            continue;
        seen++;
        if (s.which == 0 || s.which == seen) {
            u->controls[s.control] = room_set(s.value);
            done = 1;
        }
    }
    if (!done)
        return trouble_say(why, "%.100s: the chain has %lu %s", text, seen, s.kind->name);
    return 1;
}

/* How many units each stage has, and how many channels come out: an effect with two sides makes two of one. */
static void lay_out(chain *c, unsigned channels)
{
    for (unsigned i = 0; i < c->stages; i++) {
        stage *s = &c->stage[i];
        s->units = channels;
        s->unit[1] = s->unit[0];
        if (s->unit[0].kind->answers > 1)
            channels = 2;
    }
    c->channels = channels;
}

static int count_places(chain *c, uint32_t rate, trouble *why)
{
    c->places = 0;
    for (unsigned i = 0; i < c->stages; i++) {
        stage *s = &c->stage[i];
        const uint64_t each = unit_places(&s->unit[0], rate);
        if (each == UINT64_MAX)
            return trouble_say(why, "%s: %s", s->unit[0].kind->name, refusal_text(ROOM_REFUSED_SAMPLE_RATE));
        s->unit[0].places = s->unit[1].places = each;
        c->places += each * s->units; /* at most 16 x 2 x 11,520,001 */
    }
    if (c->places > SIZE_MAX / sizeof *c->memory)
        return trouble_say(why, "not enough memory for %llu places", (unsigned long long)c->places);
    return 1;
}

/* One block for all, asked for once; each unit has its own part of it. */
static int lend(chain *c, trouble *why)
{
    uint64_t at = 0;
    c->memory = malloc(c->places > 0 ? (size_t)c->places * sizeof *c->memory : 1);
    if (c->memory == NULL)
        return trouble_say(why, "not enough memory for %llu places", (unsigned long long)c->places);
    for (unsigned i = 0; i < c->stages; i++)
        for (unsigned n = 0; n < c->stage[i].units; n++) {
            unit *u = &c->stage[i].unit[n];
            u->memory = c->memory + at;
            at += u->places;
        }
    return 1;
}

static int refused(const unit *u, const char *call, uint32_t number, trouble *why)
{
    return trouble_say(why, "%s refused its %s with %lu: %s", u->kind->name, call, (unsigned long)number,
                       refusal_text(number));
}

int chain_start(chain *c, unsigned channels, uint32_t rate, trouble *why)
{
    lay_out(c, channels);
    for (unsigned i = 0; i < c->stages; i++)
        if (!unit_agrees(&c->stage[i].unit[0], why))
            return 0;
    if (!count_places(c, rate, why) || !lend(c, why))
        return 0;
    for (unsigned i = 0; i < c->stages; i++)
        for (unsigned n = 0; n < c->stage[i].units; n++) {
            unit *u = &c->stage[i].unit[n];
            const uint32_t number = u->kind->start(u, rate);
            if (number != 0)
                return refused(u, "start", number, why);
        }
    return 1;
}

/* One tick of a unit. The chain keeps the largest age: ages of effects in a row are not added up. */
static uint32_t tick(chain *c, unit *u, double audio, double out[3])
{
    const uint32_t number = u->kind->tick(u, audio, out);
    if (u->age > c->oldest)
        c->oldest = u->age;
    return number;
}

/* One channel in: both sides are the unit's. */
static uint32_t play_one(chain *c, stage *s, block *sound)
{
    const effect *kind = s->unit[0].kind;
    const int left = effect_left(kind);
    const int right = effect_right(kind);
    double out[3];
    uint32_t number = 0;
    for (size_t i = 0; i < sound->frames && number == 0; i++) {
        number = tick(c, &s->unit[0], sound->side[0][i], out);
        sound->side[0][i] = out[left];
        sound->side[1][i] = out[right];
    }
    if (kind->answers > 1)
        sound->channels = 2;
    return number;
}

/* Two channels in: the left unit gives its left side and the right unit its right, so that the channels never mix. */
static uint32_t play_two(chain *c, stage *s, block *sound)
{
    const effect *kind = s->unit[0].kind;
    const int left = effect_left(kind);
    const int right = effect_right(kind);
    double out[3];
    uint32_t number = 0;
    for (size_t i = 0; i < sound->frames && number == 0; i++) {
        number = tick(c, &s->unit[0], sound->side[0][i], out);
        sound->side[0][i] = out[left];
        if (number == 0)
            number = tick(c, &s->unit[1], sound->side[1][i], out);
        sound->side[1][i] = out[right];
    }
    return number;
}

int chain_play(chain *c, block *sound, trouble *why)
{
    for (unsigned i = 0; i < c->stages; i++) {
        stage *s = &c->stage[i];
        const uint32_t number = s->units == 1 ? play_one(c, s, sound) : play_two(c, s, sound);
        if (number != 0)
            return refused(&s->unit[0], "tick", number, why);
    }
    return 1;
}

double chain_oldest_ms(const chain *c, uint32_t rate)
{
    return c->oldest * 1000.0 / rate;
}

void chain_free(chain *c)
{
    free(c->memory);
    c->memory = NULL;
}
