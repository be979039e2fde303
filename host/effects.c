#include "effects.h"

#include <string.h>

const effect *effect_named(const char *name, size_t length)
{
    for (int i = 0; i < EFFECT_COUNT; i++)
        if (strlen(effects[i].name) == length && memcmp(effects[i].name, name, length) == 0)
            return &effects[i];
    return NULL;
}

int effect_control(const effect *kind, const char *name)
{
    for (int i = 0; kind->controls[i].name != NULL; i++)
        if (strcmp(kind->controls[i].name, name) == 0)
            return i;
    return -1;
}

int effect_left(const effect *kind)
{
    return kind->answers == 3 ? 1 : 0;
}

int effect_right(const effect *kind)
{
    return kind->answers - 1;
}

const char *refusal_text(uint32_t number)
{
    static const char *const texts[] = {
        [ROOM_ACCEPTED] = "accepted",
        [ROOM_REFUSED_SAMPLE_RATE] = "the sample rate is outside 8000 to 192000",
        [ROOM_REFUSED_GLIDE_COEFFICIENT] = "the glide coefficient is outside 0 to below 1",
        [ROOM_REFUSED_MEMORY] = "the memory has too few places",
        [ROOM_REFUSED_STATE] = "a field of the state is out of its range",
        [ROOM_REFUSED_CONTROL] = "a control is NaN",
        [ROOM_REFUSED_CURVE] = "a curve number is out of its range",
        [ROOM_REFUSED_TURN] = "a half of a tick is out of turn",
    };
    return number < sizeof texts / sizeof texts[0] ? texts[number] : "unknown cause";
}
