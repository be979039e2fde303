/*
 * Drives every call of room_effects.h, accepted and refused, and compares all that it returns and leaves by bits.
 * The last line is `N passed, M failed`; the exit status is 1 if one failed.
 */
#include "calls.h"

static void ports(void)
{
    const room_port set = room_set(-0.0);
    const room_port unset = room_unset();
    check(set.set == 1 && same(set.value, -0.0), "a set port holds its number", 0);
    check(unset.set == 0, "an unset port is not set", 0);
}

/* The header's names, by the documents' numbers. */
static void names(void)
{
    const unsigned effects[] = {ROOM_DELAY,   ROOM_CHORUS, ROOM_FLANGER, ROOM_VIBRATO,
                                ROOM_TREMOLO, ROOM_REVERB, ROOM_PHASER,  ROOM_TAPE_DELAY};
    const unsigned causes[] = {ROOM_ACCEPTED,      ROOM_REFUSED_SAMPLE_RATE, ROOM_REFUSED_GLIDE_COEFFICIENT,
                               ROOM_REFUSED_MEMORY, ROOM_REFUSED_STATE,       ROOM_REFUSED_CONTROL,
                               ROOM_REFUSED_CURVE,  ROOM_REFUSED_TURN};
    unsigned i;
    for (i = 0; i < COUNT(effects); i++) {
        check(effects[i] == i + 1u, "the number of an effect", i);
    }
    for (i = 0; i < COUNT(causes); i++) {
        check(causes[i] == i, "the number of a cause", i);
    }
}

static void test(const char *name, void (*calls)(void))
{
    now_testing(name);
    calls();
}

int main(void)
{
    test("ports", ports);
    test("names", names);
    test("tremolo", tremolo);
    test("vibrato", vibrato);
    test("chorus", chorus);
    test("flanger", flanger);
    test("delay", delay);
    test("reverb", reverb);
    test("phaser", phaser);
    test("tape delay", tape);
    test("places", places);
    test("order of causes", order_of_causes);
    test("counts", counts);
    test("ends", ends);
    test("ages", ages);
    test("what never falls silent", stuck);
    test("floating-point mode", float_mode);
    return say_counts();
}
