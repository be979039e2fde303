/* Whether the header's check of the floating-point mode sees each way in which a host may have changed it. */
#include "calls.h"

#include <xmmintrin.h>

/* Bits of the processor's control word: subnormal inputs taken as 0, subnormal results made 0, three roundings, and the first of
   six masks of exceptions. */
enum { DAZ = 0x40, FTZ = 0x8000, DOWNWARD = 0x2000, UPWARD = 0x4000, TOWARD_ZERO = 0x6000, FIRST_MASK = 0x80 };

/* What the check says while the control word is this. */
static int said(unsigned word)
{
    const unsigned before = _mm_getcsr();
    int ok;
    _mm_setcsr(word);
    ok = room_float_mode_ok();
    _mm_setcsr(before);
    return ok;
}

void float_mode(void)
{
    const unsigned wrong[] = {DAZ, FTZ, DAZ | FTZ, DOWNWARD, UPWARD, TOWARD_ZERO, DAZ | UPWARD, FTZ | TOWARD_ZERO};
    const unsigned before = _mm_getcsr();
    unsigned i;
    check(room_float_mode_ok() == 1, "the mode that C starts a program in", 0);
    check(said(before | 0x3fu) == 1, "with every exception met before", 0);
    for (i = 0; i < COUNT(wrong); i++)
        check(said(before | wrong[i]) == 0, "a mode in which calls are not to be made", i);
    for (i = 0; i < 6; i++)
        check(said(before & ~(unsigned)(FIRST_MASK << i)) == 0, "an exception that is not masked", i);
}
