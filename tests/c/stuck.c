/* What feeds back with more than one half may never fall silent by itself: a subnormal sample times the feedback rounds back to
   itself. So does an all-pass's last output times its coefficient. A reset ends it. */
#include "tape.h"

enum { DELAY_PLACES = 9, TANK_PLACES = 87136 };

static double lent[TANK_PLACES];

/* Ticks of audio 0 that read one place back, so that each is a repeat; after a clearing one with a sound before them. The value
   of the last. */
static double echoes(room_delay *state, double feedback, unsigned repeats)
{
    double out[1] = {JUNK};
    uint32_t refused = 0, age;
    unsigned i;
    for (i = 0; i <= repeats; i++) {
        const room_port audio = room_set(state->delay_primed == 0u ? 1.0 : 0.0);
        refused |= room_delay_tick(state, lent, DELAY_PLACES, audio, room_unset(), room_set(feedback), room_set(1.0), 0.0, out,
                                   &age);
    }
    check(refused == 0u, "ticks of an echo that may stick", 0);
    return out[0];
}

static int delay_sounds(const room_delay *state)
{
    int silent = 7;
    check(room_delay_silent(state, &silent) == 0, "silent after an echo", 0);
    return silent == 0;
}

/* After so many repeats the echo is this many times the smallest float, and stays there. */
static void stuck_at(double feedback, unsigned repeats, unsigned steps, unsigned i)
{
    room_delay state;
    double last;
    check(room_delay_start(&state, lent, DELAY_PLACES, 8000.0, 0.001, 0.0, 0u) == 0, "start for an echo that may stick", i);
    last = echoes(&state, feedback, repeats - 1u);
    check(bits(last) == steps + 1u, "the echo still falls", i);
    last = echoes(&state, feedback, 0u);
    check(bits(last) == steps, "the echo has come to where it stays", i);
    last = echoes(&state, feedback, 20000u);
    check(bits(last) == steps, "the echo no longer changes", i);
    check(delay_sounds(&state) == (steps != 0u), "it is silent only if it came to 0", i);
    check(room_delay_reset(&state, lent, DELAY_PLACES) == 0 && !delay_sounds(&state), "a reset makes it silent", i);
}

static void echoes_stick(void)
{
    stuck_at(0.49, 1045, 0, 0);
    stuck_at(0.5, 1076, 0, 1);
    stuck_at(farther(0.5), 1076, 1, 2);
    stuck_at(0.6, 1458, 1, 3);
    stuck_at(0.9, 7051, 5, 4);
    stuck_at(0.99, 73672, 49, 5);
}

/* The tape delay, this many places back: what goes round is saturated too, by the host's formula. After a sound and so many
   pairs of halves the value of the last. */
static double tape_echoes(room_tape_delay *state, double sound, double feedback, double distance, unsigned pairs)
{
    double out[1] = {JUNK}, sum = JUNK;
    uint32_t refused = 0, age;
    unsigned i;
    check(room_tape_delay_start(state, tape_memory, TAPE_LINE, 8000.0, 0.0) == 0, "start for a tape that may stick", 0);
    for (i = 0; i <= pairs; i++) {
        refused |= room_tape_delay_read_half(state, tape_memory, TAPE_LINE, room_set(i == 0u ? sound : 0.0),
                                             room_set(distance / 8000.0), room_set(feedback), room_set(1.0), &sum, &age);
        refused |= room_tape_delay_store_half(state, tape_memory, TAPE_LINE, saturated(sum), out);
    }
    check(refused == 0u, "pairs of a tape that may stick", 0);
    check(same(state->smoothed_delay, distance), "where it reads", 0);
    return out[0];
}

static void tape_stuck_at(double feedback, double distance, uint64_t steps, unsigned i)
{
    room_tape_delay state;
    int silent = 7;
    check(bits(tape_echoes(&state, 1.0, feedback, distance, 200000u)) == steps, "where a tape's echo stays", i);
    check(room_tape_delay_silent(&state, &silent) == 0 && silent == (steps == 0u),
          "a tape is silent only if it came to 0", i);
    check(room_tape_delay_reset(&state, tape_memory, TAPE_LINE) == 0, "reset of a tape that rings on", i);
    check(room_tape_delay_silent(&state, &silent) == 0 && silent == 1, "it is silent", i);
}

/* In steps of the smallest float: 15 x 0.5 is 7.5, which goes to 8; a fifth of it is 2; x t 2, / t 3; x 5 is 15 again. And 55 x
   0.9 is 50; a fifth 10; x t 8, / t 11; x 5 is 55. Half way between two places that hold 15 each half goes to 8, and the read
   finds 16; x 0.46875 is 7.5 too. At a quarter of the way it finds 4 + 11. */
static void tapes_stick(void)
{
    static const struct {
        double feedback, distance;
        uint64_t steps;
    } cases[] = {
        {0.49, 1.0, 0},  {0.5, 1.0, 15},      {0.6, 1.0, 15},  {0.9, 1.0, 55},
        {0.5, 1.25, 15}, {0.46875, 1.5, 16},  {0.46875, 2.5, 16},
    };
    room_tape_delay state;
    unsigned i;
    for (i = 0; i < COUNT(cases); i++) {
        tape_stuck_at(cases[i].feedback, cases[i].distance, cases[i].steps, i);
    }
    tape_stuck_at(nearer(0.5), 1.0, 0, 10);
    tape_stuck_at(nearer(0.5), 1.25, 0, 11);
    tape_stuck_at(nearer(0.46875), 1.5, 0, 12);
    tape_stuck_at(nearer(0.46875), 2.5, 0, 13);
    check(same(tape_echoes(&state, 1e-3, 1.5, 1.0, 1000u), 5.0), "above 1 a tape grows until it is held, at 5", i);
}

/* Whether a reverb at 8,000 is silent after a second of sound and some seconds without. */
static int tank_silent(room_reverb *state, double size, unsigned seconds)
{
    const unsigned ticks = 8000u * (1u + seconds);
    uint32_t refused = 0;
    int silent = 7;
    unsigned i;
    check(room_reverb_start(state, lent, TANK_PLACES, 8000.0) == 0, "start for a room that may ring on", 0);
    for (i = 0; i < ticks; i++) {
        double out[2];
        const room_port audio = room_set(i < 8000u ? (i % 7u == 0u ? 1.0 : -0.5) : 0.0);
        refused |= room_reverb_tick(state, lent, TANK_PLACES, audio, room_set(size), room_unset(), room_unset(), room_unset(),
                                    out);
    }
    check(refused == 0u, "ticks of a room that may ring on", 0);
    check(room_reverb_silent(state, &silent) == 0, "silent after a room rang", 0);
    return silent;
}

static void rooms_stick(void)
{
    room_reverb state;
    int silent = 7;
    check(tank_silent(&state, 0.3, 70), "a feedback of 0.49 falls silent", 0);
    check(!tank_silent(&state, 0.5, 120), "the default size, a feedback of 0.63, does not", 1);
    check(room_reverb_reset(&state, lent, TANK_PLACES) == 0, "reset of a room that rings on", 2);
    check(room_reverb_silent(&state, &silent) == 0 && silent == 1, "a reset makes it silent", 3);
}

/* An impulse, and so many ticks of audio 0, through six all-passes a side. */
static void phaser_rings(room_phaser *state, double coef, double audio, unsigned ticks)
{
    uint32_t refused = 0;
    double out[3];
    unsigned i;
    for (i = 0; i < ticks; i++) {
        refused |= room_phaser_tick(state, room_set(i == 0u ? audio : 0.0), room_unset(), room_unset(), room_unset(), 1.0, coef,
                                    coef, out);
    }
    check(refused == 0u, "ticks of a phaser that may stick", 0);
}

static int phaser_silent(const room_phaser *state)
{
    int silent = 7;
    check(room_phaser_silent(state, &silent) == 0, "silent after a phaser rang", 0);
    return silent;
}

/* In the end each last output is this many times the smallest float; with a coefficient above 0 its sign changes at every
   tick. */
static void phaser_stuck_at(double coef, unsigned steps, unsigned i)
{
    room_phaser state;
    double last;
    check(room_phaser_start(&state, 8000.0) == 0, "start for a phaser that may stick", i);
    phaser_rings(&state, coef, 1.0, 100000u);
    last = state.allpass_y1_l[5];
    check(bits(fabs(last)) == steps, "the phaser has come to where it stays", i);
    phaser_rings(&state, coef, 0.0, 1u);
    check(steps == 0u || same(state.allpass_y1_l[5], coef < 0.0 ? last : -last), "its sign", i);
    phaser_rings(&state, coef, 0.0, 100000u);
    check(bits(fabs(state.allpass_y1_l[0])) == steps && bits(fabs(state.allpass_y1_r[5])) == steps, "it no longer changes", i);
    check(phaser_silent(&state) == (steps == 0u), "it is silent only if it came to 0", i);
    check(room_phaser_reset(&state) == 0 && phaser_silent(&state) == 1, "a reset makes it silent", i);
}

static void phasers_stick(void)
{
    phaser_stuck_at(0.5, 0, 0);
    phaser_stuck_at(farther(0.5), 1, 1);
    phaser_stuck_at(0.7, 1, 2);
    phaser_stuck_at(0.9, 5, 3);
    phaser_stuck_at(0.99, 49, 4);
    phaser_stuck_at(-0.5, 0, 5);
    phaser_stuck_at(farther(-0.5), 1, 6);
}

void stuck(void)
{
    echoes_stick();
    tapes_stick();
    rooms_stick();
    phasers_stick();
}
