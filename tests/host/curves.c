/*
 * The host's curve numbers against the maps of quiver's timefx.rs, worked out to 60 digits from its formulas and rounded
 * once: 0.1 x 50^c, 0.05 x 100^c, 0.1 x 150^c, 0.1 x 200^c, (maximum in ms)^c, exp(-1 / (0.005 x rate)), sin(2 pi phase), and
 * (1 - t) / (1 + t) with t = tan(pi f / rate); and against tanh(sum / 5 x t) / t with t = tanh(1), of analog.rs. A pow, sin,
 * tan or tanh may miss the last digits, as may 0.3 or 0.33, which no float is; so they may differ by 4e-16 of the number, and a
 * coefficient, which 1 - t may make small, by 4e-16.
 * Then that each unit has its own: from its rate control, set and unset, those of delay and tape delay after a start and a
 * retune, and the phaser's and the tape delay's in every tick, bit for bit; and that a refused read half of a tape delay is all
 * of its tick.
 * The last line is `N passed, M failed`.
 */
#include "curves.h"
#include "effects.h"

#include <math.h>
#include <stdio.h>
#include <string.h>

static unsigned passed, failed;

static void within(const char *what, double is, double should, double most)
{
    if (fabs(is - should) <= most) {
        passed++;
    } else {
        failed++;
        printf("FAILED: %s: %.17g, should be %.17g\n", what, is, should);
    }
}

static void near(const char *what, double is, double should)
{
    within(what, is, should, 4e-16 * fabs(should));
}

static const double controls[5] = {0.0, 0.3, 0.5, 0.75, 1.0};

static void map(const char *what, double (*curve)(double), const double should[5])
{
    for (int i = 0; i < 5; i++)
        near(what, curve(controls[i]), should[i]);
    near(what, curve(-0.0), should[0]);
    near(what, curve(-3.0), should[0]);
    near(what, curve(3.0), should[4]);
    near(what, curve(INFINITY), should[4]);
}

static void frequencies(void)
{
    const double chorus[5] = {0.1, 0.3233635032886787, 0.7071067811865476, 1.8803015465431967, 5.0};
    const double flanger[5] = {0.05, 0.19905358527674863, 0.5, 1.5811388300841898, 5.0};
    const double vibrato[5] = {0.1, 0.44960111304799183, 1.224744871391589, 4.2861606445481994, 15.0};
    const double tremolo[5] = {0.1, 0.4901274189394899, 1.4142135623730951, 5.3182958969449885, 20.0};
    map("chorus", chorus_frequency, chorus);
    map("flanger", flanger_frequency, flanger);
    map("vibrato", vibrato_frequency, vibrato);
    map("tremolo", tremolo_frequency, tremolo);
}

static double of_2_s(double c)
{
    return delay_milliseconds(2.0, c);
}

static double of_60_s(double c)
{
    return delay_milliseconds(60.0, c);
}

static double of_1_ms(double c)
{
    return delay_milliseconds(0.001, c);
}

static void delays(void)
{
    const double two[5] = {1.0, 9.779327685429285, 44.721359549995796, 299.0697562442441, 2000.0};
    const double sixty[5] = {1.0, 27.129723972385587, 244.94897427831782, 3833.658625477635, 60000.0};
    const double least[5] = {1.0, 1.0, 1.0, 1.0, 1.0};
    map("delay of 2 s", of_2_s, two);
    map("delay of 60 s", of_60_s, sixty);
    map("delay of 0.001 s", of_1_ms, least);
}

static void glides(void)
{
    near("glide at 8000", delay_coefficient(8000.0), 0.9753099120283326);
    near("glide at 44100", delay_coefficient(44100.0), 0.9954751208601006);
    near("glide at 48000", delay_coefficient(48000.0), 0.99584200184511);
    near("glide at 192000", delay_coefficient(192000.0), 0.9989588756797245);
    near("env_coef of 0 s", env_coef(0.0, 44100.0), 0.0);
    near("env_coef of -1 s", env_coef(-1.0, 44100.0), 0.0);
}

static void sines(void)
{
    near("sine at 0", phase_sine(0.0), 0.0);
    near("sine at 0.125", phase_sine(0.125), 0.7071067811865476);
    near("sine at 0.25", phase_sine(0.25), 1.0);
    near("sine at 0.33", phase_sine(0.33), 0.8763066800438636);
    near("sine at 0.67", phase_sine(0.67), -0.8763066800438636);
    near("sine at 0.75", phase_sine(0.75), -1.0);
    near("sine at 1.25", phase_sine(1.25), 1.0);
}

static void coefficients(void)
{
    const struct {
        double rate, depth, sine, should;
    } all[] = {
        {8000.0, 0.0, 1.0, 0.8540806854634666},     {8000.0, 1.0, -1.0, 0.8540806854634666},
        {8000.0, 0.5, 0.5, 0.14833598753834742},    {8000.0, 1.0, 0.0, -0.03929010700766964},
        {8000.0, 0.7, 1.0, -0.35117500451501343},   {8000.0, 1.0, 1.0, -1.0},
        {44100.0, 0.7, 0.5, 0.7276315105167329},    {44100.0, 1.0, 1.0, 0.5468823211246735},
        {48000.0, 0.7, -1.0, 0.974156870921681},    {48000.0, 0.5, 0.0, 0.8597561929934433},
        {192000.0, 0.5, 0.5, 0.9481874330744166},   {192000.0, 1.0, 1.0, 0.8769764629927569},
    };
    for (size_t i = 0; i < sizeof all / sizeof all[0]; i++)
        within("coefficient", phaser_coefficient(all[i].sine, all[i].depth, all[i].rate), all[i].should, 4e-16);
}

/* Coefficients are what a tick accepts: where 4,000 Hz are half of the rate, t is the tangent of all but a quarter turn. */
static void coefficients_accepted(void)
{
    unsigned outside = 0;
    double rate = 8000.0;
    for (int i = 0; i < 3000; i++) {
        double sine = 1.0;
        for (int k = 0; k < 300; k++) {
            const double coefficient = phaser_coefficient(sine, 1.0, rate);
            outside += !(coefficient >= -1.0 && coefficient <= 1.0);
            sine = nextafter(sine, 0.0);
        }
        rate = i < 1500 ? nextafter(rate, 9000.0) : rate * 1.0021; /* up to some 185,000 */
    }
    near("coefficients outside -1 to 1", outside, 0.0);
}

/* Past sums of 5 / t, some 6.565, the quotient is above 1 and held. */
static void saturations(void)
{
    const struct {
        double sum, should;
    } all[] = {
        {0.001, 0.00019999999845326494}, {0.5, 0.09980710563623486}, {1.0, 0.19846748570311193},
        {-1.0, -0.19846748570311193}, {2.5, 0.4771563457350893}, {4.9, 0.8311168287732171},
        {-5.0, -0.8429883383313271}, {5.0, 0.8429883383313271}, {6.0, 0.9493311678779028}, {-6.5, -0.9944839903213335},
        {6.5, 0.9944839903213335},
    };
    for (size_t i = 0; i < sizeof all / sizeof all[0]; i++)
        near("saturated sum", tape_saturated(all[i].sum), all[i].should);
    const double large[5] = {6.57, 7.0, 100.0, 1e308, INFINITY};
    for (int i = 0; i < 5; i++) {
        near("saturated above", tape_saturated(large[i]), 1.0);
        near("saturated below", tape_saturated(-large[i]), -1.0);
    }
    near("drive 2", tanh_sat(0.5, 2.0), 0.46456651924094405);
    near("a drive so small that t is held to 0.001", tanh_sat(0.25, 0.0005), 0.2499999947916668);
    near("no drive", tanh_sat(0.25, 0.0), 0.2499999947916668);
}

/* What a store half accepts: -1 to 1. Zeros keep their sign, and NaN stays. */
static void saturations_accepted(void)
{
    unsigned outside = 0;
    double sum = 1e-320;
    for (int i = 0; i < 100000; i++) {
        const double v = tape_saturated(i % 2 == 0 ? sum : -sum);
        outside += !(v >= -1.0 && v <= 1.0 && signbit(v) == i % 2);
        sum *= 1.0143; /* up to some 1e296 */
    }
    near("saturated sums outside -1 to 1 or of another sign", outside, 0.0);
    near("+0 saturated", memcmp(&(double){0.0}, &(double){tape_saturated(0.0)}, sizeof(double)), 0.0);
    near("-0 saturated", memcmp(&(double){-0.0}, &(double){tape_saturated(-0.0)}, sizeof(double)), 0.0);
    near("saturated 3e-200", tape_saturated(3e-200), 6e-201);
    near("NaN saturated", isnan(tape_saturated(NAN)), 1.0);
}

/* For a unit, and for one beside it. */
static double memory[200000];

static void begin(unit *u, const char *name)
{
    memset(u, 0, sizeof *u);
    u->kind = effect_named(name, strlen(name));
    u->memory = memory;
    u->places = 100000;
}

static void rate_of(const char *name, double unset, double half)
{
    unit u;
    begin(&u, name);
    near(name, u.kind->start(&u, 8000.0), 0.0);
    near(name, u.frequency, unset);
    u.controls[effect_control(u.kind, "rate")] = room_set(0.5);
    near(name, u.kind->start(&u, 8000.0), 0.0);
    near(name, u.frequency, half);
}

/* The phaser's curve numbers, from its controls: document 02's formulas in their order. */
static double swept(double phase, double depth, double rate)
{
    const double tau = 6.283185307179586;
    const double frequency = 200.0 + ((((sin(phase * tau) * 0.5) + 0.5) * depth) * 3800.0);
    const double t = tan(((tau * frequency) / rate) * 0.5);
    return (1.0 - t) / (1.0 + t);
}

static unsigned refused;

/* How many of the samples of so many ticks are not those of a phaser that is handed these numbers. */
static unsigned phaser_differs(unit *u, double depth, double spread, double rate)
{
    room_phaser beside;
    double is[3], should[3];
    unsigned wrong = 0;
    refused = u->kind->start(u, rate) | room_phaser_start(&beside, rate);
    for (int i = 0; i < 20000 && refused == 0; i++) {
        const double audio = i % 7 - 3.0;
        const double left = swept(beside.lfo_phase, depth, rate);
        const double right = swept(beside.lfo_phase + spread * 0.5, depth, rate);
        refused = u->kind->tick(u, audio, is) | room_phaser_tick(&beside, room_set(audio), room_unset(), room_unset(),
                                                                 room_unset(), u->frequency, left, right, should);
        wrong += memcmp(is, should, sizeof is) != 0;
    }
    return wrong;
}

/* At 8,000 with the whole depth, 4,000 Hz are half of the rate. */
static void phasers(void)
{
    const double rates[3] = {8000.0, 44100.0, 192000.0};
    unit u;
    begin(&u, "phaser");
    for (int i = 0; i < 3; i++) {
        near("phaser by its initial depth and spread", phaser_differs(&u, 0.7, 0.5, rates[i]), 0.0);
        near("phaser is accepted", refused, 0.0);
    }
    u.controls[effect_control(u.kind, "rate")] = room_set(1.0);
    u.controls[effect_control(u.kind, "depth")] = room_set(1.0);
    u.controls[effect_control(u.kind, "spread")] = room_set(0.75);
    for (int i = 0; i < 3; i++) {
        near("phaser by its depth and spread", phaser_differs(&u, 1.0, 0.75, rates[i]), 0.0);
        near("phaser with the whole depth is accepted", refused, 0.0);
    }
}

/* The tape delay's ticks, from its controls: request A.6's halves with analog.rs's formula between them. */
static uint32_t tape_by_hand(room_tape_delay *beside, double audio, const double set[3], double *out)
{
    const double t = fmax(tanh(1.0), 0.001);
    double sum, v;
    uint32_t age, number;
    number = room_tape_delay_read_half(beside, memory + 100000, 100000, room_set(audio), room_set(set[0]), room_set(set[1]),
                                       room_set(set[2]), &sum, &age);
    v = tanh((sum / 5.0) * t) / t;
    v = v < -1.0 ? -1.0 : v > 1.0 ? 1.0 : v;
    return number | room_tape_delay_store_half(beside, memory + 100000, 100000, v, out);
}

/* How many of the samples of so many ticks are not those by hand, whose controls are set to these. */
static unsigned tape_differs(unit *u, const double set[3])
{
    room_tape_delay beside;
    double is, should;
    unsigned wrong = 0;
    refused = u->kind->start(u, 8000.0) | room_tape_delay_start(&beside, memory + 100000, 100000, 8000.0,
                                                                delay_coefficient(8000.0));
    for (int i = 0; i < 20000 && refused == 0; i++) {
        const double audio = i < 10000 ? (i % 7 - 3.0) * 2.0 : 0.0;
        refused = u->kind->tick(u, audio, &is) | tape_by_hand(&beside, audio, set, &should);
        wrong += memcmp(&is, &should, sizeof is) != 0 || u->age != (uint32_t)ceil(beside.smoothed_delay);
    }
    return wrong + (memcmp(memory, memory + 100000, 96001 * sizeof *memory) != 0);
}

static void tapes(void)
{
    const double unset[3] = {0.5, 0.0, 0.5};
    const double set[3] = {0.0101, 1.4, 0.75};
    unit u;
    begin(&u, "tape");
    near("tape by its initial controls", tape_differs(&u, unset), 0.0);
    near("tape is accepted", refused, 0.0);
    u.controls[effect_control(u.kind, "time")] = room_set(set[0]);
    u.controls[effect_control(u.kind, "feedback")] = room_set(set[1]);
    u.controls[effect_control(u.kind, "mix")] = room_set(set[2]);
    near("tape by its controls", tape_differs(&u, set), 0.0);
    near("tape with its controls set is accepted", refused, 0.0);
}

/* While a read waits the next read half is refused. A store half after that would be accepted: it would play the read that
   waits and store what the refused half answers, saturated. */
static void tape_refused(void)
{
    room_tape_delay before;
    unit u;
    double out[3] = {1.0, 1.0, 1.0};
    begin(&u, "tape");
    near("tape starts to be refused", u.kind->start(&u, 8000.0), 0.0);
    for (int i = 0; i < 100; i++)
        near("tape is not refused yet", u.kind->tick(&u, 1.0, out), 0.0);
    u.state.tape.waiting = 1;
    u.state.tape.kept_audio = u.state.tape.kept_read = u.state.tape.kept_mix = 0.5;
    memcpy(&before, &u.state.tape, sizeof before);
    memory[before.write_pos] = 0.25;
    memcpy(memory + 100000, memory, 96001 * sizeof *memory);
    near("tape whose read waits is refused", u.kind->tick(&u, 1.0, out), ROOM_REFUSED_TURN);
    near("its state stays", memcmp(&before, &u.state.tape, sizeof before), 0.0);
    near("its line stays", memcmp(memory, memory + 100000, 96001 * sizeof *memory), 0.0);
    near("it plays +0", memcmp(out, &(double){0.0}, sizeof *out), 0.0);
    near("it has no age", u.age, 0.0);
}

static void units(void)
{
    unit u;
    rate_of("chorus", 0.3233635032886787, 0.7071067811865476);
    rate_of("flanger", 0.19905358527674863, 0.5);
    rate_of("vibrato", 0.44960111304799183, 1.224744871391589);
    rate_of("tremolo", 0.4901274189394899, 1.4142135623730951);
    rate_of("phaser", 0.19905358527674863, 0.5);
    begin(&u, "delay");
    near("delay starts", u.kind->start(&u, 8000.0), 0.0);
    near("delay's time", u.milliseconds, 44.721359549995796);
    near("delay's glide after a start", u.state.delay.delay_smooth_coef, 0.9753099120283326);
    near("delay retunes", u.kind->retune(&u, 44100.0), 0.0);
    near("delay's glide after a retune", u.state.delay.delay_smooth_coef, 0.9954751208601006);
    begin(&u, "tape");
    near("tape starts", u.kind->start(&u, 8000.0), 0.0);
    near("tape's glide after a start", u.state.tape.delay_smooth_coef, 0.9753099120283326);
    near("tape retunes", u.kind->retune(&u, 8100.0), 0.0);
    near("tape's glide after a retune", u.state.tape.delay_smooth_coef, 0.9756109800648459);
}

int main(void)
{
    frequencies();
    delays();
    glides();
    sines();
    coefficients();
    coefficients_accepted();
    saturations();
    saturations_accepted();
    units();
    phasers();
    tapes();
    tape_refused();
    printf("%u passed, %u failed\n", passed, failed);
    return failed > 0;
}
