/* The reverb's tank by document 01. */
#include "tank.h"

const struct tuning tunings[TUNINGS] = {
    {8000.0, {202, 215, 231, 245, 257, 270, 282, 293}, {100, 80, 61, 40}, 4},
    {12300.0, {311, 331, 356, 378, 396, 415, 434, 450}, {155, 122, 95, 62}, 6},
    {22050.0, {558, 594, 638, 678, 711, 745, 778, 808}, {278, 220, 170, 112}, 12},
    {22100.0, {559, 595, 639, 679, 712, 747, 780, 810}, {278, 220, 170, 112}, 12},
    {44100.0, {1116, 1188, 1277, 1356, 1422, 1491, 1557, 1617}, {556, 441, 341, 225}, 23},
    {48000.0, {1214, 1293, 1389, 1475, 1547, 1622, 1694, 1760}, {605, 480, 371, 244}, 25},
    {96000.0, {2429, 2586, 2779, 2951, 3095, 3245, 3389, 3520}, {1210, 960, 742, 489}, 50},
    {192000.0, {4095, 4095, 4095, 4095, 4095, 4095, 4095, 4095}, {1499, 1499, 1484, 979}, 100},
};

unsigned line_start(unsigned line)
{
    return line < LEFT_ALLPASS ? line * 4096u : line < PREDELAY ? 65536u + (line - LEFT_ALLPASS) * 1500u : 77536u;
}

unsigned line_extent(unsigned line)
{
    return line < LEFT_ALLPASS ? 4096u : line < PREDELAY ? 1500u : 9600u;
}

static unsigned at_most(unsigned length, unsigned most)
{
    return length < most ? length : most;
}

unsigned line_length(const struct tuning *at, unsigned line)
{
    if (line < RIGHT_COMB) {
        return at->comb[line];
    }
    if (line < LEFT_ALLPASS) {
        return at_most(at->comb[line - RIGHT_COMB] + at->spread, 4095u);
    }
    if (line < RIGHT_ALLPASS) {
        return at->allpass[line - LEFT_ALLPASS];
    }
    if (line < PREDELAY) {
        return at_most(at->allpass[line - RIGHT_ALLPASS] + at->spread, 1499u);
    }
    return 9600u;
}

const struct tuning *tuning_at(double rate)
{
    unsigned i = 0;
    while (i < TUNINGS - 1u && !same(tunings[i].rate, rate)) {
        i++;
    }
    return &tunings[i];
}

uint32_t tank_in_use(const struct tuning *at)
{
    uint32_t sum = 0;
    unsigned line;
    for (line = 0; line < LINES; line++) {
        sum += line_length(at, line);
    }
    return sum;
}

uint32_t nonzero_in_tank(const struct tuning *at, const double *places)
{
    uint32_t sum = 0;
    unsigned line;
    for (line = 0; line < LINES; line++) {
        sum += nonzero_in(places + line_start(line), line_length(at, line));
    }
    return sum;
}

uint32_t *line_pos(room_reverb *state, unsigned line)
{
    return line < RIGHT_COMB      ? &state->comb_pos_l[line]
           : line < LEFT_ALLPASS  ? &state->comb_pos_r[line - RIGHT_COMB]
           : line < RIGHT_ALLPASS ? &state->allpass_pos_l[line - LEFT_ALLPASS]
           : line < PREDELAY      ? &state->allpass_pos_r[line - RIGHT_ALLPASS]
                                  : &state->predelay_pos;
}

double *comb_store(room_reverb *state, unsigned comb)
{
    return comb < RIGHT_COMB ? &state->comb_filter_state_l[comb] : &state->comb_filter_state_r[comb - RIGHT_COMB];
}
