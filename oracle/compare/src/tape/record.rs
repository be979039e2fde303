//! Stored answers of the Rust for the tape delay.

use super::arguments::read_half;
use super::call::{control, read};
use super::tanh::{fifth, halved, Rest, Tanh};
use super::{length, KIND};
use crate::ages;
use crate::bits::word;
use crate::random::Random;
use crate::table::as_position;
use crate::tally;
use quiver_oracle::delay::{Moving, Unit};
use room_effects::tape_delay::{Read, State};

/// A rate, and a glide coefficient near what the Rust works out there. (Its own is no number to store: another `exp` may give
/// another one.)
struct Pace {
    rate: f64,
    coefficient: f64,
}

const LOW: Pace = Pace {
    rate: 8_000.0,
    coefficient: 0.9753,
};
const HIGH: Pace = Pace {
    rate: 11_025.0,
    coefficient: 0.982,
};

/// The last retune is back to the lower rate, to a read that jumps.
const JUMP: Pace = Pace {
    rate: 8_000.0,
    coefficient: 0.0,
};

/// Codes of the calls.
const TICK: u64 = 0;
const RETUNE: u64 = 1;
const RESET: u64 = 2;

/// Resets and retunes, each before the tick that comes after so many in a hundred.
const CLEARINGS: [(u64, Option<Pace>); 4] =
    [(40, None), (55, Some(HIGH)), (75, None), (80, Some(JUMP))];

/// The first ticks go over the end of the line, which a unit comes to after twelve seconds: it starts so many places before.
const BEFORE_THE_END: u64 = 250;

/// Answers of the Rust, and of nothing of ours, to accepted ticks and clearings, for a program that replays them with no Rust at
/// hand, each tick by both halves. The Rust knows no ages and no counts: they are those of the readings, the counts of the Rust's line.
///
/// A file is one unit's calls from its start on, as those of the effects with sweeps are. First come five words for the start,
/// which is no record, each a u64, little-endian:
///
/// | word | holds |
/// |---|---|
/// | 0 | 8, document 02's number of the tape delay |
/// | 1 | bits of the sample rate to start at, 8,000 |
/// | 2 | how many places the memory has: no more than the highest of the rates needs |
/// | 3 | bits of the glide coefficient |
/// | 4 | the position that the unit has at its first tick, with all else as the start leaves it |
///
/// Then a list of records of 14 words, with nothing between or after them:
///
/// | word | tick | retune | reset |
/// |---|---|---|---|
/// | 0 | 0 | 1 | 2 |
/// | 1 | mask of the ports that are set: 1 audio, 2 time, 4 feedback, 8 mix | 0 | 0 |
/// | 2 to 5 | bits of audio, time, feedback, mix | 5: bits of the new rate; the others: 0 | 0 |
/// | 6 | bits of the saturated value | bits of the new coefficient | 0 |
/// | 7 | bits of a fifth of the sum: what the Rust asks the hyperbolic tangent of where that of the drive is 1 | 0 | 0 |
/// | 8 | the Rust's answer: its bits | 0 | 0 |
/// | 9 | the position after the call, a plain number | likewise | likewise |
/// | 10 | bits of the glide distance after the call | likewise | likewise |
/// | 11 | 1 if primed after the call, else 0 | likewise | likewise |
/// | 12 | the age, a plain number | 0 | 0 |
/// | 13 | how many places of the line are neither +0 nor −0 after the call, a plain number | likewise | likewise |
///
/// After every call no read waits, and nothing is kept. A port that is unset has any float, which the read half must not read. Every
/// NaN, going in or coming out, is written as 0x7ff8000000000000.
///
/// The file of the repository is made by `compare tape_delay --record FILE --ticks 1500`, with no seed given: 1,500 ticks, two
/// retunes, from 8,000 to 11,025 and back, and two resets, one at either rate.
pub fn record(ticks: u64, seed: u64) -> Result<Vec<u64>, String> {
    let mut random = Random::new(seed);
    let mut unit = Unit::tape(LOW.rate, LOW.coefficient);
    let first = length(LOW.rate) - BEFORE_THE_END;
    unit.set_moving(Moving {
        write_pos: first as usize,
        ..unit.moving()
    });
    let mut words = vec![
        KIND,
        word(LOW.rate),
        length(HIGH.rate),
        word(LOW.coefficient),
        first,
    ];
    for at in 0..ticks {
        for (_, pace) in CLEARINGS
            .iter()
            .filter(|(part, _)| part * ticks / 100 == at)
        {
            words.extend(cleared(&mut unit, pace.as_ref()));
        }
        let t = near(&unit, &mut random);
        let tanh = tanh(&mut unit, &t, &mut random);
        words.extend(ticked(&mut unit, &t, tanh)?);
    }
    Ok(words)
}

/// A read half that reads what the ticks before it have stored: the line is empty beyond. Where reads don't glide but jump, now and
/// then any.
fn near(unit: &Unit, random: &mut Random) -> Read {
    let mut t = read_half(&state(unit), random);
    if unit.coefficient() > 0.0 || !random.one_in(8) {
        t.set |= 2;
        t.ports[1] = random.within(0.0, 0.03);
    }
    t
}

/// The hyperbolic tangent of the drive is 1, so that the value is the other one: any now and then, mostly a rational number near what
/// it should be, the same on every machine.
fn tanh(unit: &mut Unit, t: &Read, random: &mut Random) -> Tanh {
    let x = fifth(unit, read(t));
    let value = if random.one_in(4) {
        random.curve()
    } else if x.abs() < 3.0 {
        x * (27.0 + x * x) / (27.0 + 9.0 * x * x)
    } else {
        1.0f64.copysign(x)
    };
    Tanh::Of([1.0, value])
}

/// What the draws and the ages go by: no count.
fn state(unit: &Unit) -> State {
    let Moving {
        write_pos,
        smoothed_delay,
        delay_primed,
    } = unit.moving();
    State {
        write_pos: as_position(write_pos as u64),
        nonzero_places: 0,
        smoothed_delay,
        delay_primed: u32::from(delay_primed),
        waiting: 0,
        kept: [0.0; 3],
        sample_rate: unit.sample_rate(),
        delay_smooth_coef: unit.coefficient(),
    }
}

fn cleared(unit: &mut Unit, pace: Option<&Pace>) -> Vec<u64> {
    let (code, rate, coefficient) = match pace {
        Some(Pace { rate, coefficient }) => {
            unit.set_sample_rate(*rate, *coefficient);
            (RETUNE, word(*rate), word(*coefficient))
        }
        None => {
            unit.reset();
            (RESET, 0, 0)
        }
    };
    let mut words = vec![code, 0, 0, 0, 0, rate, coefficient, 0, 0];
    words.extend(left(unit));
    words.extend([0, tally::nonzero(unit.line())]);
    words
}

fn ticked(unit: &mut Unit, t: &Read, tanh: Tanh) -> Result<Vec<u64>, String> {
    if control(t).1 {
        return Err("a tick that is refused is not to be recorded".into());
    }
    let before = state(unit);
    let age = ages::of(&[ages::tape(&before, t, length(before.sample_rate))]);
    let halved = halved(unit, t, tanh)?;
    let Rest {
        saturated,
        out,
        stored,
        ..
    } = halved.rest;
    unit.line_mut()[before.write_pos as usize] = stored;
    unit.set_moving(halved.moved);
    let mut words = vec![TICK, u64::from(t.set & 15)];
    words.extend(t.ports.map(word));
    words.extend([saturated, halved.fifth, out].map(word));
    words.extend(left(unit));
    words.extend([age, tally::nonzero(unit.line())]);
    Ok(words)
}

/// The words of what a call leaves in the unit, but for the count.
fn left(unit: &Unit) -> [u64; 3] {
    let Moving {
        write_pos,
        smoothed_delay,
        delay_primed,
    } = unit.moving();
    [
        write_pos as u64,
        word(smoothed_delay),
        u64::from(delay_primed),
    ]
}
