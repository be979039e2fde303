//! Stored answers of the Rust for the delay.

use super::call::causes;
use super::{arguments, in_rust, length, KIND};
use crate::ages;
use crate::bits::word;
use crate::random::Random;
use crate::table;
use crate::table::as_position;
use crate::tally;
use quiver_oracle::delay::{Moving, Unit};
use room_effects::delay::{State, Tick};

/// The maximum in seconds, with which a line has 401 places at the lower rate and 552 at the higher.
const MAXIMUM: f64 = 0.05;

/// A rate, and a glide coefficient near what the Rust works out there. (Its own is no number to store: another `exp` may give
/// another one.)
struct Pace {
    rate: f64,
    coefficient: f64,
}

const LOW: Pace = Pace {
    rate: 8_000.0,
    coefficient: 0.9753,
};
const HIGH: Pace = Pace {
    rate: 11_025.0,
    coefficient: 0.982,
};

/// The last retune is back to the lower rate, to a read that jumps.
const JUMP: Pace = Pace {
    rate: 8_000.0,
    coefficient: 0.0,
};

/// Codes of the calls.
const TICK: u64 = 0;
const RETUNE: u64 = 1;
const RESET: u64 = 2;

/// Resets and retunes, each before the tick that comes after so many in a hundred: between them the position goes round the line
/// at either rate.
const CLEARINGS: [(u64, Option<Pace>); 4] =
    [(3, None), (33, Some(HIGH)), (35, None), (73, Some(JUMP))];

/// Answers of the Rust, and of nothing of ours, to accepted calls, for a program that replays them with no Rust at hand. The Rust
/// knows no ages and no counts: they are those of the readings, the counts of the Rust's line.
///
/// A file is one unit's calls from its start on, as those of the effects with sweeps are. First come six words for the start,
/// which is no record, each a u64, little-endian:
///
/// | word | holds |
/// |---|---|
/// | 0 | 1, document 01's number of the delay |
/// | 1 | bits of the sample rate to start at, 8,000 |
/// | 2 | how many places the memory has: no more than the highest of the rates needs |
/// | 3 | bits of the maximum in seconds |
/// | 4 | bits of the glide coefficient |
/// | 5 | 1 for linear mode, 0 for exponential |
///
/// Then a list of records of 13 words, with nothing between or after them:
///
/// | word | tick | retune | reset |
/// |---|---|---|---|
/// | 0 | 0 | 1 | 2 |
/// | 1 | mask of the ports that are set: 1 audio, 2 time, 4 feedback, 8 mix | 0 | 0 |
/// | 2 to 5 | bits of audio, time, feedback, mix | 5: bits of the new rate; the others: 0 | 0 |
/// | 6 | bits of the milliseconds | bits of the new coefficient | 0 |
/// | 7 | the Rust's answer: its bits | 0 | 0 |
/// | 8 | the position after the call, a plain number | likewise | likewise |
/// | 9 | bits of the glide distance after the call | likewise | likewise |
/// | 10 | 1 if primed after the call, else 0 | likewise | likewise |
/// | 11 | the age, a plain number | 0 | 0 |
/// | 12 | how many places of the line are neither +0 nor −0 after the call, a plain number | likewise | likewise |
///
/// A port that is unset has any float, which the tick must not read, and so has what the mode doesn't read. Every NaN, going in
/// or coming out, is written as 0x7ff8000000000000.
///
/// The files of the repository are made by `compare delay --record FILE --ticks 1500`, and `compare linear_delay ..`, with no
/// seed given: 1,500 ticks, two retunes, from 8,000 to 11,025 and back, and two resets, one at either rate.
pub fn record<const LINEAR: bool>(ticks: u64, seed: u64) -> Result<Vec<u64>, String> {
    let mut random = Random::new(seed);
    let mut unit = Unit::new(LOW.rate, MAXIMUM, LOW.coefficient, LINEAR);
    let mut words = vec![
        KIND,
        word(LOW.rate),
        table::delay_length(HIGH.rate, MAXIMUM),
        word(MAXIMUM),
        word(LOW.coefficient),
        u64::from(LINEAR),
    ];
    for at in 0..ticks {
        for (_, pace) in CLEARINGS
            .iter()
            .filter(|(part, _)| part * ticks / 100 == at)
        {
            words.extend(cleared(&mut unit, pace.as_ref()));
        }
        let t = arguments::tick(&state(&unit), &mut random);
        words.extend(ticked(&mut unit, &t)?);
    }
    Ok(words)
}

/// What the draws and the ages go by: no count.
fn state(unit: &Unit) -> State {
    let Moving {
        write_pos,
        smoothed_delay,
        delay_primed,
    } = unit.moving();
    State {
        write_pos: as_position(write_pos as u64),
        nonzero_places: 0,
        smoothed_delay,
        delay_primed: u32::from(delay_primed),
        sample_rate: unit.sample_rate(),
        delay_smooth_coef: unit.coefficient(),
        max_delay_secs: unit.maximum(),
        linear_time: u32::from(unit.linear()),
    }
}

fn cleared(unit: &mut Unit, pace: Option<&Pace>) -> Vec<u64> {
    let (code, rate, coefficient) = match pace {
        Some(Pace { rate, coefficient }) => {
            unit.set_sample_rate(*rate, *coefficient);
            (RETUNE, word(*rate), word(*coefficient))
        }
        None => {
            unit.reset();
            (RESET, 0, 0)
        }
    };
    let mut words = vec![code, 0, 0, 0, 0, rate, coefficient, 0];
    words.extend(left(unit));
    words.extend([0, tally::nonzero(unit.line())]);
    words
}

fn ticked(unit: &mut Unit, t: &Tick) -> Result<Vec<u64>, String> {
    if table::first(&causes(t, unit.linear())) != 0 {
        return Err("a tick that is refused is not to be recorded".into());
    }
    let before = state(unit);
    let age = ages::of(&[ages::delay(&before, t, length(&before))]);
    let out = in_rust(unit, t);
    let mut words = vec![TICK, u64::from(t.set & 15)];
    words.extend(t.ports.map(word));
    words.extend([word(t.milliseconds), word(out)]);
    words.extend(left(unit));
    words.extend([age, tally::nonzero(unit.line())]);
    Ok(words)
}

/// The words of what a call leaves in the unit, but for the count.
fn left(unit: &Unit) -> [u64; 3] {
    let Moving {
        write_pos,
        smoothed_delay,
        delay_primed,
    } = unit.moving();
    [
        write_pos as u64,
        word(smoothed_delay),
        u64::from(delay_primed),
    ]
}
