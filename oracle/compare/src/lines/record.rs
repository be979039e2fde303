//! Stored answers of the Rust for an effect with lines.

use super::{distances, draw, length, Effect};
use crate::ages;
use crate::bits::word;
use crate::random::Random;
use crate::tally;
use quiver_oracle::{Effect as _, Lined as _};
use room_effects::{Tick, MOST};

/// The rate of the start, and the one that a retune goes to in between.
const LOW: f64 = 8_000.0;
const HIGH: f64 = 11_025.0;

/// Codes of the calls.
const TICK: u64 = 0;
const RETUNE: u64 = 1;
const RESET: u64 = 2;

/// Resets and retunes (to this rate), each before the tick that comes after so many in a hundred: between them the position
/// goes round the longest line at either rate.
const CLEARINGS: [(u64, Option<f64>); 4] =
    [(30, None), (40, Some(HIGH)), (70, None), (77, Some(LOW))];

/// Answers of the Rust, and of nothing of ours, to accepted calls, for a program that replays them with no Rust at hand. The Rust
/// knows no ages and no counts: they are those of the readings, the counts of those of the Rust's lines that ours correspond to.
///
/// A file is one unit's calls from its start on, in order: each call goes to the state and the memory that the one before it
/// left. All of it is words, each a u64, little-endian. First come three words for the start, which is no record:
///
/// | word | holds |
/// |---|---|
/// | 0 | document 01's number of the effect |
/// | 1 | bits of the sample rate to start at, 8,000 |
/// | 2 | how many places the memory has: no more than the highest of the rates needs |
///
/// Then a list of records, with nothing between or after them, all of one length:
///
/// | words | tick | retune | reset |
/// |---|---|---|---|
/// | one | 0 | 1 | 2 |
/// | one | mask of the ports that are set: 1 the first, 2 the second and so on | 0 | 0 |
/// | one for each port | bits of its number, audio first | the last: bits of the new rate; the others: 0 | 0 |
/// | one | bits of the frequency | 0 | 0 |
/// | one for each sine | its bits | 0 | 0 |
/// | one for each sample | the Rust's answer: its bits | 0 | 0 |
/// | one | the position after the call, a plain number | likewise | likewise |
/// | one for each phase | its bits after the call | likewise | likewise |
/// | one | the age, a plain number | 0 | 0 |
/// | one | how many places in use are neither +0 nor −0 after the call, a plain number | likewise | likewise |
///
/// So the words of a record are:
///
/// | effect | ports | frequency | sines | samples | position | phases | age | count | in all |
/// |---|---|---|---|---|---|---|---|---|---|
/// | 4 vibrato | 2 audio, 3 depth, 4 mix | 5 | 6 | 7 | 8 | 9 | 10 | 11 | 12 |
/// | 2 chorus | 2 audio, 3 depth, 4 mix | 5 | 6 to 8 | 9 mono, 10 left, 11 right | 12 | 13 to 15 | 16 | 17 | 18 |
/// | 3 flanger | 2 audio, 3 depth, 4 feedback, 5 mix | 6 | 7, 8 | 9 mono, 10 left, 11 right | 12 | 13 | 14 | 15 | 16 |
///
/// A port that is unset has any float, which the tick must not read. Every NaN, going in or coming out, is written as
/// 0x7ff8000000000000.
///
/// The files of the repository are made by `compare EFFECT --record FILE --ticks 1500` with no seed given: 1,500 ticks, two
/// retunes, from 8,000 to 11,025 and back, and two resets, one at either rate.
pub fn record<E: Effect>(ticks: u64, seed: u64) -> Result<Vec<u64>, String> {
    let mut random = Random::new(seed);
    let mut unit = E::Rust::new(LOW);
    let places = E::LINES as u64 * length::<E>(HIGH);
    let mut words = vec![E::KIND, word(LOW), places];
    for at in 0..ticks {
        for (_, rate) in CLEARINGS
            .iter()
            .filter(|(part, _)| part * ticks / 100 == at)
        {
            words.extend(cleared::<E>(&mut unit, *rate));
        }
        let t = draw::tick::<E>(&mut random);
        words.extend(ticked::<E>(&mut unit, &t)?);
    }
    Ok(words)
}

fn cleared<E: Effect>(unit: &mut E::Rust, rate: Option<f64>) -> Vec<u64> {
    let (code, rate_word) = match rate {
        Some(rate) => {
            unit.set_sample_rate(rate);
            (RETUNE, word(rate))
        }
        None => {
            unit.reset();
            (RESET, 0)
        }
    };
    let mut words = vec![code, 0];
    words.resize(words.len() + E::FORM.controls.len(), 0);
    words.extend([rate_word, 0]);
    words.resize(words.len() + E::FORM.sines.len(), 0);
    words.extend(left::<E>(unit, [0.0; MOST]));
    words.extend([0, counted::<E>(unit)]);
    words
}

fn ticked<E: Effect>(unit: &mut E::Rust, t: &Tick) -> Result<Vec<u64>, String> {
    let mut words = vec![TICK];
    words.extend(E::FORM.words(t)?);
    let age = ages::of(&distances::<E>(unit.sample_rate(), t));
    let out = E::FORM.in_rust(unit, t)?;
    words.extend(left::<E>(unit, out));
    words.extend([age, counted::<E>(unit)]);
    Ok(words)
}

/// The words of what a call answers and leaves.
fn left<E: Effect>(unit: &E::Rust, out: [f64; MOST]) -> Vec<u64> {
    let mut words: Vec<u64> = out[..E::SAMPLES].iter().copied().map(word).collect();
    words.push(unit.write_pos() as u64);
    words.extend(unit.phases().iter().copied().map(word));
    words
}

fn counted<E: Effect>(unit: &E::Rust) -> u64 {
    let lines = unit.lines().iter().step_by(E::RUST_LINES_FOR_ONE);
    lines.map(|line| tally::nonzero(line)).sum()
}
