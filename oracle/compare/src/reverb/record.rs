//! Stored answers of the Rust for the reverb.

use super::call::{cause, read};
use super::{draw, KIND};
use crate::bits::word;
use crate::random::Random;
use crate::table::TANK_PLACES;
use crate::tally;
use quiver_oracle::reverb::Unit;
use room_effects::reverb::Tick;

/// The rate of the start, and the one that a retune goes to in between.
const LOW: f64 = 8_000.0;
const HIGH: f64 = 11_025.0;

/// Codes of the calls, and of the looks at the stores between them.
const TICK: u64 = 0;
const RETUNE: u64 = 1;
const RESET: u64 = 2;
const LEFT_STORES: u64 = 3;
const RIGHT_STORES: u64 = 4;

/// Resets and retunes (to this rate), each before the tick that comes after so many in a hundred: between them the positions go
/// round the longest line at either rate.
const CLEARINGS: [(u64, Option<f64>); 4] =
    [(3, None), (45, Some(HIGH)), (47, None), (78, Some(LOW))];

/// After so many ticks the stores are looked at.
const LOOKS: u64 = 16;

/// Answers of the Rust, and of nothing of ours, to accepted calls, for a program that replays them with no Rust at hand. The Rust
/// knows no counts: they are those of the reading, of the Rust's buffers.
///
/// A file is one unit's calls from its start on, as those of the effects with sweeps are. First come three words for the start,
/// which is no record, each a u64, little-endian: 6, document 01's number of the reverb; bits of the sample rate to start at,
/// 8,000; how many places the memory has, 87,136.
///
/// Then a list of records of 17 words, with nothing between or after them:
///
/// | word | tick | retune | reset | a look at the stores |
/// |---|---|---|---|---|
/// | 0 | 0 | 1 | 2 | 3 left, 4 right |
/// | 1 | mask of the ports that are set: 1 audio, 2 size, 4 damping, 8 mix, 16 predelay | 0 | 0 | 1 to 8: bits of the side's damping stores |
/// | 2 to 6 | bits of audio, size, damping, mix, predelay | 6: bits of the new rate; the others: 0 | 0 | |
/// | 7, 8 | the Rust's answer, left and right: their bits | 0 | 0 | |
/// | 9, 10 | after the call, the positions of the left combs, four in a word, 16 bits each, the first lowest | likewise | likewise | likewise |
/// | 11, 12 | of the right combs | likewise | likewise | likewise |
/// | 13, 14 | of the left and the right all-passes | likewise | likewise | likewise |
/// | 15 | of the predelay | likewise | likewise | likewise |
/// | 16 | how many places in use are neither +0 nor −0 after the call, a plain number | likewise | likewise | likewise |
///
/// A port that is unset has any float, which the tick must not read. Every NaN, going in or coming out, is written as
/// 0x7ff8000000000000.
///
/// The file of the repository is made by `compare reverb --record FILE --ticks 1500` with no seed given: 1,500 ticks, two
/// retunes, from 8,000 to 11,025 and back, two resets, one at either rate, and two looks after every 16th tick.
pub fn record(ticks: u64, seed: u64) -> Result<Vec<u64>, String> {
    let mut random = Random::new(seed);
    let mut unit = Unit::new(LOW);
    let mut words = vec![KIND, word(LOW), TANK_PLACES as u64];
    for at in 0..ticks {
        for (_, rate) in CLEARINGS
            .iter()
            .filter(|(part, _)| part * ticks / 100 == at)
        {
            words.extend(cleared(&mut unit, *rate));
        }
        let t = draw::tick(unit.sample_rate(), &mut random);
        words.extend(ticked(&mut unit, &t)?);
        if at % LOOKS == LOOKS - 1 {
            words.extend(stores(&unit));
        }
    }
    Ok(words)
}

fn cleared(unit: &mut Unit, rate: Option<f64>) -> Vec<u64> {
    let (code, rate) = match rate {
        Some(rate) => {
            unit.set_sample_rate(rate);
            (RETUNE, word(rate))
        }
        None => {
            unit.reset();
            (RESET, 0)
        }
    };
    let mut words = vec![code, 0, 0, 0, 0, 0, rate, 0, 0];
    words.extend(left(unit));
    words
}

fn ticked(unit: &mut Unit, t: &Tick) -> Result<Vec<u64>, String> {
    if cause(t).1 {
        return Err("a tick that is refused is not to be recorded".into());
    }
    let out = unit.tick(read(t));
    let mut words = vec![TICK, u64::from(t.set & 31)];
    words.extend(t.ports.map(word));
    words.extend(out.map(word));
    words.extend(left(unit));
    Ok(words)
}

/// Two records.
fn stores(unit: &Unit) -> Vec<u64> {
    let stores = unit.stores().map(word);
    let mut words = Vec::new();
    for (code, side) in [LEFT_STORES, RIGHT_STORES]
        .into_iter()
        .zip(stores.chunks(8))
    {
        words.push(code);
        words.extend(side);
        words.extend(left(unit));
    }
    words
}

/// The words of what a call leaves.
fn left(unit: &Unit) -> Vec<u64> {
    let packed = |four: &[usize]| {
        four.iter()
            .rev()
            .fold(0, |word, pos| word << 16 | *pos as u64)
    };
    let mut words: Vec<u64> = unit.positions().chunks(4).map(packed).collect();
    words.push(counted(unit));
    words
}

fn counted(unit: &Unit) -> u64 {
    let lengths = unit.lengths().into_iter().enumerate();
    let in_use = lengths.map(|(line, length)| &unit.line(line)[..length]);
    in_use.map(tally::nonzero).sum()
}
