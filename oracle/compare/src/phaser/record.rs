//! Stored answers of the Rust for the phaser.

use super::{Phaser, Way, FORM};
use crate::bits::word;
use crate::random::Random;
use crate::unlined::Effect as _;
use quiver_oracle::phaser::Unit;
use quiver_oracle::{Effect as _, Unlined as _};
use room_effects::phaser::STAGES;
use room_effects::Tick;

/// The effect's number.
const KIND: u64 = 7;

/// The rate of the start.
const RATE: f64 = 44_100.0;

/// Codes of the calls, and of the first of four looks at the stores between them.
const TICK: u64 = 0;
const RESET: u64 = 2;
const LOOK: u64 = 3;

/// The words of a record: see `record`.
const RECORD: usize = 13;

/// Resets, each before the tick that comes after so many in a hundred.
const RESETS: [u64; 2] = [30, 70];

/// In so many ticks before a reset the audio is huge. Elsewhere it never is: what it comes to would stay until the next reset.
const HUGE: u64 = 8;

/// After so many ticks the stores are looked at.
const LOOKS: u64 = 16;

/// Answers of the Rust, and of nothing of ours, to accepted calls, for a program that replays them with no Rust at hand.
///
/// A file is one unit's calls from its start on, as those of the effects with sweeps are. First come three words for the start,
/// which is no record, each a u64, little-endian: 7, the number of the phaser; bits of the sample rate to start at, 44,100; how
/// many places the memory has, 0.
///
/// Then a list of records of 13 words, with nothing between or after them:
///
/// | word | tick | reset | a look at the stores |
/// |---|---|---|---|
/// | 0 | 0 | 2 | 3 the last inputs of the left chain, 4 of the right, 5 the last outputs of the left, 6 of the right |
/// | 1 | mask of the ports that are set: 1 audio, 2 feedback, 4 mix, 8 stages | 0 | 1 to 6: bits of these, the first stage's first |
/// | 2 to 5 | bits of audio, feedback, mix, stages | 0 | |
/// | 6 | bits of the frequency | 0 | |
/// | 7, 8 | bits of the left and of the right coefficient | 0 | 0 |
/// | 9 to 11 | the Rust's answer, mono, left and right: their bits | 0 | 0 |
/// | 12 | bits of the phase after the call | likewise | likewise |
///
/// A port that is unset has any float, which the tick must not read. Every NaN, going in or coming out, is written as
/// 0x7ff8000000000000. Each tick is one of the Rust's: its right coefficient is the left one, or one of a tangent.
///
/// The file of the repository is made by `compare phaser --record FILE --ticks 1500` with no seed given: 1,500 ticks, two resets,
/// and four looks after every 16th tick.
pub fn record(ticks: u64, seed: u64) -> Result<Vec<u64>, String> {
    let mut random = Random::new(seed);
    let mut unit = Unit::new(RATE);
    let mut words = vec![KIND, word(RATE), 0];
    let resets = RESETS.map(|part| part * ticks / 100);
    for at in 0..ticks {
        if resets.contains(&at) {
            unit.reset();
            words.extend(made(RESET, &[], &unit));
        }
        let huge = resets
            .iter()
            .any(|reset| (1..=HUGE).contains(&reset.wrapping_sub(at)));
        let (t, way) = drawn(huge, &mut random);
        let mut arguments = FORM.words(&t)?;
        let out = Phaser::in_rust(&mut unit, &t, way)?;
        arguments.extend(out.map(word));
        words.extend(made(TICK, &arguments, &unit));
        if at % LOOKS == LOOKS - 1 {
            let stores = unit.stores().map(word);
            for (code, stages) in (LOOK..).zip(stores.chunks(STAGES)) {
                words.extend(made(code, stages, &unit));
            }
        }
    }
    Ok(words)
}

/// A tick that is one of the Rust's.
fn drawn(huge: bool, random: &mut Random) -> (Tick, Way) {
    let (mut t, way) = Phaser::draw(random);
    if matches!(way, Way::TwoTicks) {
        return drawn(huge, random);
    }
    let audio = &mut t.ports[0];
    if huge {
        t.set |= 1;
        *audio = random.of(&[f64::MAX, f64::MIN, 1e308]);
    } else if audio.is_finite() && audio.abs() > 1e6 {
        *audio = random.ordinary_audio();
    }
    (t, way)
}

/// A record.
fn made(code: u64, said: &[u64], unit: &Unit) -> [u64; RECORD] {
    let mut words = [0; RECORD];
    words[0] = code;
    words[1..1 + said.len()].copy_from_slice(said);
    words[RECORD - 1] = word(unit.phases()[0]);
    words
}
