//! The tremolo: ours beside the Rust's.

use crate::bits::word;
use crate::random::{Random, COMMON_RATES};
use crate::tick::{Control, Form, AS_IT_IS, DEPTH, SINE};
use crate::unlined::Effect;
use quiver_oracle::tremolo::Unit;
use quiver_oracle::Effect as _;
use room_effects::tremolo::STORES;
use room_effects::{Tick, MOST};

const FORM: Form = Form {
    controls: &[DEPTH, Control::unit("shape")],
    curve: SINE,
    sines: &[(0, AS_IT_IS)],
};

pub struct Tremolo;

impl Effect<STORES> for Tremolo {
    const NAME: &'static str = "tremolo";
    const SAMPLES: usize = 1;
    const FORM: Form = FORM;
    type Way = ();
    const ANY_WAY: () = ();
    type Ours = room_effects::tremolo::Tremolo;
    type Rust = Unit;

    fn draw(random: &mut Random) -> (Tick, ()) {
        (FORM.draw(random, Random::audio), ())
    }

    fn in_rust(rust: &mut Unit, t: &Tick, _way: ()) -> Result<[f64; MOST], String> {
        FORM.in_rust(rust, t)
    }
}

/// Document 01's number of the effect.
const KIND: u64 = 5;

/// One in this many records goes to a unit that has just been started at another rate.
const RESTART: u64 = 32;

/// Answers of the Rust, and of nothing of ours, to accepted ticks, for a program that replays them with no Rust at hand.
///
/// A file is a list of records with nothing before, between or after them. A record is 11 words, each a u64, little-endian:
///
/// | word | holds |
/// |---|---|
/// | 0 | 5, document 01's number of the tremolo |
/// | 1, 2 | bits of the phase before the tick; of the sample rate |
/// | 3 | mask of the ports that are set: 1 audio, 2 depth, 4 shape |
/// | 4, 5, 6 | bits of audio, depth and shape; of a port that is unset any float, which the tick must not read |
/// | 7, 8 | bits of the frequency; of the sine |
/// | 9, 10 | the Rust's answer: bits of the phase after the tick; of the sample |
///
/// Every NaN, going in or coming out, is written as 0x7ff8000000000000. Each record stands alone: it has its state before.
/// The file of the repository is made by `compare tremolo --record FILE --ticks 2000` with no seed given.
pub fn record(ticks: u64, seed: u64) -> Result<Vec<u64>, String> {
    let mut random = Random::new(seed);
    let mut units = COMMON_RATES.map(Unit::new);
    let mut words = Vec::new();
    for _ in 0..ticks {
        let unit = &mut units[random.below(COMMON_RATES.len() as u64) as usize];
        if random.one_in(RESTART) {
            *unit = Unit::new(random.sample_rate());
        }
        let (t, ()) = Tremolo::draw(&mut random);
        let phase = match random.below(16) {
            0..=3 => random.phase(),
            4 => random.phase_near_wrap(t.frequency / unit.sample_rate()),
            _ => unit.phases()[0],
        };
        words.extend(recorded(unit, phase, &t)?);
    }
    Ok(words)
}

fn recorded(unit: &mut Unit, phase: f64, t: &Tick) -> Result<Vec<u64>, String> {
    let mut words = vec![KIND, word(phase), word(unit.sample_rate())];
    words.extend(FORM.words(t)?);
    unit.phases_mut()[0] = phase;
    let [out, ..] = FORM.in_rust(unit, t)?;
    words.extend([unit.phases()[0], out].map(word));
    Ok(words)
}
