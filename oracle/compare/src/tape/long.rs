//! Long lines: at 48,000 and, the longest that there is, at 192,000, which has 2,304,001 places.

use super::arguments::{read_half, tanh};
use super::call::What;
use super::directed::Directed;
use super::Tape;
use crate::ages::Compared;
use crate::random::Random;
use crate::run::{Made, Pair as _};
use crate::table::as_position;
use room_effects::tape_delay::State;

/// Pairs of one unit, the first half of them before the end of the line and the rest from its first place on.
const PAIRS: u64 = 4_000;

/// The line is full of audio, so that every distance reads something else. Every place is compared before and after the end, and at
/// the end of all; at each pair the one that was written is.
pub fn run(seed: u64) -> Result<Directed, String> {
    let mut random = Random::new(seed);
    let (mut pairs, mut compared) = (0, Compared::default());
    for rate in [48_000.0, 192_000.0] {
        let mut unit = Tape::started(rate, 0.5, 1)?;
        unit.fill(random.bits());
        let first = unit.length() - PAIRS / 2;
        unit.state.write_pos = as_position(first);
        unit.rust_at(&unit.state.clone());
        while unit.pairs < PAIRS {
            let state = State {
                delay_smooth_coef: random.coefficient(),
                ..unit.state
            };
            let t = read_half(&state, &mut random);
            unit.made_from(state, What::Read(t, tanh(&mut random)))?;
            let value = unit.rest.ok_or("no read waits")?.saturated;
            if matches!(unit.made(What::Store(value))?, Made::Refused(_)) {
                return Err("a pair in a line of numbers was refused".into());
            }
            if unit.pairs % (PAIRS / 4) == 0 {
                unit.finish()?;
            }
        }
        unit.made(What::Silent)?;
        unit.made(What::Reset)?;
        unit.made(What::Silent)?;
        pairs += unit.pairs;
        compared = compared.and(unit.ages);
    }
    Ok((pairs, compared))
}
