//! The longest line that there is: 60 s at 192,000, 11,520,001 places.

use super::call::{Call, What};
use super::{arguments, Delay};
use crate::counts;
use crate::random::Random;
use crate::run::Pair as _;
use crate::table::as_position;
use room_effects::delay::{Settings, State};

/// So often, and at the end, every place is compared; at each tick the one that was written is, and the count by that (tally.rs says
/// how often all are counted).
const WHOLES: u64 = 3;

/// Ticks of one unit, the first half of them before the end of the line and the rest from its first place on, in either mode by
/// turns.
pub fn run(ticks: u64, seed: u64) -> Result<String, String> {
    let mut random = Random::new(seed);
    let mut unit = filled(&mut random)?;
    let length = unit.length();
    let mut write_pos = as_position(length - (ticks / 2).clamp(1, length));
    for at in 0..ticks {
        let state = drawn(&unit, write_pos, &mut random);
        let t = arguments::tick(&state, &mut random);
        made(&mut unit, state, What::Tick(t), at)?;
        write_pos = unit.state.write_pos;
        if at % (ticks / WHOLES + 1) == 0 {
            unit.finish()?;
        }
    }
    unit.finish()?;
    for what in [What::Silent, What::Reset, What::Silent] {
        let state = unit.state;
        made(&mut unit, state, what, ticks)?;
    }
    if !unit.ages.covers(ticks, 0) {
        return Err("the age of some tick was not compared".into());
    }
    if let Some(missing) = unit.counts.missing(ticks, false) {
        return Err(missing.into());
    }
    Ok(format!(
        "long delay: {ticks} ticks compared{}{} in a line of {length} places",
        unit.ages.shown(),
        unit.counts.shown()
    ))
}

/// The line is full of audio, so that every distance reads something else.
fn filled(random: &mut Random) -> Result<Delay<false>, String> {
    let settings = Settings {
        sample_rate: 192_000.0,
        delay_smooth_coef: 0.5,
        max_delay_secs: 1e9,
        linear_time: 0,
    };
    let mut unit = Delay::<false>::started(&settings, 1)?;
    for place in 0..unit.length() as usize {
        unit.plant(place, random.ordinary_audio());
    }
    Ok(unit)
}

/// The unit's state at this position, with another coefficient and mode, and now and then with another count.
fn drawn(unit: &Delay<false>, write_pos: u32, random: &mut Random) -> State {
    let own = unit.state.nonzero_places;
    let other = counts::drawn(unit.length(), random);
    State {
        write_pos,
        nonzero_places: if random.one_in(16) { other } else { own },
        delay_smooth_coef: random.coefficient(),
        linear_time: random.flag(),
        ..unit.state
    }
}

fn made(unit: &mut Delay<false>, state: State, what: What, at: u64) -> Result<(), String> {
    let call = Call {
        state,
        planted: None,
        lent: unit.memory.count(),
        what,
    };
    match unit.call(&call) {
        Ok(_) => Ok(()),
        Err(message) => Err(format!("after {at} ticks, {}\n{message}", call.shown())),
    }
}
