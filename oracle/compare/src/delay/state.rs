//! States of the delay, and what they are compared by.

use crate::bits::{same_count, untouched, JUNK};
use room_effects::delay::State;

pub fn junk_state() -> State {
    State {
        write_pos: JUNK as u32,
        nonzero_places: JUNK as u32,
        smoothed_delay: JUNK,
        delay_primed: JUNK as u32,
        sample_rate: JUNK,
        delay_smooth_coef: JUNK,
        max_delay_secs: JUNK,
        linear_time: JUNK as u32,
    }
}

pub fn zero_state() -> State {
    State {
        write_pos: 0,
        nonzero_places: 0,
        smoothed_delay: 0.0,
        delay_primed: 0,
        sample_rate: 0.0,
        delay_smooth_coef: 0.0,
        max_delay_secs: 0.0,
        linear_time: 0,
    }
}

/// What a refused call leaves, to the bit.
pub fn state_untouched(should: &State, is: &State) -> Result<(), String> {
    let counts = |state: &State| {
        [
            ("position after a refusal", state.write_pos),
            ("count after a refusal", state.nonzero_places),
            ("primed after a refusal", state.delay_primed),
            ("linear after a refusal", state.linear_time),
        ]
    };
    for ((what, should), (_, is)) in counts(should).into_iter().zip(counts(is)) {
        same_count(what, is, should as usize)?;
    }
    let numbers = |state: &State| {
        [
            ("distance after a refusal", state.smoothed_delay),
            ("rate after a refusal", state.sample_rate),
            ("coefficient after a refusal", state.delay_smooth_coef),
            ("maximum after a refusal", state.max_delay_secs),
        ]
    };
    for ((what, should), (_, is)) in numbers(should).into_iter().zip(numbers(is)) {
        untouched(what, should, is)?;
    }
    Ok(())
}
