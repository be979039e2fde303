//! States of the tape delay, and what they are compared by.

use crate::bits::{same_count, untouched, JUNK};
use room_effects::tape_delay::State;

pub const KEPT: [&str; 3] = ["kept audio", "kept read", "kept mix"];

pub fn junk_state() -> State {
    State {
        write_pos: JUNK as u32,
        nonzero_places: JUNK as u32,
        smoothed_delay: JUNK,
        delay_primed: JUNK as u32,
        waiting: JUNK as u32,
        kept: [JUNK; 3],
        sample_rate: JUNK,
        delay_smooth_coef: JUNK,
    }
}

pub fn zero_state() -> State {
    State {
        write_pos: 0,
        nonzero_places: 0,
        smoothed_delay: 0.0,
        delay_primed: 0,
        waiting: 0,
        kept: [0.0; 3],
        sample_rate: 0.0,
        delay_smooth_coef: 0.0,
    }
}

/// What a refused call leaves, or a state that a call may not have written to, to the bit.
pub fn state_untouched(should: &State, is: &State) -> Result<(), String> {
    let counts = |state: &State| {
        [
            ("position after a refusal", state.write_pos),
            ("count after a refusal", state.nonzero_places),
            ("primed after a refusal", state.delay_primed),
            ("waiting after a refusal", state.waiting),
        ]
    };
    for ((what, should), (_, is)) in counts(should).into_iter().zip(counts(is)) {
        same_count(what, is, should as usize)?;
    }
    let numbers = |state: &State| {
        let [audio, read, mix] = state.kept;
        [
            ("distance after a refusal", state.smoothed_delay),
            ("kept audio after a refusal", audio),
            ("kept read after a refusal", read),
            ("kept mix after a refusal", mix),
            ("rate after a refusal", state.sample_rate),
            ("coefficient after a refusal", state.delay_smooth_coef),
        ]
    };
    for ((what, should), (_, is)) in numbers(should).into_iter().zip(numbers(is)) {
        untouched(what, should, is)?;
    }
    Ok(())
}
