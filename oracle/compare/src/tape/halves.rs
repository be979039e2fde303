//! The two halves of a tick, each beside its part of the Rust's tick.

use super::call::Call;
use super::state::{state_untouched, KEPT};
use super::tanh::{halved, Halved, Rest, Tanh};
use super::{length, Tape, WHOLE};
use crate::ages;
use crate::bits::{agree, equal, same_count, untouched, JUNK};
use crate::run::{number_agrees, Made};
use quiver_oracle::delay::Moving;
use room_effects::tape_delay as ours;
use room_effects::tape_delay::{Read, State};

impl Tape {
    pub fn read_both(
        &mut self,
        call: &Call,
        t: &Read,
        tanh: Tanh,
        number: u32,
    ) -> Result<Made, String> {
        let handed = (number == 0).then(|| self.handed(&call.state));
        let mut state = call.state;
        let (mut sum, mut age) = (JUNK, JUNK as u32);
        let lent = self.memory.shown(call.lent);
        number_agrees(
            ours::read_half(&mut state, lent, t, &mut sum, &mut age),
            number,
        )?;
        let Some(handed) = handed else {
            untouched("sum of a refused read half", 0.0, sum)?;
            self.ages.with_none(age)?;
            self.refused(&call.state, &state)?;
            return Ok(Made::Refused(number));
        };
        self.rust_at(&call.state);
        let halved = halved(&mut self.rust, t, tanh)?;
        sum_agrees(sum, &halved)?;
        kept_agree(state.kept, halved.kept)?;
        self.rust.set_moving(Moving {
            write_pos: call.state.write_pos as usize,
            ..halved.moved
        });
        self.age_agrees(age, &call.state, t)?;
        same_count("primed", u64::from(state.delay_primed), 1)?;
        self.state = state;
        self.rest = Some(halved.rest);
        self.memory.unwritten(call.state.write_pos as usize)?;
        self.count_agrees(&handed)?;
        self.states_agree()?;
        Ok(Made::Half)
    }

    /// The age of an accepted read half from this state; the Rust's unit keeps the distance at which it read.
    fn age_agrees(&mut self, age: u32, before: &State, t: &Read) -> Result<(), String> {
        let length = length(before.sample_rate);
        let read = ages::tape(before, t, length);
        agree("distance read", read, self.rust.moving().smoothed_delay)?;
        self.ages.with(age, &[read], length)
    }

    /// With the unit's own read half, and the value that the Rust saturates its sum to, that is a pair.
    pub fn store_both(&mut self, call: &Call, value: f64, number: u32) -> Result<Made, String> {
        let handed = (number == 0).then(|| self.handed(&call.state));
        let mut state = call.state;
        let mut out = JUNK;
        let lent = self.memory.lend(call.lent);
        number_agrees(ours::store_half(&mut state, lent, value, &mut out), number)?;
        let Some(handed) = handed else {
            untouched("out of a refused store half", 0.0, out)?;
            self.refused(&call.state, &state)?;
            return Ok(Made::Refused(number));
        };
        self.rust_at(&call.state);
        let (rest, pair) = self.rest(&call.state, value);
        agree("out", out, rest.out)?;
        let written = call.state.write_pos as usize;
        self.rust.line_mut()[written] = rest.stored;
        self.memory.written(written, rest.stored)?;
        self.rust.set_moving(Moving {
            write_pos: rest.next,
            ..self.rust.moving()
        });
        self.state = state;
        self.rest = None;
        self.count_agrees(&handed)?;
        if !pair {
            self.states_agree()?;
            return Ok(Made::Other);
        }
        self.pairs += 1;
        if self.pairs % WHOLE.max(self.length() / 8) == 0 {
            self.all_agrees()?;
        } else {
            self.states_agree()?;
        }
        Ok(Made::Tick)
    }

    /// What a store half from this state has to come to, and whether that is a pair, with whatever count. A state that the unit's own
    /// read half did not leave, and a value that is not the Rust's, are held against the description: "writes v × 5 at the old write
    /// position, the position advances", answers audio × (1 − mix) + read × mix of the kept numbers.
    fn rest(&self, before: &State, value: f64) -> (Rest, bool) {
        let left = State {
            nonzero_places: before.nonzero_places,
            ..self.state
        };
        let own = self.rest.filter(|_| state_untouched(&left, before).is_ok());
        match own {
            Some(rest) if equal(rest.saturated, value) => (rest, true),
            Some(rest) => {
                let stored = value * 5.0;
                (Rest { stored, ..rest }, false)
            }
            None => {
                let [audio, read, mix] = before.kept;
                let rest = Rest {
                    saturated: value,
                    out: audio * (1.0 - mix) + read * mix,
                    stored: value * 5.0,
                    next: ((u64::from(before.write_pos) + 1) % length(before.sample_rate)) as usize,
                };
                (rest, false)
            }
        }
    }
}

/// The sum, by its fifth and, where the Rust shows it, by itself.
fn sum_agrees(sum: f64, halved: &Halved) -> Result<(), String> {
    agree("fifth of the sum", sum / 5.0, halved.fifth)?;
    halved.sum.map_or(Ok(()), |rust| agree("sum", sum, rust))
}

fn kept_agree(ours: [f64; 3], rust: [f64; 3]) -> Result<(), String> {
    let both = ours.into_iter().zip(rust);
    KEPT.into_iter()
        .zip(both)
        .try_for_each(|(what, (ours, rust))| agree(what, ours, rust))
}
