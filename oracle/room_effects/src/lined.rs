//! What the effects with lines have in common.

use crate::{Tick, MOST};

/// The state of an effect with lines, which one write position goes round, with the count of their places that are neither +0 nor
/// −0.
#[derive(Clone, Copy, Debug)]
pub struct State {
    pub write_pos: u32,
    pub nonzero_places: u32,
    pub phases: [f64; MOST],
    pub sample_rate: f64,
}

/// The calls of an effect with lines. `memory` is what the call is lent. Each returns the number of the refusal, 0 for none.
pub trait Lined {
    /// Writes the state.
    fn start(state: &mut State, memory: &mut [f64], sample_rate: f64) -> u32;

    fn retune(state: &mut State, memory: &mut [f64], sample_rate: f64) -> u32;

    fn reset(state: &mut State, memory: &mut [f64]) -> u32;

    /// Beside the samples, the age in ticks of the oldest sample that its reads weighed above 0; 0 where it is refused.
    fn tick(
        state: &mut State,
        memory: &mut [f64],
        t: &Tick,
        out: &mut [f64; MOST],
        age: &mut u32,
    ) -> u32;

    fn silent(state: &State, out: &mut u32) -> u32;
}

/// `Lined` by the exported functions. Tick and silent, which take phases and sines in each effect's own way, come with it.
//
// Sound: each function gets numbers, places of its own to write and a slice's address with its length, and is proved to touch
// nothing else. (To C, the address of one phase and of a list are the same.)
macro_rules! lined {
    ($effect:ident, $start:ident, $retune:ident, $reset:ident, $($rest:tt)*) => {
        extern "C" {
            fn $start(
                sample_rate: f64,
                memory: *mut f64,
                places: u64,
                pos: &mut u32,
                nonzero: &mut u32,
                phases: &mut [f64; $crate::MOST],
                rate: &mut f64,
            ) -> u32;
            fn $retune(
                sample_rate: f64,
                memory: *mut f64,
                places: u64,
                pos: &mut u32,
                nonzero: &mut u32,
                phases: &mut [f64; $crate::MOST],
                rate: &mut f64,
            ) -> u32;
            fn $reset(
                memory: *mut f64,
                places: u64,
                pos: &mut u32,
                nonzero: &mut u32,
                phases: &mut [f64; $crate::MOST],
                rate: f64,
            ) -> u32;
        }

        pub struct $effect;

        impl Lined for $effect {
            fn start(s: &mut State, memory: &mut [f64], sample_rate: f64) -> u32 {
                let (places, memory) = (memory.len() as u64, memory.as_mut_ptr());
                let State { write_pos, nonzero_places, phases, sample_rate: rate } = s;
                unsafe { $start(sample_rate, memory, places, write_pos, nonzero_places, phases, rate) }
            }

            fn retune(s: &mut State, memory: &mut [f64], sample_rate: f64) -> u32 {
                let (places, memory) = (memory.len() as u64, memory.as_mut_ptr());
                let State { write_pos, nonzero_places, phases, sample_rate: rate } = s;
                unsafe { $retune(sample_rate, memory, places, write_pos, nonzero_places, phases, rate) }
            }

            fn reset(s: &mut State, memory: &mut [f64]) -> u32 {
                let (places, memory) = (memory.len() as u64, memory.as_mut_ptr());
                let State { write_pos, nonzero_places, phases, sample_rate: rate } = s;
                unsafe { $reset(memory, places, write_pos, nonzero_places, phases, *rate) }
            }

            $($rest)*
        }
    };
}
