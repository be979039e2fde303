//! What the effects without lines have in common: they are lent no memory.

use crate::{Tick, MOST};

/// The state of an effect without lines: N numbers that it stores, beside its phase and its rate.
#[derive(Clone, Copy, Debug)]
pub struct State<const N: usize> {
    pub stores: [f64; N],
    pub lfo_phase: f64,
    pub sample_rate: f64,
}

impl<const N: usize> State<N> {
    /// Every number the same.
    pub fn even(number: f64) -> Self {
        Self {
            stores: [number; N],
            lfo_phase: number,
            sample_rate: number,
        }
    }
}

/// The calls of an effect without lines. Each returns the number of the refusal, 0 for none.
//
// Sound: each function gets numbers and places of its own to write, and is proved to touch nothing else.
pub trait Unlined<const N: usize> {
    /// Writes the state.
    fn start(state: &mut State<N>, sample_rate: f64) -> u32;

    fn reset(state: &mut State<N>) -> u32;

    fn tick(state: &mut State<N>, t: &Tick, out: &mut [f64; MOST]) -> u32;

    fn silent(state: &State<N>, out: &mut u32) -> u32;
}
