//! Inside the Rust's `Tremolo`: its phase, its tick with the frequency planted.

use super::super::Tremolo;
use crate::effect::{effect, ticks_by_frames, Unlined};
use std::slice;

pub struct Unit(Tremolo);

effect! {
    Unit(Tremolo),

    fn phases(&self) -> &[f64] {
        slice::from_ref(&self.0.lfo_phase)
    }

    fn phases_mut(&mut self) -> &mut [f64] {
        slice::from_mut(&mut self.0.lfo_phase)
    }
}

ticks_by_frames!(Unit, 1);

impl Unlined<0> for Unit {
    fn stores(&self) -> [f64; 0] {
        []
    }

    fn set_stores(&mut self, _stores: &[f64; 0]) {}
}
