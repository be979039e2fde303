//! Inside the Rust's `Vibrato`: its phase, its position, its line, its tick with the frequency planted.

use super::super::Vibrato;
use crate::effect::{effect, ticks_by_frames, Lined};
use crate::port::GraphModule;
use std::slice;

pub struct Unit(Vibrato);

effect! {
    Unit(Vibrato),

    fn phases(&self) -> &[f64] {
        slice::from_ref(&self.0.lfo_phase)
    }

    fn phases_mut(&mut self) -> &mut [f64] {
        slice::from_mut(&mut self.0.lfo_phase)
    }
}

ticks_by_frames!(Unit, 1);

impl Lined for Unit {
    fn set_sample_rate(&mut self, sample_rate: f64) {
        self.0.set_sample_rate(sample_rate);
    }

    fn write_pos(&self) -> usize {
        self.0.write_pos
    }

    fn set_write_pos(&mut self, write_pos: usize) {
        self.0.write_pos = write_pos;
    }

    fn lines(&self) -> &[Vec<f64>] {
        slice::from_ref(&self.0.buffer)
    }

    fn lines_mut(&mut self) -> &mut [Vec<f64>] {
        slice::from_mut(&mut self.0.buffer)
    }
}
