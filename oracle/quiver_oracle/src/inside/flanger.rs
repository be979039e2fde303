//! Inside the Rust's `Flanger`: its phase, its position, its lines, its tick with the frequency planted.

use super::super::Flanger;
use crate::effect::{effect, Lined, RATE};
use crate::map::{ticks_by_map, Map, SPREAD};
use crate::port::GraphModule;
use std::slice;

pub struct Unit(Flanger, Map);

effect! {
    Unit(Flanger, Self::map()),

    fn phases(&self) -> &[f64] {
        slice::from_ref(&self.0.lfo_phase)
    }

    fn phases_mut(&mut self) -> &mut [f64] {
        slice::from_mut(&mut self.0.lfo_phase)
    }
}

ticks_by_map! {
    Unit,
    [audio: 0, depth: 2, feedback: 3, mix: 4],
    [audio, RATE, depth, feedback, mix, SPREAD]
}

impl Lined for Unit {
    fn set_sample_rate(&mut self, sample_rate: f64) {
        self.0.set_sample_rate(sample_rate);
    }

    fn write_pos(&self) -> usize {
        self.0.write_pos
    }

    fn set_write_pos(&mut self, write_pos: usize) {
        self.0.write_pos = write_pos;
    }

    fn lines(&self) -> &[Vec<f64>] {
        &self.0.buffers
    }

    fn lines_mut(&mut self) -> &mut [Vec<f64>] {
        &mut self.0.buffers
    }
}
