//! Inside the Rust's `Chorus`: its phases, its position, its lines, its tick with the frequency planted.

use super::super::Chorus;
use crate::effect::{effect, ticks_by_frames, Lined};
use crate::port::GraphModule;

pub struct Unit(Chorus);

effect! {
    Unit(Chorus),

    fn phases(&self) -> &[f64] {
        &self.0.lfo_phases
    }

    fn phases_mut(&mut self) -> &mut [f64] {
        &mut self.0.lfo_phases
    }
}

ticks_by_frames!(Unit, 3);

impl Lined for Unit {
    fn set_sample_rate(&mut self, sample_rate: f64) {
        self.0.set_sample_rate(sample_rate);
    }

    fn write_pos(&self) -> usize {
        self.0.write_pos
    }

    fn set_write_pos(&mut self, write_pos: usize) {
        self.0.write_pos = write_pos;
    }

    fn lines(&self) -> &[Vec<f64>] {
        &self.0.delay_buffers
    }

    fn lines_mut(&mut self) -> &mut [Vec<f64>] {
        &mut self.0.delay_buffers
    }
}
