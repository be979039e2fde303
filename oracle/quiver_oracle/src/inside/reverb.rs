//! Inside the Rust's `Reverb`: its lengths, its positions, its stores, its buffers, its tick.
//!
//! Lines count as document 01's tank has them: eight left combs, eight right, four left all-passes, four right, the predelay.

use super::super::{Reverb, MAX_ALLPASS_SIZE, MAX_COMB_SIZE, MAX_PREDELAY_SIZE};
use crate::frames::{Plain, Ports, Samples};
use crate::port::{GraphModule, InputFrame};

/// Audio, size, damping, mix, predelay.
pub const PORTS: usize = 5;
pub const LINES: usize = 25;
pub const STORES: usize = 16;

pub struct Unit(Reverb);

impl Unit {
    pub fn new(sample_rate: f64) -> Self {
        Self(Reverb::new(sample_rate))
    }

    pub fn set_sample_rate(&mut self, sample_rate: f64) {
        self.0.set_sample_rate(sample_rate);
    }

    pub fn reset(&mut self) {
        self.0.reset();
    }

    pub fn sample_rate(&self) -> f64 {
        self.0.sample_rate
    }

    /// The same buffers at another rate: a retune that clears nothing.
    pub fn at_rate(&mut self, sample_rate: f64) {
        self.0.sample_rate = sample_rate;
        self.0.update_tunings();
    }

    /// Each line's length, as the tick works it out.
    pub fn lengths(&self) -> [usize; LINES] {
        let spread = self.0.stereo_spread;
        std::array::from_fn(|line| match line {
            0..8 => self.0.comb_lengths[line],
            8..16 => (self.0.comb_lengths[line - 8] + spread).min(MAX_COMB_SIZE - 1),
            16..20 => self.0.allpass_lengths[line - 16],
            20..24 => (self.0.allpass_lengths[line - 20] + spread).min(MAX_ALLPASS_SIZE - 1),
            _ => MAX_PREDELAY_SIZE,
        })
    }

    pub fn positions(&self) -> [usize; LINES] {
        std::array::from_fn(|line| match line {
            0..8 => self.0.comb_pos_l[line],
            8..16 => self.0.comb_pos_r[line - 8],
            16..20 => self.0.allpass_pos_l[line - 16],
            20..24 => self.0.allpass_pos_r[line - 20],
            _ => self.0.predelay_pos,
        })
    }

    pub fn set_positions(&mut self, positions: &[usize; LINES]) {
        self.0.comb_pos_l.copy_from_slice(&positions[..8]);
        self.0.comb_pos_r.copy_from_slice(&positions[8..16]);
        self.0.allpass_pos_l.copy_from_slice(&positions[16..20]);
        self.0.allpass_pos_r.copy_from_slice(&positions[20..24]);
        self.0.predelay_pos = positions[24];
    }

    /// The damping stores, left and right.
    pub fn stores(&self) -> [f64; STORES] {
        std::array::from_fn(|comb| match comb {
            0..8 => self.0.comb_filter_state_l[comb],
            _ => self.0.comb_filter_state_r[comb - 8],
        })
    }

    pub fn set_stores(&mut self, stores: &[f64; STORES]) {
        self.0.comb_filter_state_l.copy_from_slice(&stores[..8]);
        self.0.comb_filter_state_r.copy_from_slice(&stores[8..]);
    }

    /// A line's buffer, all of it: places beyond its length too.
    pub fn line(&self, line: usize) -> &[f64] {
        match line {
            0..8 => &self.0.comb_buffers_l[line],
            8..16 => &self.0.comb_buffers_r[line - 8],
            16..20 => &self.0.allpass_buffers_l[line - 16],
            20..24 => &self.0.allpass_buffers_r[line - 20],
            _ => &self.0.predelay_buffer,
        }
    }

    pub fn line_mut(&mut self, line: usize) -> &mut [f64] {
        match line {
            0..8 => &mut self.0.comb_buffers_l[line],
            8..16 => &mut self.0.comb_buffers_r[line - 8],
            16..20 => &mut self.0.allpass_buffers_l[line - 16],
            20..24 => &mut self.0.allpass_buffers_r[line - 20],
            _ => &mut self.0.predelay_buffer,
        }
    }

    #[inline(always)]
    fn tick_frame(&mut self, inputs: &impl InputFrame) -> [f64; 2] {
        let mut outputs = Samples::<2>::blank();
        self.0.tick_generic(inputs, &mut outputs);
        outputs.0
    }

    /// A tick with ports set or unset. A sample that the tick leaves out is NaN.
    pub fn tick(&mut self, ports: [Option<f64>; PORTS]) -> [f64; 2] {
        self.tick_frame(&Ports(ports))
    }

    /// A tick with every port set, by the cheapest frame.
    #[inline(always)]
    pub fn tick_plain(&mut self, ports: [f64; PORTS]) -> [f64; 2] {
        self.tick_frame(&Plain(ports))
    }
}
