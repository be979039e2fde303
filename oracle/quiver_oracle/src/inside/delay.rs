//! Inside the Rust's `DelayLine`, also where it is a tape delay: its settings, its position, its glide, its line, its tick with the
//! milliseconds planted.

use super::super::DelayLine;
use crate::analog::saturation;
use crate::frames::{Plain, Ports, Samples};
use crate::modules::common::env_coef;
use crate::modules::common::inside::plant;
use crate::port::{GraphModule, InputFrame};
use crate::MOST_PORTS;

pub struct Unit(DelayLine);

/// The memo's key in a tick with this time port.
pub fn key(time: Option<f64>) -> f64 {
    time.unwrap_or(0.5).clamp(0.0, 1.0)
}

/// The glide coefficient that the Rust works out at this rate.
pub fn coefficient(sample_rate: f64) -> f64 {
    env_coef(DelayLine::DELAY_SMOOTH_SECS, sample_rate)
}

/// What the tape delay saturates a fifth of the sum to.
pub fn saturated(fifth: f64) -> f64 {
    saturation::tanh_sat(fifth, 1.0)
}

/// What moves from tick to tick: the position and the glide.
#[derive(Clone, Copy)]
pub struct Moving {
    pub write_pos: usize,
    pub smoothed_delay: f64,
    pub delay_primed: bool,
}

impl Unit {
    /// The Rust works out the coefficient; the host's takes its place.
    pub fn new(sample_rate: f64, maximum: f64, coefficient: f64, linear: bool) -> Self {
        let delay = DelayLine::with_max_delay(sample_rate, maximum);
        let mut unit = Self(if linear {
            delay.with_linear_time()
        } else {
            delay
        });
        unit.set_coefficient(coefficient);
        unit
    }

    pub fn tape(sample_rate: f64, coefficient: f64) -> Self {
        let mut unit = Self(DelayLine::tape(sample_rate));
        unit.set_coefficient(coefficient);
        unit
    }

    /// Whether a tick stores what it saturates, as a tape delay's does. Else it stores the sum itself; then it clamps the feedback
    /// to 0.99, not to 1.5.
    pub fn set_saturating(&mut self, saturating: bool) {
        self.0.unclamped_feedback = saturating;
    }

    pub fn set_sample_rate(&mut self, sample_rate: f64, coefficient: f64) {
        self.0.set_sample_rate(sample_rate);
        self.set_coefficient(coefficient);
    }

    pub fn reset(&mut self) {
        self.0.reset();
    }

    pub fn sample_rate(&self) -> f64 {
        self.0.sample_rate
    }

    pub fn maximum(&self) -> f64 {
        self.0.max_delay_secs
    }

    pub fn coefficient(&self) -> f64 {
        self.0.delay_smooth_coef
    }

    pub fn set_coefficient(&mut self, coefficient: f64) {
        self.0.delay_smooth_coef = coefficient;
    }

    pub fn linear(&self) -> bool {
        self.0.linear_time
    }

    pub fn set_linear(&mut self, linear: bool) {
        self.0.linear_time = linear;
    }

    pub fn moving(&self) -> Moving {
        Moving {
            write_pos: self.0.write_pos,
            smoothed_delay: self.0.smoothed_delay,
            delay_primed: self.0.delay_primed,
        }
    }

    pub fn set_moving(&mut self, moving: Moving) {
        self.0.write_pos = moving.write_pos;
        self.0.smoothed_delay = moving.smoothed_delay;
        self.0.delay_primed = moving.delay_primed;
    }

    pub fn line(&self) -> &[f64] {
        &self.0.buffer
    }

    pub fn line_mut(&mut self) -> &mut [f64] {
        &mut self.0.buffer
    }

    /// The milliseconds of ticks to come in exponential mode whose time comes to this key.
    #[inline(always)]
    pub fn plant_milliseconds(&mut self, key: f64, milliseconds: f64) {
        plant(&mut self.0.delay_ms_memo, [key], milliseconds);
    }

    #[inline(always)]
    fn tick_frame(&mut self, inputs: &impl InputFrame) -> f64 {
        let mut outputs = Samples::<1>::blank();
        self.0.tick_generic(inputs, &mut outputs);
        let [out] = outputs.0;
        out
    }

    /// A tick with ports set or unset: audio, time, feedback, mix. A sample that the tick leaves out is NaN.
    pub fn tick(&mut self, ports: [Option<f64>; MOST_PORTS]) -> f64 {
        self.tick_frame(&Ports(ports))
    }

    /// A tick with every port set, by the cheapest frame.
    #[inline(always)]
    pub fn tick_plain(&mut self, ports: [f64; MOST_PORTS]) -> f64 {
        self.tick_frame(&Plain(ports))
    }
}
