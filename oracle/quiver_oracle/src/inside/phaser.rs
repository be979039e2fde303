//! Inside the Rust's `Phaser`: its phase, its all-passes, its tick with the frequency and the coefficients planted.
//!
//! How a side comes to its coefficient: from its sine and the depth the Rust works out a frequency, looks that up in a memo with
//! room for one, which both sides share, and if it isn't there works the coefficient out from a tangent. The sines and the
//! tangents are handed in, the memo is planted, and so
//! - a left side with the sine LOW is at LOWEST, where its coefficient is planted: any number;
//! - a right side with the sine LOW finds the same;
//! - a right side with the sine HIGH is elsewhere, and gets `coefficient` of the tangent that it is handed.
//!
//! Two sides with two coefficients, of which the right is of no tangent, can't be had in one tick.

use super::super::Phaser;
use crate::effect::{effect, Unlined, RATE};
use crate::map::{ticks_by_map, Map, SPREAD};
use crate::modules::common::inside::plant;
use std::f64::consts::TAU;
use std::slice;

pub struct Unit(Phaser, Map);

/// All-passes in a chain.
pub const STAGES: usize = 6;

/// Their last inputs, left and right, then their last outputs, left and right.
pub const STORES: usize = 4 * STAGES;

/// What the depth comes to where its port is unset.
const DEPTH: f64 = 0.7;

pub const LOW: f64 = -1.0;
pub const HIGH: f64 = 1.0;

/// The frequencies that a side comes to by these sines.
const LOWEST: f64 = 200.0;
const HIGHEST: f64 = LOWEST + DEPTH * 3_800.0;

effect! {
    Unit(Phaser, Self::map()),

    fn phases(&self) -> &[f64] {
        slice::from_ref(&self.0.lfo_phase)
    }

    fn phases_mut(&mut self) -> &mut [f64] {
        slice::from_mut(&mut self.0.lfo_phase)
    }
}

ticks_by_map! {
    Unit,
    [audio: 0, feedback: 3, mix: 4, stages: 5],
    [audio, RATE, DEPTH, feedback, mix, stages, SPREAD]
}

/// The coefficient that the Rust works out from a tangent.
pub fn coefficient(tangent: f64) -> f64 {
    (1.0 - tangent) / (1.0 + tangent)
}

/// The angle of which a side with the sine HIGH takes the tangent.
pub fn angle(sample_rate: f64) -> f64 {
    TAU * HIGHEST / sample_rate * 0.5
}

impl Unit {
    /// The coefficient, in the ticks to come, of the sides whose sine is LOW: until a side with another sine has ticked.
    #[inline(always)]
    pub fn plant_coefficient(&mut self, coefficient: f64) {
        let keys = [LOWEST, self.0.sample_rate];
        plant(&mut self.0.coef_memo, keys, coefficient);
    }
}

impl Unlined<STORES> for Unit {
    fn stores(&self) -> [f64; STORES] {
        let [x1, y1] = [self.0.allpass_x1, self.0.allpass_y1];
        let chains = [x1[0], x1[1], y1[0], y1[1]];
        chains.as_flattened().try_into().unwrap()
    }

    fn set_stores(&mut self, stores: &[f64; STORES]) {
        let (chains, _) = stores.as_chunks();
        self.0.allpass_x1 = [chains[0], chains[1]];
        self.0.allpass_y1 = [chains[2], chains[3]];
    }
}
