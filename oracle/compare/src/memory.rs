//! The memory that a unit of ours is lent, with what it must hold, to the bit.

use crate::bits::{agree, same_count, untouched};
use crate::counts::as_count;
use crate::random::Random;
use crate::tally::{nonzero_in, Reading, Tally};
use std::ops::Range;

/// Places after the last that is ever lent: no call may touch them.
const GUARD: usize = 8;

pub struct Memory {
    places: Vec<f64>,
    should: Vec<f64>,
    tally: Tally,
}

impl Memory {
    /// This many places to lend, with any floats in them.
    pub fn junk(count: usize, seed: u64) -> Self {
        let mut random = Random::new(seed);
        let places: Vec<f64> = (0..count + GUARD).map(|_| random.any()).collect();
        Self {
            should: places.clone(),
            places,
            tally: Tally::default(),
        }
    }

    pub fn count(&self) -> usize {
        self.places.len() - GUARD
    }

    /// The first `count` places.
    pub fn lend(&mut self, count: usize) -> &mut [f64] {
        assert!(count <= self.count(), "more is lent than there is");
        &mut self.places[..count]
    }

    pub fn shown(&self, count: usize) -> &[f64] {
        &self.places[..count]
    }

    /// The host writes here.
    pub fn plant(&mut self, place: usize, value: f64) {
        self.tally.planted(place, self.places[place], value);
        self.places[place] = value;
        self.should[place] = value;
    }

    /// An accepted clearing was lent the first `count` places, of which these are in use from then on.
    pub fn cleared(&mut self, count: usize, in_use: &[Range<usize>]) {
        self.should[..count].fill(0.0);
        self.tally.read(&self.places, in_use);
    }

    /// These places are in use from now on.
    pub fn use_places(&mut self, in_use: &[Range<usize>]) {
        self.tally.over(&self.places, in_use);
    }

    /// How many places in use are neither +0 nor −0.
    pub fn nonzero(&self) -> u64 {
        self.tally.nonzero()
    }

    /// The same after an accepted call, each place that it should have written to known by `written`.
    pub fn after_call(&mut self) -> Result<Reading, String> {
        self.tally.after_call(&self.places)
    }

    /// The count of a host that keeps it true, if it writes this to the memory.
    pub fn count_with(&self, planted: &[(usize, f64)]) -> u32 {
        let mut tally = self.tally.clone();
        for (place, value) in planted {
            tally.planted(*place, self.places[*place], *value);
        }
        as_count(tally.nonzero())
    }

    /// A reading of these places, whichever are in use: how many of them are neither +0 nor −0.
    pub fn read(&self, places: &[Range<usize>]) -> u32 {
        as_count(nonzero_in(&self.places, places))
    }

    /// An accepted tick wrote to this place: what the Rust has there. That is all that it may have written to.
    pub fn written(&mut self, place: usize, rust: f64) -> Result<(), String> {
        agree("the place written", self.places[place], rust)?;
        self.tally.changed(self.should[place], self.places[place]);
        self.should[place] = self.places[place];
        Ok(())
    }

    /// An accepted read wrote nothing, and nothing here.
    pub fn unwritten(&self, place: usize) -> Result<(), String> {
        let what = format!("place {place} after a read");
        untouched(&what, self.should[place], self.places[place])
    }

    /// Every place holds what it should.
    pub fn check(&self) -> Result<(), String> {
        if same_bits(&self.should, &self.places) {
            return Ok(());
        }
        for (i, (should, is)) in self.should.iter().zip(&self.places).enumerate() {
            if should.to_bits() != is.to_bits() {
                return untouched(&format!("place {i}"), *should, *is);
            }
        }
        Ok(())
    }
}

/// Equal to the bit, many places at a time: most of what is compared is.
fn same_bits(a: &[f64], b: &[f64]) -> bool {
    let differing = |a: &[f64], b: &[f64]| {
        let pairs = a.iter().zip(b);
        pairs.fold(0, |bits, (a, b)| bits | (a.to_bits() ^ b.to_bits()))
    };
    let mut parts = a.chunks(256).zip(b.chunks(256));
    a.len() == b.len() && parts.all(|(a, b)| differing(a, b) == 0)
}

/// A line of ours beside the Rust's, place by place.
pub fn line_agrees(ours: &[f64], rust: &[f64]) -> Result<(), String> {
    same_count("length of a line", ours.len() as u64, rust.len())?;
    if same_bits(ours, rust) {
        return Ok(());
    }
    for (i, (ours, rust)) in ours.iter().zip(rust).enumerate() {
        agree("a line", *ours, *rust).map_err(|differs| format!("place {i} of {differs}"))?;
    }
    Ok(())
}
