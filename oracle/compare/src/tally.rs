//! How many places in use of a unit's memory are neither +0 nor −0. A NaN is one of them, and so is a subnormal number.

use std::ops::Range;

/// No more places in use than this are all read after every call: those of chorus, flanger and vibrato at every rate, and most of the
/// delay's lines. That takes about as long as the rest of a comparison.
const SHORT: u64 = 8_192;

/// Of more of them so many are read for a call, on average: all of them after as many calls as that takes. To read a reverb's tank, a
/// tape delay's line or the longest delay's after every call would take 5 to 5,000 times as long as the rest. Between two readings the
/// places that calls should have written are gone by, and the second reading has to come to the same.
const LONG: u64 = 2_048;

/// Of one place, by its bits: all but the sign.
fn is_nonzero(place: f64) -> bool {
    place.to_bits() << 1 != 0
}

/// How many of these are neither +0 nor −0. Not by their bits, which takes three times as long: −0 is equal to +0, and a NaN to nothing.
/// (Nor can the sum wrap; to test that at each place would take as long again.)
pub fn nonzero(places: &[f64]) -> u64 {
    places.iter().fold(0, |count: u64, place| {
        count.wrapping_add(u64::from(*place != 0.0))
    })
}

/// Whether numbers that a state keeps are silent: +0 or −0, every one.
pub fn silent(stores: &[f64]) -> bool {
    nonzero(stores) == 0
}

/// Of the places in use alone.
pub fn nonzero_in(memory: &[f64], in_use: &[Range<usize>]) -> u64 {
    let parts = in_use.iter().cloned();
    parts.map(|part| nonzero(&memory[part])).sum()
}

/// Of a memory that is written to place by place.
#[derive(Clone, Default)]
pub struct Tally {
    in_use: Vec<Range<usize>>,
    nonzero: u64,
    /// Calls made since the places in use were last read.
    calls: u64,
}

/// What a tally comes to after a call.
pub struct Reading {
    pub nonzero: u64,
    /// Whether every place in use was read for that.
    pub whole: bool,
}

impl Tally {
    pub fn nonzero(&self) -> u64 {
        self.nonzero
    }

    /// These places are in use from now on: they are read, unless they were in use before.
    pub fn over(&mut self, memory: &[f64], in_use: &[Range<usize>]) {
        if self.in_use != in_use {
            self.read(memory, in_use);
        }
    }

    /// These places are in use from now on, and any of them may have been written to.
    pub fn read(&mut self, memory: &[f64], in_use: &[Range<usize>]) {
        self.in_use = in_use.to_vec();
        self.nonzero = nonzero_in(memory, in_use);
        self.calls = 0;
    }

    /// A place in use was written to.
    pub fn changed(&mut self, before: f64, after: f64) {
        self.nonzero = self.nonzero + u64::from(is_nonzero(after)) - u64::from(is_nonzero(before));
    }

    /// Any place was.
    pub fn planted(&mut self, place: usize, before: f64, after: f64) {
        if self.in_use.iter().any(|part| part.contains(&place)) {
            self.changed(before, after);
        }
    }

    /// A call was made, and each place that it should have written to has changed here.
    pub fn after_call(&mut self, memory: &[f64]) -> Result<Reading, String> {
        self.calls += 1;
        let places = self.in_use.iter().map(Range::len).sum::<usize>() as u64;
        let whole = places <= SHORT || self.calls * LONG >= places;
        if whole {
            let read = nonzero_in(memory, &self.in_use);
            if read != self.nonzero {
                return Err(format!(
                    "{read} places in use are neither +0 nor −0, and by what was written {}",
                    self.nonzero
                ));
            }
            self.calls = 0;
        }
        Ok(Reading {
            nonzero: self.nonzero,
            whole,
        })
    }
}
