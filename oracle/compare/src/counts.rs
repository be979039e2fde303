//! The count that a state of ours keeps, of the places in use that are neither +0 nor −0, beside what a reading of the memory comes
//! to (tally.rs). The Rust keeps none.

use crate::memory::Memory;
use crate::random::Random;
use crate::table;
use crate::tally::nonzero;
use std::ops::Range;

/// Numbers to store and to find stored: of these the first two are not counted.
pub const KINDS: [f64; 11] = [
    0.0,
    -0.0,
    f64::from_bits(1),
    -f64::from_bits(1),
    f64::MIN_POSITIVE,
    1.0,
    -0.5,
    f64::INFINITY,
    f64::NEG_INFINITY,
    f64::NAN,
    f64::from_bits(0xfff0_0000_0000_0001),
];

pub fn as_count(places: u64) -> u32 {
    u32::try_from(places).expect("no memory has so many places")
}

/// A count that a state may have, mostly one at an end.
pub fn drawn(in_use: u64, random: &mut Random) -> u32 {
    let any = random.below(in_use + 1);
    as_count(random.of(&[0, 0, 1, any, in_use - 1, in_use, in_use]))
}

/// A count that no state may have.
pub fn wrong(in_use: u64, random: &mut Random) -> u32 {
    let above = as_count(in_use + 1);
    let any = above + random.below(u64::from(u32::MAX - above) + 1) as u32;
    random.of(&[above, above, any, 1 << 31, u32::MAX])
}

/// The counts at both ends and beside them.
pub fn near_ends(in_use: u64) -> [u32; 6] {
    [0, 1, 2, in_use - 2, in_use - 1, in_use].map(as_count)
}

/// Counts, and the number by which every call refuses a state that has them: 0 for none.
pub fn refused(in_use: u64) -> [(u32, u32); 5] {
    let all = as_count(in_use);
    [
        (0, 0),
        (all, 0),
        (all + 1, table::STATE),
        (1 << 31, table::STATE),
        (u32::MAX, table::STATE),
    ]
}

/// What a call is handed: the count of its state, and how many places are in use and how many of those are neither +0 nor −0.
#[derive(Clone, Copy)]
pub struct Handed {
    count: u32,
    in_use: u64,
    nonzero: u64,
}

impl Handed {
    /// Before the call.
    pub fn new(count: u32, memory: &mut Memory, in_use: &[Range<usize>]) -> Self {
        memory.use_places(in_use);
        Self {
            count,
            in_use: in_use.iter().map(|part| part.len() as u64).sum(),
            nonzero: memory.nonzero(),
        }
    }

    /// The count and the net change of the memory, stopped at no end.
    fn moved(&self, after: u64) -> i64 {
        i64::from(self.count) + after as i64 - self.nonzero as i64
    }

    /// "where a tick's net change would take the count below 0 or above the places in use, it stays at that end". So from the
    /// memory's own count it comes to the memory's own.
    fn next(&self, after: u64) -> u64 {
        self.moved(after).clamp(0, self.in_use as i64) as u64
    }
}

/// Whether an end at each write of a tick comes to another count than one on its net change. Of the places written, in order, what
/// they held before and hold after.
pub fn tells_each_write(count: u32, in_use: u64, written: &[[f64; 2]]) -> bool {
    let changes = written.iter().map(|held| {
        let [before, after] = held.map(|place| nonzero(&[place]) as i64);
        after - before
    });
    let (count, most) = (i64::from(count), in_use as i64);
    let net: i64 = changes.clone().sum();
    let each = changes.fold(count, |count, change| (count + change).clamp(0, most));
    each != (count + net).clamp(0, most)
}

/// How many counts were compared.
#[derive(Clone, Copy, Default)]
pub struct Compared {
    /// Of accepted calls that were handed the memory's own count.
    own: u64,
    /// Of those the ones right beside a reading of every place in use.
    read: u64,
    /// Of accepted calls that were handed any other.
    other: u64,
    /// Of those the ones that stopped at 0 or at the places in use.
    ends: [u64; 2],
    /// That are 0 as they should be: there the unit may be silent.
    none: u64,
}

impl Compared {
    /// The count that an accepted call left. Whether it is 0, as it should be.
    pub fn with(&mut self, memory: &mut Memory, handed: &Handed, is: u32) -> Result<bool, String> {
        let after = memory.after_call()?;
        let should = handed.next(after.nonzero);
        let Handed {
            count,
            in_use,
            nonzero,
        } = *handed;
        if u64::from(is) != should {
            return Err(format!(
                "the count is {is}, and should be {should}: {count} was handed in; of {in_use} places {nonzero} were neither +0 nor −0, and {} are",
                after.nonzero
            ));
        }
        if u64::from(count) == nonzero {
            self.own += 1;
            self.read += u64::from(after.whole);
        } else {
            self.other += 1;
            self.ends[0] += u64::from(handed.moved(after.nonzero) < 0);
            self.ends[1] += u64::from(handed.moved(after.nonzero) > in_use as i64);
        }
        self.none += u64::from(should == 0);
        Ok(should == 0)
    }

    /// What a run of so many accepted calls shows nothing of.
    pub fn missing(&self, calls: u64, long: bool) -> Option<&'static str> {
        let [low, high] = self.ends.map(|stopped| long && stopped == 0);
        let compared = self.own + self.other;
        [
            (
                compared < calls,
                "the count after some call was not compared",
            ),
            (
                long && self.read == 0,
                "no count was compared beside a reading of every place",
            ),
            (long && self.none == 0, "no count was 0"),
            (low, "no count stopped at 0"),
            (high, "no count stopped at the places in use"),
        ]
        .into_iter()
        .find_map(|(missing, what)| missing.then_some(what))
    }

    /// Of directed cases, that they have met every kind.
    pub fn met(self) -> Result<Self, String> {
        match self.missing(0, true) {
            Some(missing) => Err(format!("directed: {missing}")),
            None => Ok(self),
        }
    }

    pub fn and(self, other: Self) -> Self {
        Self {
            own: self.own + other.own,
            read: self.read + other.read,
            other: self.other + other.other,
            ends: [0, 1].map(|end| self.ends[end] + other.ends[end]),
            none: self.none + other.none,
        }
    }

    /// For a list of counts; nothing of an effect that keeps none.
    pub fn shown(self) -> String {
        let Self {
            own,
            read,
            other,
            ends: [low, high],
            none,
        } = self;
        match own + other {
            0 => String::new(),
            all => format!(
                ", {all} counts compared ({none} of them 0), {own} of the memory's own ({read} beside a reading of every place), {other} others ({low} stopped at 0, {high} at all places)"
            ),
        }
    }
}
