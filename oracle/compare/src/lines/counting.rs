//! Counts that random ticks hardly meet: every kind of number stored over every other, the ends of the count where a tick writes more
//! than one place, and lines that fall silent.

use super::call::What;
use super::directed::made_from;
use super::{needed, Effect, Lines};
use crate::counts::{near_ends, refused, tells_each_write, Compared, KINDS};
use crate::random::Random;
use crate::run::Pair as _;
use room_effects::{State, Tick};

const RATE: f64 = 8_000.0;

pub fn run<E: Effect>() -> Result<Compared, String> {
    let mut unit = Lines::<E>::start(RATE, &mut Random::new(1))?;
    refusals(&mut unit)?;
    kinds(&mut unit)?;
    ends(&mut unit)?;
    falls_silent(&mut unit)?;
    unit.counts.met()
}

/// A tick with every port set.
fn tick<E: Effect>(audio: f64, feedback: f64) -> What {
    let mut ports = [audio, 0.5, feedback, 0.5];
    ports[E::FORM.controls.len()] = 0.5;
    What::Tick(Tick {
        set: E::FORM.all_set(),
        ports,
        frequency: 1.0,
        curves: [0.5, -0.5, 0.0],
    })
}

/// Every call takes a count of all places in use, and none takes one more.
fn refusals<E: Effect>(unit: &mut Lines<E>) -> Result<(), String> {
    for (count, number) in refused(needed::<E>(RATE) as u64) {
        let retune = What::Retune(RATE);
        for what in [tick::<E>(0.5, 0.5), What::Silent, retune, What::Reset] {
            let state = State {
                nonzero_places: count,
                ..unit.state
            };
            made_from(unit, state, what)?.expected(number)?;
        }
    }
    Ok(())
}

/// The places that the next tick writes.
fn next_places<E: Effect>(unit: &Lines<E>) -> impl Iterator<Item = usize> {
    let (length, next) = (unit.length() as usize, unit.state.write_pos as usize);
    (0..E::LINES).map(move |line| line * length + next)
}

/// Every kind of number over every other, from the memory's own count and from those at the ends. A line that feeds back is full of
/// each kind by turns, so that a NaN is stored there too, and does feed back or not.
fn kinds<E: Effect>(unit: &mut Lines<E>) -> Result<(), String> {
    let (kinds, feedbacks) = if E::FEEDS_BACK {
        (&KINDS[..], &[0.0, 0.95][..])
    } else {
        (&[1.0][..], &[0.0][..])
    };
    for full in kinds {
        for feedback in feedbacks {
            for place in 0..needed::<E>(RATE) {
                unit.plant(place, *full);
            }
            for before in KINDS {
                for audio in KINDS {
                    over(unit, before, || tick::<E>(audio, *feedback))?;
                }
            }
        }
    }
    Ok(())
}

/// Ticks over places that hold this.
fn over<E: Effect>(
    unit: &mut Lines<E>,
    before: f64,
    tick: impl Fn() -> What,
) -> Result<(), String> {
    let others = near_ends(needed::<E>(RATE) as u64).map(Some);
    for count in [None].into_iter().chain(others) {
        for place in next_places(unit) {
            unit.plant(place, before);
        }
        let state = State {
            nonzero_places: count.unwrap_or(unit.state.nonzero_places),
            ..unit.state
        };
        made_from(unit, state, tick())?;
    }
    Ok(())
}

/// Each line gains a place, loses one or neither, from counts at both ends: the two lines of the flanger in either order, where an end
/// at each write would come to another count.
fn ends<E: Effect>(unit: &mut Lines<E>) -> Result<(), String> {
    let in_use = needed::<E>(RATE) as u64;
    let mut told = 0;
    for choice in 0..1u32 << (2 * E::LINES) {
        let bit = |at: usize| f64::from(choice >> at & 1);
        for count in near_ends(in_use) {
            for place in 0..in_use as usize {
                unit.plant(place, bit(2 * (place / unit.length() as usize)));
            }
            let next: Vec<usize> = next_places(unit).collect();
            for (line, place) in next.iter().enumerate() {
                unit.plant(*place, bit(2 * line + 1));
            }
            let held = |unit: &Lines<E>| unit.memory.shown(in_use as usize).to_vec();
            let before = held(unit);
            let state = State {
                nonzero_places: count,
                ..unit.state
            };
            made_from(unit, state, tick::<E>(0.0, 0.5))?;
            let after = held(unit);
            let written: Vec<_> = next.iter().map(|at| [before[*at], after[*at]]).collect();
            told += u64::from(tells_each_write(count, in_use, &written));
        }
    }
    if E::LINES > 1 && told == 0 {
        return Err("directed: no count tells an end at each write".into());
    }
    Ok(())
}

/// From a start on the count is the memory's: a line that has stored every kind of number is silent again once the last is gone, and
/// not before.
fn falls_silent<E: Effect>(unit: &mut Lines<E>) -> Result<(), String> {
    made_from(unit, unit.state, What::Reset)?;
    for audio in KINDS {
        made_from(unit, unit.state, tick::<E>(audio, 0.0))?;
    }
    let mut counts = vec![unit.state.nonzero_places];
    for at in 0..unit.length() {
        let zero = if at % 2 == 0 { 0.0 } else { -0.0 };
        made_from(unit, unit.state, tick::<E>(zero, 0.0))?;
        counts.push(unit.state.nonzero_places);
    }
    let falls = counts.iter().rev().is_sorted() && counts[0] > 0;
    if falls && unit.state.nonzero_places == 0 {
        return Ok(());
    }
    Err(format!("directed: a line that empties counts {counts:?}"))
}
