//! Counts that random ticks hardly meet: every kind of number stored over every other, and a line that falls silent.

use super::aged::made;
use super::call::What;
use super::Delay;
use crate::counts::{near_ends, refused, Compared, KINDS};
use room_effects::delay::{Settings, State, Tick};

const RATE: f64 = 8_000.0;
const COEFFICIENT: f64 = 0.5;

/// A line of 21 places.
const MAXIMUM: f64 = 0.0025;

pub fn run<const LINEAR: bool>() -> Result<Compared, String> {
    let settings = Settings {
        sample_rate: RATE,
        delay_smooth_coef: COEFFICIENT,
        max_delay_secs: MAXIMUM,
        linear_time: u32::from(LINEAR),
    };
    let mut unit = Delay::<LINEAR>::started(&settings, 2)?;
    refusals(&mut unit)?;
    kinds(&mut unit)?;
    falls_silent(&mut unit)?;
    unit.counts.met()
}

/// A tick with every port set that reads in the middle of the line, in either mode.
fn tick(audio: f64, feedback: f64) -> What {
    What::Tick(Tick {
        set: 15,
        ports: [audio, MAXIMUM / 2.0, feedback, 0.5],
        milliseconds: MAXIMUM * 500.0,
    })
}

/// Every call takes a count of all places in use, and none takes one more.
fn refusals<const LINEAR: bool>(unit: &mut Delay<LINEAR>) -> Result<(), String> {
    for (count, number) in refused(unit.length()) {
        let retune = What::Retune {
            rate: RATE,
            coefficient: COEFFICIENT,
        };
        for what in [tick(0.5, 0.5), What::Silent, retune, What::Reset] {
            let state = State {
                nonzero_places: count,
                ..unit.state
            };
            made(unit, state, what)?.expected(number)?;
        }
    }
    Ok(())
}

/// Every kind of number over every other, from the memory's own count and from those at the ends. The line is full of each kind by
/// turns, so that a NaN is stored too, and feeds back or not.
fn kinds<const LINEAR: bool>(unit: &mut Delay<LINEAR>) -> Result<(), String> {
    for full in KINDS {
        for feedback in [0.0, 0.99] {
            for place in 0..unit.length() as usize {
                unit.plant(place, full);
            }
            for before in KINDS {
                for audio in KINDS {
                    over(unit, before, || tick(audio, feedback))?;
                }
            }
        }
    }
    Ok(())
}

/// Ticks over a place that holds this.
fn over<const LINEAR: bool>(
    unit: &mut Delay<LINEAR>,
    before: f64,
    tick: impl Fn() -> What,
) -> Result<(), String> {
    let others = near_ends(unit.length()).map(Some);
    for count in [None].into_iter().chain(others) {
        unit.plant(unit.state.write_pos as usize, before);
        let state = State {
            nonzero_places: count.unwrap_or(unit.state.nonzero_places),
            ..unit.state
        };
        made(unit, state, tick())?;
    }
    Ok(())
}

/// From a clearing on the count is the memory's: a line that has stored every kind of number is silent again once the last is gone,
/// and not before.
fn falls_silent<const LINEAR: bool>(unit: &mut Delay<LINEAR>) -> Result<(), String> {
    made(unit, unit.state, What::Reset)?;
    for audio in KINDS {
        made(unit, unit.state, tick(audio, 0.0))?;
    }
    let mut counts = vec![unit.state.nonzero_places];
    for at in 0..unit.length() {
        let zero = if at % 2 == 0 { 0.0 } else { -0.0 };
        made(unit, unit.state, tick(zero, 0.0))?;
        counts.push(unit.state.nonzero_places);
    }
    let falls = counts.iter().rev().is_sorted() && counts[0] > 0;
    if falls && unit.state.nonzero_places == 0 {
        return Ok(());
    }
    Err(format!("directed: a line that empties counts {counts:?}"))
}
