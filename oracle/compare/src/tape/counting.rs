//! Counts that random calls hardly meet: every kind of number over every other, and a line that falls silent. A read half leaves the
//! count.

use super::call::What;
use super::tanh::Tanh;
use super::Tape;
use crate::counts::{near_ends, refused, Compared, KINDS};
use crate::table;
use room_effects::tape_delay::{Read, State};

const RATE: f64 = 8_000.0;
const COEFFICIENT: f64 = 0.5;

/// A read half with every port set.
const READ: Read = Read {
    set: 15,
    ports: [0.5, 0.25, 1.25, 0.75],
};

pub fn run() -> Result<Compared, String> {
    let mut unit = Tape::started(RATE, COEFFICIENT, 2)?;
    refusals(&mut unit)?;
    kinds(&mut unit)?;
    falls_silent(&mut unit)?;
    unit.counts.met()
}

/// Every call takes a count of all places in use, and none takes one more.
fn refusals(unit: &mut Tape) -> Result<(), String> {
    for (count, number) in refused(unit.length()) {
        let retune = What::Retune {
            rate: RATE,
            coefficient: COEFFICIENT,
        };
        for what in [What::Silent, retune, What::Reset] {
            unit.made_from(with_count(unit, count), what)?
                .expected(number)?;
        }
        let read = What::Read(READ, Tanh::Own);
        unit.made_from(with_count(unit, count), read)?
            .expected(number)?;
        let waiting = State {
            waiting: 1,
            ..with_count(unit, count)
        };
        unit.made_from(waiting, What::Store(0.5))?
            .expected(number)?;
    }
    Ok(())
}

fn with_count(unit: &Tape, nonzero_places: u32) -> State {
    State {
        nonzero_places,
        ..unit.state
    }
}

/// Every kind of number that a store half may store over every kind that may lie there, from the memory's own count and from those at
/// the ends, which both halves are handed. Those that it may not store are refused.
fn kinds(unit: &mut Tape) -> Result<(), String> {
    let others = near_ends(unit.length()).map(Some);
    for before in KINDS {
        for value in KINDS {
            for count in [None].into_iter().chain(others) {
                unit.plant(unit.state.write_pos as usize, before);
                let handed = |unit: &Tape| count.unwrap_or(unit.state.nonzero_places);
                unit.made_from(
                    with_count(unit, handed(unit)),
                    What::Read(READ, Tanh::Of([1.0, value])),
                )?;
                unit.made_from(with_count(unit, handed(unit)), What::Store(value))?;
                if table::saturated(value) {
                    unit.made(What::Store(0.5))?;
                }
            }
        }
    }
    Ok(())
}

/// From a clearing on the count is the memory's: a line that has stored numbers of every kind is silent again once zeros are stored over
/// the last, and not before. (The host takes it back to where they are: it would come round there twelve seconds later.)
fn falls_silent(unit: &mut Tape) -> Result<(), String> {
    unit.made(What::Reset)?;
    let values = KINDS.map(|value| if table::saturated(value) { 0.5 } else { value });
    let zeros = [0.0, -0.0].into_iter().cycle().take(KINDS.len());
    let mut counts = vec![0];
    for round in [values.to_vec(), zeros.collect()] {
        unit.state.write_pos = 0;
        unit.rust_at(&unit.state.clone());
        for value in round {
            unit.made(What::Read(READ, Tanh::Of([1.0, value])))?;
            unit.made(What::Store(value))?;
            counts.push(unit.state.nonzero_places);
        }
    }
    let most = counts.iter().max();
    if most == Some(&9) && unit.state.nonzero_places == 0 {
        return Ok(());
    }
    Err(format!("directed: a line that empties counts {counts:?}"))
}
