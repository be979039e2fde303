//! Ages that random calls hardly meet: reads at whole distances and at the floats beside them, at both ends of a line, and right after
//! a clearing. At mix 0 nothing that is read is heard; it has its age all the same.

use super::call::What;
use super::directed::Directed;
use super::tanh::Tanh;
use super::Tape;
use crate::ages;
use crate::table::TAPE_MAXIMUM;
use room_effects::tape_delay::{Read, State};

/// A power of two, so that the time for a whole distance is exact.
const RATE: f64 = 8_192.0;

const COEFFICIENT: f64 = 0.9;

const MIXES: [f64; 3] = [0.0, -0.0, 1.0];

pub fn run() -> Result<Directed, String> {
    let mut unit = Tape::started(RATE, COEFFICIENT, 2)?;
    unit.fill(1);
    for glide in ages::glides(RATE * TAPE_MAXIMUM) {
        let state = State {
            delay_primed: u32::from(glide.last.is_some()),
            smoothed_delay: glide.last.unwrap_or(0.0),
            delay_smooth_coef: glide.coefficient,
            ..unit.state
        };
        aged(&mut unit, state, glide.target, glide.distance, glide.age)?;
    }
    after_clearings(&mut unit)?;
    Ok((unit.pairs, unit.ages))
}

/// Pairs from this state, which must read here and answer this age, and so must the reading.
fn aged(unit: &mut Tape, state: State, target: f64, distance: f64, age: u64) -> Result<(), String> {
    for mix in MIXES {
        let t = Read {
            set: 15,
            ports: [0.5, target / RATE, 0.5, mix],
        };
        let read = ages::tape(&state, &t, unit.length());
        if read != distance || ages::of(&[read]) != age {
            return Err(format!(
                "a read at {read:?} should lie at {distance:?} and have the age {age}"
            ));
        }
        let state = State {
            write_pos: unit.state.write_pos,
            ..state
        };
        unit.pair(state, t, Tanh::Identity)?;
    }
    Ok(())
}

/// The first read after a clearing is at its target and glides from nowhere; the next one glides from there.
fn after_clearings(unit: &mut Tape) -> Result<(), String> {
    let retune = What::Retune {
        rate: RATE,
        coefficient: COEFFICIENT,
    };
    let start = What::Start {
        rate: RATE,
        coefficient: COEFFICIENT,
        seed: 1,
    };
    for what in [start, retune, What::Reset] {
        unit.made(what)?;
        let cleared = unit.state;
        aged(unit, cleared, 7.5, 7.5, 8)?;
        let read = 2.0 + (7.5 - 2.0) * COEFFICIENT;
        let primed = State {
            delay_primed: 1,
            smoothed_delay: 7.5,
            ..cleared
        };
        aged(unit, primed, 2.0, read, 7)?;
    }
    Ok(())
}
