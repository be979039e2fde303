//! Ages that random ticks hardly meet: reads at whole distances and beside them, and each of several reads the farthest once.

use super::call::{Call, What};
use super::{distances, Effect, Lines};
use crate::ages::{self, Compared};
use crate::random::Random;
use crate::run::{Made, Pair as _};
use room_effects::{State, Tick, MOST};

/// At each rate no more whole distances than this are tried.
const WHOLES: u64 = 400;

/// At mix 0 nothing that is read is heard; it has its age all the same.
const MIXES: [f64; 3] = [0.0, -0.0, 1.0];

pub fn run<E: Effect>() -> Result<Compared, String> {
    let mut compared = Compared::default();
    for rate in [8_000.0, 44_100.0, 192_000.0] {
        let mut random = Random::new(1);
        let mut unit = Lines::<E>::start(rate, &mut random)?;
        for place in 0..unit.memory.count() {
            unit.plant(place, random.ordinary_audio());
        }
        wholes(&mut unit)?;
        farthest(&mut unit)?;
        after_clearings(&mut unit)?;
        compared = compared.and(unit.ages);
    }
    Ok(compared)
}

/// A tick with every port set.
fn tick<E: Effect>(curves: [f64; MOST], depth: f64, mix: f64) -> Tick {
    let mut ports = [0.5, depth, 0.5, 0.5];
    ports[E::FORM.controls.len()] = mix;
    Tick {
        set: E::FORM.all_set(),
        ports,
        frequency: 1.0,
        curves,
    }
}

fn made<E: Effect>(unit: &mut Lines<E>, what: What) -> Result<(), String> {
    made_from(unit, unit.state, what).map(|_| ())
}

/// A call that is lent all the unit's memory.
pub fn made_from<E: Effect>(unit: &mut Lines<E>, state: State, what: What) -> Result<Made, String> {
    let call = Call {
        state,
        planted: None,
        lent: unit.memory.count(),
        what,
    };
    unit.call(&call)
        .map_err(|message| format!("directed, {}\n{message}", call.shown::<E>()))
}

/// Ticks with these sines, which must answer this age, and so must the reading.
fn aged<E: Effect>(
    unit: &mut Lines<E>,
    curves: [f64; MOST],
    depth: f64,
    age: u64,
) -> Result<(), String> {
    for mix in MIXES {
        let t = tick::<E>(curves, depth, mix);
        let reads = distances::<E>(unit.state.sample_rate, &t);
        if ages::of(&reads) != age {
            return Err(format!("reads at {reads:?} should have the age {age}"));
        }
        made(unit, What::Tick(t))?;
    }
    Ok(())
}

/// Of each whole distance: the farthest read before it, the nearest one from it on, which mostly lies right there, and the nearest
/// one beyond.
fn wholes<E: Effect>(unit: &mut Lines<E>) -> Result<(), String> {
    let rate = unit.state.sample_rate;
    let mut exact = 0;
    for depth in [0.5, 1.0] {
        let [least, most] = [-1.0, 1.0].map(|sine| (E::SWEEP)(rate, depth, sine));
        let [first, last] = [least.floor() as u64 + 1, most.ceil() as u64 - 1];
        for whole in (first..=last).step_by(1 + ((last - first) / WHOLES) as usize) {
            let read = |sine: f64| (E::SWEEP)(rate, depth, sine);
            let [before, at] = edge(|sine| read(sine) >= whole as f64);
            let [_, beyond] = edge(|sine| read(sine) > whole as f64);
            aged(unit, [before; MOST], depth, whole)?;
            if read(at) == whole as f64 {
                aged(unit, [at; MOST], depth, whole)?;
                exact += 1;
            }
            aged(unit, [beyond; MOST], depth, whole + 1)?;
        }
    }
    match exact {
        0 => Err(format!("no read at {rate} lies at a whole distance")),
        _ => Ok(()),
    }
}

/// The last sine of which something does not hold and the first of which it does, where it holds from some sine in −1 to 1 on.
fn edge(holds: impl Fn(f64) -> bool) -> [f64; 2] {
    let [mut before, mut after] = [-1.0, 1.0];
    loop {
        let middle = before + (after - before) / 2.0;
        if middle <= before || middle >= after {
            return [before, after];
        }
        if holds(middle) {
            after = middle;
        } else {
            before = middle;
        }
    }
}

/// Each read by far the farthest, and by less than a place beyond a whole distance at which the others are.
fn farthest<E: Effect>(unit: &mut Lines<E>) -> Result<(), String> {
    let rate = unit.state.sample_rate;
    let read = |sine: f64| (E::SWEEP)(rate, 1.0, sine);
    let whole = ((read(-1.0) + read(1.0)) / 2.0).floor();
    let [_, at] = edge(|sine| read(sine) >= whole);
    let [_, beyond] = edge(|sine| read(sine) > whole);
    for [near, far] in [[-1.0, 1.0], [at, beyond], [-1.0, at]] {
        for farthest in 0..E::FORM.sines.len() {
            let mut sines = [near; MOST];
            sines[farthest] = far;
            aged(unit, sines, 1.0, ages::of(&[read(far)]))?;
        }
    }
    Ok(())
}

/// The first ticks after a reset and after retunes, to a lower rate and back, where the line has another length.
fn after_clearings<E: Effect>(unit: &mut Lines<E>) -> Result<(), String> {
    let rate = unit.state.sample_rate;
    for clearing in [What::Reset, What::Retune(8_000.0), What::Retune(rate)] {
        made(unit, clearing)?;
        for sine in [1.0, -1.0, 0.0] {
            made(unit, What::Tick(tick::<E>([sine; MOST], 1.0, 0.0)))?;
        }
    }
    Ok(())
}
