//! Counts that random ticks hardly meet: places of every kind under all 25 that a tick writes, from counts at both ends, and a tank
//! that falls silent.

use super::call::What;
use super::directed::made;
use super::Reverb;
use crate::counts::{near_ends, refused, tells_each_write, Compared, KINDS};
use crate::random::Random;
use crate::table::{self, TANK};
use room_effects::reverb::{State, Tick, LINES, STORES};

/// The lowest and the highest, where the places in use are 14,200 and 86,157, and one whose lengths are at hand in ours.
const RATES: [(f64, u64); 3] = [(8_000.0, 14_200), (44_100.0, 35_050), (192_000.0, 86_157)];

pub fn run(seed: u64) -> Result<Compared, String> {
    let mut random = Random::new(seed);
    let mut compared = Compared::default();
    for (rate, in_use) in RATES {
        if table::tank_lengths(rate).iter().sum::<u64>() != in_use {
            return Err(format!("the table has no {in_use} places in use at {rate}"));
        }
        let mut unit = Reverb::started(rate, 3)?;
        falls_silent(&mut unit)?;
        refusals(&mut unit, in_use)?;
        ends(&mut unit, in_use, &mut random)?;
        compared = compared.and(unit.counts);
    }
    compared.met()
}

/// A damping of 0.25 and a predelay of none.
fn tick(audio: f64, size: f64) -> What {
    What::Tick(Tick {
        set: 31,
        ports: [audio, size, 0.625, 0.5, 0.0],
    })
}

/// Every call takes a count of all places in use, and none takes one more.
fn refusals(unit: &mut Reverb, in_use: u64) -> Result<(), String> {
    for (count, number) in refused(in_use) {
        let retune = What::Retune(unit.state.sample_rate);
        for what in [tick(0.5, 0.5), What::Silent, retune, What::Reset] {
            let state = State {
                nonzero_places: count,
                ..unit.state
            };
            made(unit, state, what)?.expected(number)?;
        }
    }
    Ok(())
}

/// The places that the next tick writes.
fn next_places(unit: &Reverb) -> [usize; LINES] {
    let positions = unit.state.positions();
    std::array::from_fn(|line| TANK[line].0 + positions[line] as usize)
}

/// Ticks over places of which some are gained and some lost, from the memory's own count and from those at the ends.
fn ends(unit: &mut Reverb, in_use: u64, random: &mut Random) -> Result<(), String> {
    let mut told = 0;
    for _ in 0..200 {
        let others = near_ends(in_use).map(Some);
        for count in [None].into_iter().chain(others) {
            let mut state = planted(unit, random);
            state.nonzero_places = count.unwrap_or(unit.state.nonzero_places);
            let next = next_places(unit);
            let held = |unit: &Reverb| next.map(|at| unit.memory.shown(at + 1)[at]);
            let before = held(unit);
            made(unit, state, tick(random.of(&[0.0, 1.0]), 0.5))?;
            let after = held(unit);
            let written: [_; LINES] = std::array::from_fn(|line| [before[line], after[line]]);
            told += u64::from(tells_each_write(state.nonzero_places, in_use, &written));
        }
    }
    match told {
        0 => Err("directed: no count tells an end at each write".into()),
        _ => Ok(()),
    }
}

/// The unit's state, with other stores, once the host has written numbers of any kind where the next tick does, though mostly finite
/// ones: others spread. A comb that reads 1 and stores −3 writes a zero over it, as 1 × 0.75 − 3 × 0.25 is one.
fn planted(unit: &mut Reverb, random: &mut Random) -> State {
    let kinds = if random.one_in(4) {
        &KINDS[..]
    } else {
        &KINDS[..7]
    };
    let mut stores = [0.0; STORES];
    for (line, place) in next_places(unit).into_iter().enumerate() {
        let kind = random.of(kinds);
        let before = random.of(&[0.0, 1.0, kind]);
        unit.plant(place, before);
        if let Some(store) = stores.get_mut(line) {
            *store = random.of(&[0.0, if before == 1.0 { -3.0 } else { kind }]);
        }
    }
    let mut state = unit.state;
    for (comb, store) in stores.into_iter().enumerate() {
        *state.store_mut(comb) = store;
    }
    state
}

/// From a start on the count is the memory's: a tank stays silent while it is played zeros, and a single sound ends that. It comes to be
/// silent again where the host writes zeros over all of it, and over its stores.
fn falls_silent(unit: &mut Reverb) -> Result<(), String> {
    for zero in [0.0, -0.0, 0.0, -0.0] {
        made(unit, unit.state, tick(zero, 1.0))?;
    }
    let mut counts = vec![unit.state.nonzero_places];
    for audio in [1.0, 0.0, 0.0, 0.0] {
        made(unit, unit.state, tick(audio, 1.0))?;
        counts.push(unit.state.nonzero_places);
    }
    for (place, zero) in (0..unit.memory.count()).zip([0.0, -0.0].into_iter().cycle()) {
        unit.plant(place, zero);
    }
    for store in [f64::from_bits(1), -0.0] {
        for comb in 0..STORES {
            *unit.state.store_mut(comb) = store;
        }
        made(unit, unit.state, What::Silent)?;
    }
    counts.push(unit.state.nonzero_places);
    if counts[0] == 0 && counts[1] > 0 && counts.last() == Some(&0) {
        return Ok(());
    }
    Err(format!("directed: a tank that empties counts {counts:?}"))
}
