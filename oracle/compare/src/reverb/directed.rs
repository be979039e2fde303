//! Cases that random ticks hardly meet.

use super::call::{Call, What};
use super::{lengths_agree, Reverb};
use crate::counts::as_count;
use crate::random::Random;
use crate::run::{number_agrees, Made, Pair as _};
use crate::table::as_position;
use crate::table::{self, TANK, TANK_PLACES};
use quiver_oracle::reverb::Unit;
use room_effects::reverb as ours;
use room_effects::reverb::{State, Tick, LINES, STORES};

pub fn run(seed: u64) -> Result<(), String> {
    let mut random = Random::new(seed);
    every_length(&mut random)?;
    ends_of_the_lines(&mut random)?;
    predelays(&mut random)?;
    zeros()?;
    not_finite(&mut random)?;
    stores_that_sound(&mut random)
}

/// A call that is lent all the unit's memory.
pub fn made(unit: &mut Reverb, state: State, what: What) -> Result<Made, String> {
    let call = Call {
        state,
        planted: Vec::new(),
        lent: unit.memory.count(),
        what,
    };
    unit.call(&call)
        .map_err(|message| format!("directed, {}\n{message}", call.shown()))
}

/// A tick from this state, with the count that the memory has at its rate.
fn tick(unit: &mut Reverb, state: State, ports: [f64; 5]) -> Result<(), String> {
    let in_use = table::tank_in_use(state.sample_rate);
    let state = State {
        nonzero_places: unit.memory.read(&in_use),
        ..state
    };
    made(unit, state, What::Tick(Tick { set: 31, ports })).map(|_| ())
}

/// Lengths that the page, the table and the Rust must agree on: the rate, a line, its length there.
const KNOWN: [(f64, usize, u64); 14] = [
    (22_100.0, 17, 220),  // 441: by 441 × rate / 44100 it would be 221
    (12_300.0, 7, 450),   // 1617: likewise 451
    (22_050.0, 0, 558),   // the spread, 11.5, is rounded away from 0
    (22_050.0, 8, 570),   // 558 + 12
    (44_100.0, 0, 1_116), // these two are at hand in ours
    (48_000.0, 0, 1_214),
    (66_150.0, 8, 1_709),  // 1674 + 35, from 34.5
    (110_250.0, 8, 2_848), // 2790 + 58, from 57.5
    (154_350.0, 8, 3_987), // 3906 + 81, from 80.5
    (192_000.0, 0, 4_095), // at most
    (192_000.0, 8, 4_095),
    (192_000.0, 16, 1_499),
    (192_000.0, 20, 1_499),
    (192_000.0, 22, 1_499), // 1484 + 100, at most 1,499
];

/// The state test by every length at every whole rate, and at as many others: each position is accepted at its length − 1, and
/// one of them refused at its length; a count is accepted at all places in use, and refused above. Then the rates at which lengths
/// are known, and those around them.
fn every_length(random: &mut Random) -> Result<(), String> {
    let mut rust = Unit::new(8_000.0);
    for (rate, line, length) in KNOWN {
        if table::tank_lengths(rate)[line] != length {
            return Err(format!("the table has no {length} at {rate}"));
        }
        for rate in [rate, rate.next_down(), rate.next_up()] {
            if !table::sample_rate(rate) {
                lengths_at(rate, 0..LINES, &mut rust)?;
            }
        }
    }
    for whole in 8_000..192_000u32 {
        let rate = f64::from(whole);
        for rate in [rate, random.within(rate, rate + 1.0)] {
            let line = random.below(LINES as u64) as usize;
            lengths_at(rate, line..line + 1, &mut rust)?;
        }
    }
    Ok(())
}

fn lengths_at(rate: f64, lines: std::ops::Range<usize>, rust: &mut Unit) -> Result<(), String> {
    let lengths = table::tank_lengths(rate);
    rust.at_rate(rate);
    lengths_agree(&lengths, rust).map_err(|message| format!("at {rate:e}: {message}"))?;
    let mut last = State {
        nonzero_places: as_count(lengths.iter().sum()),
        ..State::even(0, 0.0, rate)
    };
    for (line, length) in lengths.into_iter().enumerate() {
        *last.position_mut(line) = as_position(length - 1);
    }
    let asked = |state: &State, number: u32| number_agrees(ours::silent(state, &mut 0), number);
    asked(&last, 0).map_err(|message| format!("at {rate:e}, length − 1: {message}"))?;
    let above = State {
        nonzero_places: last.nonzero_places + 1,
        ..last
    };
    asked(&above, table::STATE).map_err(|message| format!("at {rate:e}, count: {message}"))?;
    for line in lines {
        let mut state = last;
        *state.position_mut(line) = as_position(lengths[line]);
        asked(&state, table::STATE)
            .map_err(|message| format!("at {rate:e}, length of line {line}: {message}"))?;
    }
    Ok(())
}

/// From the last place in use of every line a tick goes back to the first, at the rates that are known.
fn ends_of_the_lines(random: &mut Random) -> Result<(), String> {
    let mut unit = Reverb::started(44_100.0, 3)?;
    for place in 0..TANK_PLACES {
        unit.plant(place, random.ordinary_audio());
    }
    for (rate, _, _) in KNOWN {
        for back in [1, 2] {
            let mut state = State::even(0, 0.5, rate);
            for (line, length) in table::tank_lengths(rate).into_iter().enumerate() {
                *state.position_mut(line) = as_position(length - back);
            }
            for _ in 0..3 {
                tick(
                    &mut unit,
                    state,
                    [random.ordinary_audio(), 0.5, 0.5, 0.5, 0.5],
                )?;
                state = unit.state;
            }
        }
        unit.all_agrees()?;
    }
    Ok(())
}

/// The delay is (control × 0.1) × rate: rates and controls at which control × (0.1 × rate) cuts to another number, 0.6275 at 8,000
/// among them; and the longest, from every kind of position. The predelay is full of audio, so that every delay reads something
/// else.
fn predelays(random: &mut Random) -> Result<(), String> {
    let mut unit = Reverb::started(8_000.0, 0)?;
    for at in 0..9_600 {
        unit.plant(TANK[24].0 + at, random.ordinary_audio());
    }
    let samples = |control: f64, rate: f64| (control * 0.1 * rate) as u64;
    if samples(0.6275, 8_000.0) != 502 || (0.6275 * (0.1 * 8_000.0)) as u64 != 501 {
        return Err("0.6275 at 8,000 tells nothing apart".into());
    }
    let mut cases = vec![(8_000.0, 0.6275)];
    for rate in [8_000.0, 22_050.0, 44_100.0, 48_000.0, 96_000.0, 192_000.0] {
        let per_sample = 1.0 / (rate / 10.0);
        let tells = |control: &f64| samples(*control, rate) != (control * (0.1 * rate)) as u64;
        let controls = (1..9_600).map(|n| f64::from(n) * per_sample);
        cases.extend(
            controls
                .filter(tells)
                .take(8)
                .map(|control| (rate, control)),
        );
        let ends = [
            1.0,
            1.0f64.next_down(),
            9_599.0 * per_sample,
            9_600.0 * per_sample,
        ];
        cases.extend(ends.map(|control| (rate, control)));
    }
    for (sample_rate, control) in cases {
        for predelay_pos in [0, 1, 3, 501, 502, 4_800, 9_598, 9_599] {
            let state = State {
                predelay_pos,
                ..State::even(0, 0.0, sample_rate)
            };
            let audio = random.ordinary_audio();
            tick(&mut unit, state, [audio, 0.5, 0.5, 0.5, control])?;
        }
    }
    Ok(())
}

/// +0 and −0 in audio, every control, combs, stores and all-passes, each with each: whose sign goes where. Combs of −0 sum to +0.
fn zeros() -> Result<(), String> {
    let mut unit = Reverb::started(8_000.0, 0)?;
    for signs in 0..256u32 {
        let zero = |i: u32| if signs >> i & 1 == 1 { -0.0 } else { 0.0 };
        for (line, (start, _)) in TANK.into_iter().enumerate() {
            let held = zero(if line < 16 { 5 } else { 6 });
            unit.plant(start, held);
        }
        let mut state = State::even(0, zero(7), 8_000.0);
        tick(&mut unit, state, [0, 1, 2, 3, 4].map(zero))?;
        // At a mix of 1 the all-passes are heard.
        state = State::even(0, zero(7), 8_000.0);
        for (line, (start, _)) in TANK.into_iter().enumerate() {
            unit.plant(start, zero(if line < 16 { 5 } else { 6 }));
        }
        tick(&mut unit, state, [zero(0), zero(1), zero(2), 1.0, zero(4)])?;
    }
    Ok(())
}

/// What is not finite, or huge, in one line or one store at a time.
fn not_finite(random: &mut Random) -> Result<(), String> {
    let mut unit = Reverb::started(8_000.0, 0)?;
    for sound in [
        f64::NAN,
        f64::INFINITY,
        f64::NEG_INFINITY,
        f64::MAX,
        f64::from_bits(1),
    ] {
        for at in 0..LINES + STORES {
            for (start, _) in TANK {
                unit.plant(start, random.ordinary_audio());
            }
            let mut state = State::even(0, random.ordinary_audio(), 8_000.0);
            match TANK.get(at) {
                Some((start, _)) => unit.plant(*start, sound),
                None => *state.store_mut(at - LINES) = sound,
            }
            let [size, damping, mix] = [(); 3].map(|()| random.of(&[0.0, 0.5, 1.0]));
            tick(&mut unit, state, [random.audio(), size, damping, mix, 0.0])?;
        }
    }
    Ok(())
}

/// "Silent" of a state that counts no place and has stores of zeros, of either sign, and of the same with any other number in each
/// of the stores by turns.
fn stores_that_sound(random: &mut Random) -> Result<(), String> {
    let mut unit = Reverb::started(8_000.0, 3)?;
    let sounds = [
        0.0,
        -0.0,
        1.0,
        -1.0,
        f64::from_bits(1),
        -f64::from_bits(1),
        f64::MIN_POSITIVE,
        f64::INFINITY,
        f64::NEG_INFINITY,
        f64::NAN,
    ];
    for comb in 0..STORES {
        for sound in sounds {
            let mut state = unit.state;
            for other in 0..STORES {
                *state.store_mut(other) = random.of(&[0.0, -0.0]);
            }
            *state.store_mut(comb) = sound;
            made(&mut unit, state, What::Silent)?;
        }
    }
    Ok(())
}
