//! Pairs of halves that random calls hardly meet.

use super::call::{Call, What};
use super::tanh::Tanh;
use super::{length, Tape};
use crate::ages::Compared;
use crate::random::Random;
use crate::run::{Made, Pair as _};
use crate::table::as_position;
use room_effects::tape_delay::{Read, State};

/// How many pairs were compared, and which ages.
pub type Directed = (u64, Compared);

const RATE: f64 = 8_000.0;

pub fn run(seed: u64) -> Result<Directed, String> {
    lengths()?;
    let mut unit = Tape::started(RATE, 0.5, 2)?;
    unit.fill(seed);
    let mut random = Random::new(seed);
    ends_of_the_line(&mut unit, &mut random)?;
    times(&mut unit, &mut random)?;
    feedbacks(&mut unit, &mut random)?;
    saturated_values(&mut unit)?;
    zeros(&mut unit)?;
    let (pairs, ages) = beyond_the_maximum(&mut random)?;
    Ok((pairs + unit.pairs, ages.and(unit.ages)))
}

impl Tape {
    /// A call from the unit's own state that is lent all the unit's memory.
    pub fn made(&mut self, what: What) -> Result<Made, String> {
        self.made_from(self.state, what)
    }

    /// The same from another state.
    pub fn made_from(&mut self, state: State, what: What) -> Result<Made, String> {
        let lent = self.memory.count();
        self.directed(&Call {
            state,
            planted: None,
            lent,
            what,
        })
    }

    pub fn directed(&mut self, call: &Call) -> Result<Made, String> {
        self.call(call)
            .map_err(|message| format!("directed, {}\n{message}", call.shown()))
    }

    /// Both halves from this state, the second with the value that the Rust saturates to.
    pub fn pair(&mut self, state: State, t: Read, tanh: Tanh) -> Result<(), String> {
        self.made_from(state, What::Read(t, tanh))?;
        let value = self.rest.ok_or("no read waits")?.saturated;
        match self.made(What::Store(value))? {
            Made::Tick => Ok(()),
            _ => Err(format!("directed: the value {value:e} makes no pair")),
        }
    }
}

/// The length is the whole part of rate × 12, plus 1: a start with as many places as that takes and with one less.
fn lengths() -> Result<(), String> {
    for (rate, should) in [
        (8_000.0, 96_001),
        (8_000.0f64.next_up(), 96_001),
        (8_000.05, 96_001),
        (8_000.084, 96_002),
        (11_025.0, 132_301),
        (44_100.0, 529_201),
        (192_000.0, 2_304_001),
    ] {
        if length(rate) != should {
            return Err(format!("at {rate:?} a line has {} places", length(rate)));
        }
        let mut unit = Tape::started(rate, 0.5, 0)?;
        let call = Call::start_in(should as usize - 1, rate, 0.5, 1);
        unit.directed(&call)?;
    }
    Ok(())
}

/// A read half with every port set, from an unprimed state at this position, so many places back.
fn reading(unit: &Tape, write_pos: u64, distance: u64, audio: f64) -> (State, Read) {
    let state = State {
        write_pos: as_position(write_pos),
        smoothed_delay: 0.0,
        delay_primed: 0,
        ..unit.state
    };
    let ports = [audio, distance as f64 / RATE, 0.5, 0.75];
    (state, Read { set: 15, ports })
}

/// Whole distances near both ends of a line, 0 among them, from positions near its ends, with a place before, at or behind the read
/// that is not finite: both places read are multiplied always, and at length − 1 the second is the one to be written.
fn ends_of_the_line(unit: &mut Tape, random: &mut Random) -> Result<(), String> {
    let length = unit.length();
    for write_pos in [0, 1, 2, length / 2, length - 2, length - 1] {
        for distance in [0, 1, 2, length / 2, length - 2, length - 1, length] {
            for sound in [1.0, f64::INFINITY, f64::NEG_INFINITY, f64::NAN] {
                for behind in 0..=2 {
                    let at = (write_pos + 2 * length - distance.max(1) + 1 - behind) % length;
                    let held = unit.memory.shown(unit.memory.count())[at as usize];
                    unit.plant(at as usize, sound);
                    let (state, t) = reading(unit, write_pos, distance, random.ordinary_audio());
                    unit.pair(state, t, Tanh::Of([1.0, random.curve()]))?;
                    unit.plant(at as usize, held);
                }
            }
        }
    }
    Ok(())
}

/// Times in and beyond 0 to 12, each twice: at once, and as a glide.
fn times(unit: &mut Tape, random: &mut Random) -> Result<(), String> {
    for time in [
        0.0, -0.0, -1.0, 1.0, 1.5, 2.0, 5.0, 11.9, 12.0, 12.5, 60.0, 61.0, 1e308,
    ]
    .into_iter()
    .flat_map(|time: f64| [time, time.next_up(), time.next_down()])
    .chain([f64::INFINITY, f64::NEG_INFINITY])
    {
        for primed in [false, true] {
            let state = State {
                delay_primed: u32::from(primed),
                smoothed_delay: if primed { 48_000.25 } else { 0.0 },
                ..unit.state
            };
            let ports = [random.ordinary_audio(), time, 0.5, 0.75];
            unit.pair(state, Read { set: 15, ports }, Tanh::Own)?;
        }
    }
    Ok(())
}

/// Feedbacks in and beyond 0 to 1.5, mixes in and beyond 0 to 1, and audio that the input rule turns to 0.
fn feedbacks(unit: &mut Tape, random: &mut Random) -> Result<(), String> {
    let hostile = [f64::NAN, f64::INFINITY, f64::NEG_INFINITY, f64::MAX, -1e308];
    for feedback in [
        0.0, -0.0, -1.0, 0.5, 0.95, 0.99, 1.0, 1.25, 1.5, 2.0, 1e308, -1e308,
    ]
    .into_iter()
    .flat_map(|feedback: f64| [feedback, feedback.next_up(), feedback.next_down()])
    .chain([f64::INFINITY, f64::NEG_INFINITY])
    {
        for mix in [0.0, 0.5, 1.0, -0.0, -1.0, 2.0, 1.0f64.next_up()] {
            let audio = random.ordinary_audio();
            for audio in [audio, random.of(&hostile)] {
                for tanh in [Tanh::Own, Tanh::Identity] {
                    let ports = [audio, random.within(0.0, 12.0), feedback, mix];
                    unit.pair(unit.state, Read { set: 15, ports }, tanh)?;
                }
            }
        }
    }
    Ok(())
}

/// Every value that a store half takes at the ends of −1 to 1 and around 0, and hyperbolic tangents that the Rust clamps to them.
fn saturated_values(unit: &mut Tape) -> Result<(), String> {
    let smallest = f64::from_bits(1);
    for drive in [1.0, 0.75, 0.001, 0.0, -0.0, -1.0, 1.0f64.tanh()] {
        for x in [
            1.0,
            1.0f64.next_down(),
            0.75,
            0.75f64.next_up(),
            0.5,
            0.001,
            f64::MIN_POSITIVE,
            smallest,
            3.0 * smallest,
            0.0,
        ] {
            for x in [x, -x] {
                let t = Read {
                    set: 0,
                    ports: [f64::NAN; 4],
                };
                unit.pair(unit.state, t, Tanh::Of([drive, x]))?;
            }
        }
    }
    Ok(())
}

/// +0 and −0 in audio, every control, the line and the saturated value, each with each: whose sign goes where.
fn zeros(unit: &mut Tape) -> Result<(), String> {
    for signs in 0..64u32 {
        let zero = |i: u32| if signs >> i & 1 == 1 { -0.0 } else { 0.0 };
        let length = unit.length();
        for behind in [1, 2] {
            let at = (u64::from(unit.state.write_pos) + length - behind) % length;
            unit.plant(at as usize, zero(5));
        }
        let state = State {
            delay_primed: 0,
            smoothed_delay: 0.0,
            ..unit.state
        };
        let t = Read {
            set: 15,
            ports: [0, 1, 2, 3].map(zero),
        };
        unit.pair(state, t, Tanh::Of([1.0, zero(4)]))?;
    }
    Ok(())
}

/// Times beyond 12, where 12 × 1000 × rate / 1000 comes out below length − 1: elsewhere the clamp of the distance would do for the
/// clamp of the time.
fn beyond_the_maximum(random: &mut Random) -> Result<Directed, String> {
    let tells = |rate: &f64| 12.0 * 1_000.0 * rate / 1_000.0 < (length(*rate) - 1) as f64;
    let near = |whole: u32| {
        let rate = f64::from(whole) / 12.0;
        [rate.next_down(), rate, rate.next_up()]
    };
    let rates: Vec<f64> = (131_073..134_000).flat_map(near).filter(tells).collect();
    if rates.is_empty() {
        return Err("no rate tells the clamps apart".into());
    }
    let (mut pairs, mut compared) = (0, Compared::default());
    for rate in rates.into_iter().take(8) {
        let mut unit = Tape::started(rate, 0.5, 0)?;
        unit.fill(random.bits());
        for time in [12.0, 12.0f64.next_up(), 13.0, f64::MAX, f64::INFINITY] {
            let t = Read {
                set: 15,
                ports: [1.0, time, 0.5, 0.5],
            };
            unit.pair(unit.state, t, Tanh::Own)?;
        }
        pairs += unit.pairs;
        compared = compared.and(unit.ages);
    }
    Ok((pairs, compared))
}
