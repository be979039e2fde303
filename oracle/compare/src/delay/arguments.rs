//! Arguments of a delay's calls.

use super::length;
use crate::random::Random;
use quiver_oracle::delay::coefficient;
use room_effects::delay::{Settings, State, Tick};

/// Most lines are no longer than this, so that ticks go round them many times.
const USUAL: u64 = 4_000;

/// Not what ordinary audio can come to.
pub fn wild(x: f64) -> bool {
    !(x.abs() < 1_000.0)
}

/// A tick that a unit in this state accepts, its audio mostly ordinary. What is not finite doesn't get into the line, what is
/// merely huge does. Each port is unset one time in five, and its number is then any; so are what the mode doesn't read and,
/// now and then, the mask's other bits.
pub fn tick(state: &State, random: &mut Random) -> Tick {
    let mut t = if random.one_in(16) {
        tick_at_ends(state, random)
    } else {
        ordinary_tick(state, random)
    };
    let audio = &mut t.ports[0];
    if audio.is_finite() && wild(*audio) && !random.one_in(16) {
        *audio = random.ordinary_audio();
    }
    t
}

fn ordinary_tick(state: &State, random: &mut Random) -> Tick {
    let linear = state.linear_time != 0;
    let mut t = Tick {
        set: if random.one_in(8) {
            random.bits() as u32 & !15
        } else {
            0
        },
        ports: [
            random.mostly_ordinary_audio(),
            if linear {
                seconds(state, random)
            } else {
                unread(random)
            },
            random.unit_feedback(),
            random.control(),
        ],
        milliseconds: if linear {
            unread(random)
        } else {
            milliseconds(state, random)
        },
    };
    for (i, value) in t.ports.iter_mut().enumerate() {
        if random.one_in(5) {
            *value = random.any();
        } else {
            t.set |= 1 << i;
        }
    }
    t
}

/// Controls at the ends of their range and distances at the ends of the line: the audio is multiplied by exactly 0 or 1, and at
/// the far end the older of the two places read is the one to be written.
fn tick_at_ends(state: &State, random: &mut Random) -> Tick {
    Tick {
        set: 15,
        ports: [
            random.extreme(),
            random.of(&[0.0, -0.0, state.max_delay_secs]),
            random.of(&[0.0, -0.0, 0.99]),
            random.of(&[0.0, -0.0, 1.0]),
        ],
        milliseconds: random.of(&[0.0, f64::INFINITY, f64::NEG_INFINITY, f64::MAX]),
    }
}

/// What the mode doesn't read: a NaN as likely as a number.
fn unread(random: &mut Random) -> f64 {
    let (any, nan, control) = (random.any(), random.nan(), random.control());
    random.of(&[any, nan, control])
}

/// Some of the arguments wrong, several at once too, so that the order of the causes shows; now and then none.
pub fn wrong_tick(state: &State, random: &mut Random) -> Tick {
    let mut t = tick(state, random);
    for control in &mut t.ports[1..] {
        if random.one_in(4) {
            *control = random.wrong_control();
        }
    }
    if random.one_in(3) {
        t.milliseconds = random.nan();
    }
    t
}

/// A time for linear mode, in and around 0 to the maximum.
fn seconds(state: &State, random: &mut Random) -> f64 {
    let maximum = state.max_delay_secs;
    match random.below(8) {
        0 => random.of(&[0.0, -0.0, maximum, maximum.next_up(), maximum.next_down()]),
        1 => whole_distance(state, random) / state.sample_rate,
        2 => random.within(-0.2 * maximum, 1.2 * maximum),
        3 => random.control(),
        _ => random.within(0.0, maximum),
    }
}

/// A time for exponential mode: any number, mostly one at which the line is read between its ends.
fn milliseconds(state: &State, random: &mut Random) -> f64 {
    let most = state.max_delay_secs * 1_000.0;
    match random.below(8) {
        0 => random.of(&[
            0.0,
            -0.0,
            1.0,
            most,
            f64::INFINITY,
            f64::NEG_INFINITY,
            f64::MAX,
            -1.0,
        ]),
        1 => whole_distance(state, random) * 1_000.0 / state.sample_rate,
        2 => random.within(-0.2 * most, 1.2 * most),
        3 => random.control(),
        _ => random.within(0.0, most),
    }
}

/// A distance in whole places, the ends of the line and beyond among them.
fn whole_distance(state: &State, random: &mut Random) -> f64 {
    let length = length(state);
    let any = random.below(length + 2);
    random.of(&[0, 1, any, any, length - 1, length]) as f64
}

/// What the Rust works out at this rate, or any.
pub fn coefficient_at(rate: f64, random: &mut Random) -> f64 {
    if random.one_in(4) {
        coefficient(rate)
    } else {
        random.coefficient()
    }
}

/// A maximum, held or not, with which the line is seldom a long one.
fn maximum(rate: f64, random: &mut Random) -> f64 {
    let whole = (8 + random.below(USUAL)) as f64 / rate;
    let nan = random.nan();
    match random.below(32) {
        0..=3 => random.of(&[whole, whole.next_up(), whole.next_down()]),
        4..=5 => random.of(&[
            0.001,
            0.001f64.next_up(),
            0.001f64.next_down(),
            0.0,
            -0.0,
            -1.0,
            -f64::MAX,
        ]),
        6 => random.of(&[2.0, f64::INFINITY, f64::NEG_INFINITY, nan]),
        7 => random.of(&[60.0, 60.0f64.next_up(), 1e308]),
        _ => random.within(0.001, USUAL as f64 / rate),
    }
}

pub fn settings<const LINEAR: bool>(
    sample_rate: f64,
    coefficient: f64,
    random: &mut Random,
) -> Settings {
    let on = random.on();
    Settings {
        sample_rate,
        delay_smooth_coef: coefficient,
        max_delay_secs: maximum(sample_rate, random),
        linear_time: if LINEAR { on } else { 0 },
    }
}
