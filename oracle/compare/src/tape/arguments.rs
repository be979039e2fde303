//! Arguments of a tape delay's calls.

use super::length;
use super::tanh::{scale, Tanh};
use crate::random::Random;
use crate::table::TAPE_MAXIMUM;
use quiver_oracle::delay::coefficient;
use room_effects::tape_delay::{Read, State};

/// A rate at which a line has no more places than 144,001.
pub fn low_rate(random: &mut Random) -> f64 {
    let any = random.within(8_000.0, 12_000.0);
    random.of(&[
        8_000.0,
        8_000.0,
        8_000.0f64.next_up(),
        11_025.0,
        12_000.0,
        any,
        any.trunc(),
    ])
}

/// A read half that a unit in this state accepts. Each port is unset one time in five, and its number is then any; so are, now and
/// then, the mask's other bits.
pub fn read_half(state: &State, random: &mut Random) -> Read {
    if random.one_in(16) {
        return Read {
            set: 15,
            ports: [
                random.extreme(),
                random.of(&[0.0, -0.0, TAPE_MAXIMUM]),
                random.of(&[0.0, -0.0, 1.5]),
                random.of(&[0.0, -0.0, 1.0]),
            ],
        };
    }
    let mut t = Read {
        set: if random.one_in(8) {
            random.bits() as u32 & !15
        } else {
            0
        },
        ports: [
            random.mostly_ordinary_audio(),
            seconds(state, random),
            random.tape_feedback(),
            random.control(),
        ],
    };
    for (i, value) in t.ports.iter_mut().enumerate() {
        if random.one_in(5) {
            *value = random.any();
        } else {
            t.set |= 1 << i;
        }
    }
    t
}

/// A time in and around 0 to 12.
fn seconds(state: &State, random: &mut Random) -> f64 {
    let far = TAPE_MAXIMUM;
    match random.below(8) {
        0 => random.of(&[
            0.0,
            -0.0,
            1.0,
            far,
            far.next_up(),
            far.next_down(),
            60.0,
            f64::MAX,
        ]),
        1 => {
            let length = length(state.sample_rate);
            let any = random.below(length + 2);
            random.of(&[0, 1, any, any, length - 1, length]) as f64 / state.sample_rate
        }
        2 => random.within(-0.2 * far, 1.2 * far),
        3 => random.control(),
        4 => random.within(0.0, 0.05),
        _ => random.within(0.0, far),
    }
}

/// Half of all ticks get this machine's; of the others most get the tangent of the drive as 1, so that any value may come of it.
pub fn tanh(random: &mut Random) -> Tanh {
    match random.below(8) {
        0..=3 => Tanh::Own,
        4 => Tanh::Identity,
        5..=6 => Tanh::Of([1.0, random.curve()]),
        _ => {
            let drive = random.curve();
            let end = scale(drive);
            let any = random.curve();
            let x = random.of(&[end, end.next_up(), end.next_down(), any]);
            Tanh::Of([drive, x.copysign(any)])
        }
    }
}

/// What the Rust works out at this rate, or any.
pub fn coefficient_at(rate: f64, random: &mut Random) -> f64 {
    if random.one_in(4) {
        coefficient(rate)
    } else {
        random.coefficient()
    }
}
