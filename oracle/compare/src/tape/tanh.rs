//! One tick of the Rust's tape delay, taken apart: what our read half must come to, and what is left for the store half.

use super::call::read;
use crate::bits::{agree, shown};
use libm::script::{asked, hand, TANHS};
use quiver_oracle::delay::{saturated, Moving, Unit};
use quiver_oracle::modules::common::sanitize_audio;
use room_effects::tape_delay::Read;
use room_effects::MOST_PORTS;

/// Where the Rust clamps the feedback of a line that does not saturate.
const UNSATURATED: f64 = 0.99;

/// The hyperbolic tangent that the Rust gets.
#[derive(Clone, Copy, Debug)]
pub enum Tanh {
    /// This machine's.
    Own,
    /// Every number its own, so that what is saturated is the fifth of the sum, held to −1 to 1.
    Identity,
    /// These two, of the drive and of what is saturated.
    Of([f64; 2]),
}

impl Tanh {
    /// What the Rust gets where the sum has this fifth.
    fn numbers(self, fifth: f64) -> [f64; 2] {
        match self {
            Tanh::Own => {
                let drive = 1.0f64.tanh();
                [drive, (fifth * scale(drive)).tanh()]
            }
            Tanh::Identity => [1.0, fifth],
            Tanh::Of(numbers) => numbers,
        }
    }

    pub fn shown(self) -> String {
        match self {
            Tanh::Of([drive, x]) => shown(&[("tanh of the drive", drive), ("tanh of the sum", x)]),
            Tanh::Own | Tanh::Identity => format!("tanh {self:?}"),
        }
    }
}

/// "t = max(tanh 1, 0.001)"
pub fn scale(drive: f64) -> f64 {
    if drive > 0.001 {
        drive
    } else {
        0.001
    }
}

/// What is left of a tick for its store half: the value that it is handed, the sample that it answers, what it stores, and the
/// position after it.
#[derive(Clone, Copy)]
pub struct Rest {
    pub saturated: f64,
    pub out: f64,
    pub stored: f64,
    pub next: usize,
}

/// What a read half has to come to.
pub struct Halved {
    pub fifth: f64,
    /// Where the Rust shows it: without saturation its feedback ends earlier.
    pub sum: Option<f64>,
    /// The audio, what was read, the mix.
    pub kept: [f64; 3],
    pub moved: Moving,
    pub rest: Rest,
}

/// A tick after which the Rust's unit is as it was before.
struct Tried {
    out: f64,
    stored: f64,
    moved: Moving,
}

fn tried(rust: &mut Unit, ports: [Option<f64>; MOST_PORTS]) -> Tried {
    let before = rust.moving();
    let place = rust.line()[before.write_pos];
    let out = rust.tick(ports);
    let stored = std::mem::replace(&mut rust.line_mut()[before.write_pos], place);
    let moved = rust.moving();
    rust.set_moving(before);
    Tried { out, stored, moved }
}

/// The tick with these hyperbolic tangents, and what it asked them of.
fn saturating(
    rust: &mut Unit,
    ports: [Option<f64>; MOST_PORTS],
    numbers: [f64; 2],
) -> (Tried, [f64; 2]) {
    hand(&TANHS, &numbers);
    let tried = tried(rust, ports);
    (tried, taken())
}

fn taken() -> [f64; 2] {
    let mut asked = asked(&TANHS, 2);
    std::array::from_fn(|_| asked.next().expect("two"))
}

/// The tick without saturation: it asks no hyperbolic tangent, and stores the sum.
fn unsaturated(rust: &mut Unit, ports: [Option<f64>; MOST_PORTS]) -> Tried {
    rust.set_saturating(false);
    let tried = tried(rust, ports);
    rust.set_saturating(true);
    tried
}

/// The fifth of the sum: what the Rust asks the hyperbolic tangent of where that of the drive is 1.
pub fn fifth(rust: &mut Unit, ports: [Option<f64>; MOST_PORTS]) -> f64 {
    let (_, [_, fifth]) = saturating(rust, ports, [1.0, 0.0]);
    fifth
}

/// What is read, its sign included: the audio of −0 is multiplied by 0.
fn sample_read(rust: &mut Unit, time: Option<f64>) -> f64 {
    unsaturated(rust, [Some(-0.0), time, Some(0.0), Some(1.0)]).out
}

/// The Rust's tick from the state that its unit has, which stays.
pub fn halved(rust: &mut Unit, t: &Read, tanh: Tanh) -> Result<Halved, String> {
    let ports @ [audio, time, feedback, mix] = read(t);
    let fifth = fifth(rust, ports);
    let numbers = tanh.numbers(fifth);
    let (tick, asked) = saturating(rust, ports, numbers);
    let value = saturated_by(numbers, fifth, asked)?;
    agree("five times the saturated value", value * 5.0, tick.stored)?;
    let sum = (feedback.unwrap_or(0.0) <= UNSATURATED).then(|| unsaturated(rust, ports).stored);
    let audio = sanitize_audio(audio.unwrap_or(0.0));
    let mix = mix.unwrap_or(0.5).clamp(0.0, 1.0);
    Ok(Halved {
        fifth,
        sum,
        kept: [audio, sample_read(rust, time), mix],
        moved: tick.moved,
        rest: Rest {
            saturated: value,
            out: tick.out,
            stored: tick.stored,
            next: tick.moved.write_pos,
        },
    })
}

/// The value that the Rust saturates the fifth to. It must have asked for what it asks in the tick, and for what a host would.
fn saturated_by(numbers: [f64; 2], fifth: f64, in_tick: [f64; 2]) -> Result<f64, String> {
    hand(&TANHS, &numbers);
    let value = saturated(fifth);
    let should = [1.0, fifth * scale(numbers[0])];
    for of in [in_tick, taken()] {
        agree("what tanh is of, the drive", should[0], of[0])?;
        agree("what tanh is of, the sum", should[1], of[1])?;
    }
    Ok(value)
}
