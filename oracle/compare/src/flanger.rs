//! The flanger: ours beside the Rust's.

use crate::ages::{self, Sweep};
use crate::frames;
use crate::lines::{self, Effect};
use crate::tick::{Form, DEPTH, FEEDBACK, MIX, SIDES, SINE};
use quiver_oracle::flanger::Unit;

pub struct Flanger;

impl Effect for Flanger {
    const NAME: &'static str = "flanger";
    const KIND: u64 = 3;
    const N_OF_LENGTH: f64 = 10.0;
    const LINES: usize = 2;
    const SAMPLES: usize = 3;
    const FORM: Form = Form {
        controls: &[DEPTH, FEEDBACK, MIX],
        curve: SINE,
        sines: SIDES,
    };
    const STEPS: &'static [f64] = &[1.0];
    const FEEDS_BACK: bool = true;
    const SWEEP: Sweep = ages::flanger;
    type Ours = room_effects::flanger::Flanger;
    type Rust = Unit;
}

/// The Rust's tick on plain frames, then directed cases and a random run.
pub fn run(ticks: u64, seed: u64) -> Result<String, String> {
    frames::agree::<Unit>(seed, &Flanger::FORM, |unit, t, tick| {
        Flanger::FORM.with_sines(unit, t, Flanger::FORM.curves_of(t), tick)
    })?;
    lines::run::<Flanger>(ticks, seed)
}
