//! The chorus: ours, with one line for its three voices, beside the Rust's, which has a line for each.

use crate::ages::{self, Sweep};
use crate::lines::Effect;
use crate::tick::{Form, AS_IT_IS, DEPTH, MIX, SINE};

pub struct Chorus;

impl Effect for Chorus {
    const NAME: &'static str = "chorus";
    const KIND: u64 = 2;
    const N_OF_LENGTH: f64 = 32.0;
    const LINES: usize = 1;
    const RUST_LINES_FOR_ONE: usize = 3;
    const SAMPLES: usize = 3;
    const FORM: Form = Form {
        controls: &[DEPTH, MIX],
        curve: SINE,
        sines: &[(0, AS_IT_IS), (1, AS_IT_IS), (2, AS_IT_IS)],
    };
    const STEPS: &'static [f64] = &[0.9, 1.0, 1.1];
    const SWEEP: Sweep = ages::chorus;
    type Ours = room_effects::chorus::Chorus;
    type Rust = quiver_oracle::chorus::Unit;
}
