//! The vibrato: ours beside the Rust's.

use crate::ages::{self, Sweep};
use crate::lines::Effect;
use crate::tick::{Form, AS_IT_IS, DEPTH, MIX, SINE};

pub struct Vibrato;

impl Effect for Vibrato {
    const NAME: &'static str = "vibrato";
    const KIND: u64 = 4;
    const N_OF_LENGTH: f64 = 20.0;
    const LINES: usize = 1;
    const SAMPLES: usize = 1;
    const FORM: Form = Form {
        controls: &[DEPTH, MIX],
        curve: SINE,
        sines: &[(0, AS_IT_IS)],
    };
    const STEPS: &'static [f64] = &[1.0];
    const SWEEP: Sweep = ages::vibrato;
    type Ours = room_effects::vibrato::Vibrato;
    type Rust = quiver_oracle::vibrato::Unit;
}
