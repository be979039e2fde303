//! The tape delay's row: a pair of our halves beside the Rust's tick. The glide coefficient is the Rust's own.
//!
//! The curve numbers are the two hyperbolic tangents that the Rust asks: 1 for the drive, and for the sum the saturated value that our
//! store half is handed, so that both sides store the same. The host's part is in the Rust's tick beside them: the fifth of the sum,
//! a product and a quotient with the drive's tangent, and a clamp.

use crate::inputs::Input;
use crate::{Effect, SAMPLE_RATE};
use libm::timing::{first_number_next, set_numbers};
use quiver_oracle::delay::{coefficient, Unit};
use room_effects::tape_delay::{read_half, start, store_half, Read, State};

pub struct TapeDelay {
    rust: Unit,
    ours: State,
    memory: Vec<f64>,
}

/// The name is what callgrind looks for.
#[no_mangle]
#[inline(never)]
extern "C" fn quiver_tape_delay_tick(
    unit: &mut Unit,
    audio: f64,
    time: f64,
    feedback: f64,
    mix: f64,
) -> f64 {
    first_number_next();
    unit.tick_plain([audio, time, feedback, mix])
}

impl Effect<1> for TapeDelay {
    const NAME: &'static str = "tape_delay";

    fn start() -> Self {
        let smooth = coefficient(SAMPLE_RATE);
        let rust = Unit::tape(SAMPLE_RATE, smooth);
        let mut memory = vec![0.0; rust.line().len()];
        let mut ours = State {
            write_pos: 0,
            nonzero_places: 0,
            smoothed_delay: 0.0,
            delay_primed: 0,
            waiting: 0,
            kept: [0.0; 3],
            sample_rate: 0.0,
            delay_smooth_coef: 0.0,
        };
        assert_eq!(start(&mut ours, &mut memory, SAMPLE_RATE, smooth), 0);
        Self { rust, ours, memory }
    }

    #[inline(always)]
    fn hand(&mut self, input: &Input) {
        set_numbers([1.0, input.curves[0]]);
    }

    #[inline(always)]
    fn rust(&mut self, input: &Input) -> [f64; 1] {
        let [audio, time, feedback, mix] = input.ports;
        [quiver_tape_delay_tick(
            &mut self.rust,
            audio,
            time,
            feedback,
            mix,
        )]
    }

    #[inline(always)]
    fn ours(&mut self, input: &Input) -> [f64; 1] {
        let t = Read {
            set: 15,
            ports: input.ports,
        };
        let (mut sum, mut age, mut out) = (0.0, 0, 0.0);
        read_half(&mut self.ours, &self.memory, &t, &mut sum, &mut age);
        let saturated = input.curves[0];
        store_half(&mut self.ours, &mut self.memory, saturated, &mut out);
        [out]
    }
}
