//! The flanger's rows: the Rust's tick as it is, and its body on plain frames.

use crate::inputs::Input;
use crate::lines::Lined;
use libm::timing::first_number_next;
use quiver_oracle::flanger::Unit;
use quiver_oracle::Mapped as _;
use room_effects::MOST_PORTS;

pub struct Flanger<const PLAIN: bool>;

/// The names are what callgrind looks for. Three samples go out as ours do, through an address.
#[no_mangle]
#[inline(never)]
extern "C" fn quiver_flanger_tick(
    unit: &mut Unit,
    audio: f64,
    depth: f64,
    feedback: f64,
    mix: f64,
    out: &mut [f64; 3],
) {
    first_number_next();
    *out = unit.tick_mapped([audio, depth, feedback, mix]);
}

#[no_mangle]
#[inline(never)]
extern "C" fn quiver_flanger_plain_tick(
    unit: &mut Unit,
    audio: f64,
    depth: f64,
    feedback: f64,
    mix: f64,
    out: &mut [f64; 3],
) {
    first_number_next();
    *out = unit.tick_plain([audio, depth, feedback, mix]);
}

impl<const PLAIN: bool> Lined<3> for Flanger<PLAIN> {
    const NAME: &'static str = if PLAIN { "flanger_plain" } else { "flanger" };
    const LINES: usize = 2;
    type Ours = room_effects::flanger::Flanger;
    type Rust = Unit;

    #[inline(always)]
    fn hand(unit: &mut Unit, input: &Input) {
        input.hand::<2>(unit);
    }

    #[inline(always)]
    fn rust_tick(unit: &mut Unit, [audio, depth, feedback, mix]: [f64; MOST_PORTS]) -> [f64; 3] {
        let mut out = [0.0; 3];
        if PLAIN {
            quiver_flanger_plain_tick(unit, audio, depth, feedback, mix, &mut out);
        } else {
            quiver_flanger_tick(unit, audio, depth, feedback, mix, &mut out);
        }
        out
    }
}
