//! The chorus's row.

use crate::inputs::Input;
use crate::lines::Lined;
use libm::timing::first_number_next;
use quiver_oracle::chorus::Unit;
use room_effects::MOST_PORTS;

pub struct Chorus;

/// The name is what callgrind looks for. Three samples go out as ours do, through an address.
#[no_mangle]
#[inline(never)]
extern "C" fn quiver_chorus_tick(
    unit: &mut Unit,
    audio: f64,
    depth: f64,
    mix: f64,
    out: &mut [f64; 3],
) {
    first_number_next();
    *out = unit.tick_plain([audio, depth, mix]);
}

impl Lined<3> for Chorus {
    const NAME: &'static str = "chorus";
    const LINES: usize = 1;
    type Ours = room_effects::chorus::Chorus;
    type Rust = Unit;

    #[inline(always)]
    fn hand(unit: &mut Unit, input: &Input) {
        input.hand::<3>(unit);
    }

    #[inline(always)]
    fn rust_tick(unit: &mut Unit, [audio, depth, mix, _]: [f64; MOST_PORTS]) -> [f64; 3] {
        let mut out = [0.0; 3];
        quiver_chorus_tick(unit, audio, depth, mix, &mut out);
        out
    }
}
