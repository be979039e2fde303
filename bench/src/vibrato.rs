//! The vibrato's row.

use crate::inputs::Input;
use crate::lines::Lined;
use libm::timing::first_number_next;
use quiver_oracle::vibrato::Unit;
use room_effects::MOST_PORTS;

pub struct Vibrato;

/// The name is what callgrind looks for.
#[no_mangle]
#[inline(never)]
extern "C" fn quiver_vibrato_tick(unit: &mut Unit, audio: f64, depth: f64, mix: f64) -> f64 {
    first_number_next();
    let [out] = unit.tick_plain([audio, depth, mix]);
    out
}

impl Lined<1> for Vibrato {
    const NAME: &'static str = "vibrato";
    const LINES: usize = 1;
    type Ours = room_effects::vibrato::Vibrato;
    type Rust = Unit;

    #[inline(always)]
    fn hand(unit: &mut Unit, input: &Input) {
        input.hand::<1>(unit);
    }

    #[inline(always)]
    fn rust_tick(unit: &mut Unit, [audio, depth, mix, _]: [f64; MOST_PORTS]) -> [f64; 1] {
        [quiver_vibrato_tick(unit, audio, depth, mix)]
    }
}
