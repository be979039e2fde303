//! The tremolo's row.

use crate::inputs::Input;
use crate::unlined::Unlined;
use libm::timing::first_number_next;
use quiver_oracle::tremolo::Unit;
use room_effects::tremolo::STORES;
use room_effects::MOST_PORTS;

pub struct Tremolo;

/// The name is what callgrind looks for.
#[no_mangle]
#[inline(never)]
extern "C" fn quiver_tremolo_tick(unit: &mut Unit, audio: f64, depth: f64, shape: f64) -> f64 {
    first_number_next();
    let [out] = unit.tick_plain([audio, depth, shape]);
    out
}

impl Unlined<STORES, 1> for Tremolo {
    const NAME: &'static str = "tremolo";
    type Ours = room_effects::tremolo::Tremolo;
    type Rust = Unit;

    #[inline(always)]
    fn hand(unit: &mut Unit, input: &Input) {
        input.hand::<1>(unit);
    }

    #[inline(always)]
    fn rust_tick(unit: &mut Unit, [audio, depth, shape, _]: [f64; MOST_PORTS]) -> [f64; 1] {
        [quiver_tremolo_tick(unit, audio, depth, shape)]
    }
}
