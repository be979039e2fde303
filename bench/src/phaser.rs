//! The phaser's rows: the Rust's tick as it is, and its body on plain frames.
//!
//! The Rust keeps one coefficient in its memo, for both sides: it is planted as the frequency is, another in each tick, and both
//! sides find it. So the Rust takes no tangent, which is the host's to compute, and ours is handed the same coefficient twice. What
//! comes before the memo is part of the Rust's tick: two sines, each taken by one load, and the frequencies that they sweep to.

use crate::inputs::Input;
use crate::unlined::Unlined;
use libm::timing::{first_number_next, set_numbers};
use quiver_oracle::phaser::{Unit, LOW};
use quiver_oracle::{Effect as _, Mapped as _};
use room_effects::phaser::STORES;
use room_effects::{Tick, MOST_PORTS};

pub struct Phaser<const PLAIN: bool>;

/// The names are what callgrind looks for. Three samples go out as ours do, through an address.
#[no_mangle]
#[inline(never)]
extern "C" fn quiver_phaser_tick(
    unit: &mut Unit,
    audio: f64,
    feedback: f64,
    mix: f64,
    stages: f64,
    out: &mut [f64; 3],
) {
    first_number_next();
    *out = unit.tick_mapped([audio, feedback, mix, stages]);
}

#[no_mangle]
#[inline(never)]
extern "C" fn quiver_phaser_plain_tick(
    unit: &mut Unit,
    audio: f64,
    feedback: f64,
    mix: f64,
    stages: f64,
    out: &mut [f64; 3],
) {
    first_number_next();
    *out = unit.tick_plain([audio, feedback, mix, stages]);
}

impl<const PLAIN: bool> Unlined<STORES, 3> for Phaser<PLAIN> {
    const NAME: &'static str = if PLAIN { "phaser_plain" } else { "phaser" };
    type Ours = room_effects::phaser::Phaser;
    type Rust = Unit;

    #[inline(always)]
    fn hand(unit: &mut Unit, input: &Input) {
        unit.plant_frequency(input.frequency);
        unit.plant_coefficient(input.curves[0]);
        set_numbers([LOW; 2]);
    }

    #[inline(always)]
    fn rust_tick(unit: &mut Unit, [audio, feedback, mix, stages]: [f64; MOST_PORTS]) -> [f64; 3] {
        let mut out = [0.0; 3];
        if PLAIN {
            quiver_phaser_plain_tick(unit, audio, feedback, mix, stages, &mut out);
        } else {
            quiver_phaser_tick(unit, audio, feedback, mix, stages, &mut out);
        }
        out
    }

    #[inline(always)]
    fn tick(input: &Input) -> Tick {
        let [coefficient, _, _] = input.curves;
        Tick {
            curves: [coefficient, coefficient, 0.0],
            ..input.tick()
        }
    }
}
