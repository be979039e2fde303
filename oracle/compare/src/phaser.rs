//! The phaser: ours beside the Rust's.
//!
//! The coefficients are the host's to compute, and the Rust works them out itself: quiver_oracle's phaser.rs says how they get into
//! it, and why two that are any at all can't be had in one tick. Three ways cover them; each tick of ours is held against one.
//! - One tick with the same coefficient on both sides, any from −1 to 1.
//! - One tick with any on the left, and on the right one that the Rust works out from a tangent: 1, 0 and −1 are among those.
//! - Two ticks from one state, of which the left and the right side count: any on either side. That the Rust's sides share nothing
//!   but the input, so that two ticks do for one, is held against the second way (`directed::two_ticks_for_one`).

mod directed;
mod record;

use crate::bits::agree;
use crate::frames;
use crate::random::Random;
use crate::run;
use crate::tick::{Form, Ticks, COEFFICIENT, FEEDBACK, MIX, SIDES, STAGES};
use crate::unlined::{Effect, Unlined};
use libm::script::{asked, hand, TANGENTS};
use quiver_oracle::phaser::{angle, coefficient, Unit, HIGH, LOW};
use quiver_oracle::{Effect as _, Unlined as _};
use room_effects::phaser::STORES;
use room_effects::{Tick, MOST};

pub use record::record;

const FORM: Form = Form {
    controls: &[FEEDBACK, MIX, STAGES],
    curve: COEFFICIENT,
    sines: SIDES,
};

pub struct Phaser;

/// How the Rust is brought to tick with a tick's two coefficients.
#[derive(Clone, Copy, Debug)]
pub enum Way {
    /// Both sides find the left coefficient, which is the right one too.
    Alike,
    /// The right side works its coefficient out from this tangent.
    Tangent(f64),
    /// A tick for each side.
    TwoTicks,
}

impl Effect<STORES> for Phaser {
    const NAME: &'static str = "phaser";
    const SAMPLES: usize = 3;
    const FORM: Form = FORM;
    type Way = Way;
    const ANY_WAY: Way = Way::TwoTicks;
    type Ours = room_effects::phaser::Phaser;
    type Rust = Unit;

    fn draw(random: &mut Random) -> (Tick, Way) {
        let t = FORM.draw(random, Random::mostly_ordinary_audio);
        match random.below(4) {
            0 => (t, Way::TwoTicks),
            1 => (with_right(t, t.curves[0]), Way::Alike),
            _ => {
                let tangent = random.tangent();
                (with_right(t, coefficient(tangent)), Way::Tangent(tangent))
            }
        }
    }

    fn in_rust(rust: &mut Unit, t: &Tick, way: Way) -> Result<[f64; MOST], String> {
        let left = t.curves[0];
        match way {
            Way::Alike => one_tick(rust, t, left, None, Unit::tick),
            Way::Tangent(tangent) => one_tick(rust, t, left, Some(tangent), Unit::tick),
            Way::TwoTicks => two_ticks(rust, t),
        }
    }
}

/// The Rust's tick on plain frames, then the cases that random ticks don't meet, then a random run.
pub fn run(ticks: u64, seed: u64) -> Result<String, String> {
    frames::agree::<Unit>(seed, &FORM, |unit, t, tick| {
        let [left, right, _] = t.curves;
        one_tick(unit, t, left, Some(right.abs()), tick)
    })?;
    directed::run(seed)?;
    run::run::<Unlined<Phaser, STORES>>(ticks, seed)
}

fn with_right(mut t: Tick, right: f64) -> Tick {
    t.curves[1] = right;
    t
}

/// A tick of the Rust's in which the left side finds the coefficient; the right finds it too or works its own out.
fn one_tick(
    rust: &mut Unit,
    t: &Tick,
    coefficient: f64,
    tangent: Option<f64>,
    tick: Ticks<Unit>,
) -> Result<[f64; MOST], String> {
    rust.plant_coefficient(coefficient);
    hand(&TANGENTS, tangent.as_slice());
    let right = if tangent.is_some() { HIGH } else { LOW };
    let out = FORM.with_sines(rust, t, &[LOW, right], tick)?;
    for of in asked(&TANGENTS, tangent.iter().count()) {
        agree("angle of a tangent", angle(rust.sample_rate()), of)?;
    }
    Ok(out)
}

/// The left side of a tick with the left coefficient, and the right side of one with the right, from the same state.
fn two_ticks(rust: &mut Unit, t: &Tick) -> Result<[f64; MOST], String> {
    let (stores, phase) = (rust.stores(), rust.phases()[0]);
    let [mono, left, _] = one_tick(rust, t, t.curves[0], None, Unit::tick)?;
    let mut after = rust.stores();
    rust.set_stores(&stores);
    rust.phases_mut()[0] = phase;
    let [_, _, right] = one_tick(rust, t, t.curves[1], None, Unit::tick)?;
    let right_chains = rust.stores();
    for place in (0..STORES).filter(|place| is_right(*place)) {
        after[place] = right_chains[place];
    }
    rust.set_stores(&after);
    Ok([mono, left, right])
}

/// Whether a store is one of the right chain.
fn is_right(place: usize) -> bool {
    place / room_effects::phaser::STAGES % 2 == 1
}
