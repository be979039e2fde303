//! Our library as a host sees it: the exported functions of include/room_effects.h, declared again for Rust.

#[macro_use]
mod lined;

pub mod chorus;
pub mod delay;
pub mod flanger;
pub mod phaser;
pub mod reverb;
pub mod tape_delay;
pub mod tremolo;
pub mod unlined;
pub mod vibrato;

pub use lined::{Lined, State};
pub use unlined::Unlined;

/// No effect has more phases, samples or curve numbers beside the frequency, or more ports. Of a list this long, an effect's own come first.
pub const MOST: usize = 3;
pub const MOST_PORTS: usize = 4;

/// A tick's arguments: which ports are set, their numbers in the order of the exported function, the curve numbers.
/// Port i is set where bit i of the mask is 1; port 0 is the audio.
#[derive(Clone, Copy, Debug)]
pub struct Tick {
    pub set: u32,
    pub ports: [f64; MOST_PORTS],
    pub frequency: f64,
    /// Sines or, of the phaser, the coefficients of its all-passes.
    pub curves: [f64; MOST],
}
