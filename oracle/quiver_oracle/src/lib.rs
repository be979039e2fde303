//! quiver's five files as published (build.rs puts them in), with a way in for tests: a module for each effect.
//! Private fields are read and written by child modules of the Rust's own, in `inside/`.

// Of quiver's text: parts that we don't use, features that we don't declare.
#![allow(dead_code, unexpected_cfgs)]

extern crate alloc;

mod effect;
mod frames;
mod map;
mod shims;

use shims::rng;
use shims::StdMap;

// A copy that build.rs makes, not to be reformatted. (`rustfmt::skip` won't do: rustc would take the macro for an expanded one.)
#[cfg_attr(rustfmt, rustfmt_skip)]
#[path = "../../../target/quiver/port.rs"]
pub mod port;
include!(concat!(env!("OUT_DIR"), "/quiver.rs"));

pub use effect::{Effect, Lined, Unlined, MOST_PORTS, MOST_SAMPLES};
pub use map::{Mapped, SPREAD};
pub use modules::timefx::inside::{chorus, delay, flanger, phaser, reverb, tremolo, vibrato};
