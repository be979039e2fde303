//! Inside the Rust's timefx.rs: one file for each effect.

pub mod chorus;
pub mod delay;
pub mod flanger;
pub mod phaser;
pub mod reverb;
pub mod tremolo;
pub mod vibrato;
