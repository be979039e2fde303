//! The Rust's ticks of flanger and phaser on plain frames, as bench/ times them: the body of `tick`, which build.rs puts under
//! another signature. They must answer what `tick` does, over many ticks: a state that differed would give other answers later.

use crate::bits;
use crate::random::Random;
use crate::tick::{Form, Ticks};
use quiver_oracle::Mapped;
use room_effects::{Tick, MOST};

const TICKS: usize = 20_000;

/// Two units of the Rust's, ticked with every port set. `hand` hands a tick its curve numbers and makes it.
pub fn agree<U: Mapped>(
    seed: u64,
    form: &Form,
    hand: impl Fn(&mut U, &Tick, Ticks<U>) -> Result<[f64; MOST], String>,
) -> Result<(), String> {
    let mut random = Random::new(seed);
    let [mut own, mut plain] = [(); 2].map(|()| U::new(44_100.0));
    let on_frames: Ticks<U> =
        |unit, ports| unit.tick_plain(ports.map(|port| port.expect("every port is set")));
    for at in 0..TICKS {
        let t = form.draw(&mut random, Random::mostly_ordinary_audio);
        if t.set & form.all_set() != form.all_set() {
            continue;
        }
        let should = hand(&mut own, &t, U::tick)?;
        let is = hand(&mut plain, &t, on_frames)?;
        let phases = [&plain, &own].map(|unit| unit.phases()[0]);
        for [is, should] in is
            .into_iter()
            .zip(should)
            .map(|(a, b)| [a, b])
            .chain([phases])
        {
            bits::agree("tick on plain frames", is, should)
                .map_err(|differs| format!("tick {at}: {differs}"))?;
        }
        if should.iter().any(|sample| !(sample.abs() < 1e6)) {
            own.reset();
            plain.reset();
        }
    }
    Ok(())
}
