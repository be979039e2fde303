//! The script of one tick: the sines, the tangents and the hyperbolic tangents it gets, in the order in which it asks.

use core::cell::Cell;
use std::thread::LocalKey;

/// No tick asks for more of a kind: the chorus has three voices.
pub const MOST: usize = 3;

#[derive(Clone, Copy)]
pub struct Script {
    numbers: [f64; MOST],
    handed: usize,
    /// What they were asked of, in order.
    asked: [f64; MOST],
    taken: usize,
}

pub type Held = LocalKey<Cell<Script>>;

const EMPTY: Script = Script {
    numbers: [0.0; MOST],
    handed: 0,
    asked: [0.0; MOST],
    taken: 0,
};

thread_local! {
    pub static SINES: Cell<Script> = const { Cell::new(EMPTY) };
    pub static TANGENTS: Cell<Script> = const { Cell::new(EMPTY) };
    pub static TANHS: Cell<Script> = const { Cell::new(EMPTY) };
}

/// Hand in the numbers of the next tick.
pub fn hand(held: &'static Held, numbers: &[f64]) {
    let mut script = Script {
        handed: numbers.len(),
        ..EMPTY
    };
    script.numbers[..numbers.len()].copy_from_slice(numbers);
    held.set(script);
}

/// What the numbers that the tick took were asked of; panics if it left one.
pub fn asked(held: &'static Held, count: usize) -> impl Iterator<Item = f64> {
    let script = held.get();
    assert_eq!(
        (script.handed, script.taken),
        (count, count),
        "libm: numbers handed in and taken"
    );
    script.asked.into_iter().take(count)
}

pub(crate) fn next_sine(angle: f64) -> f64 {
    next(&SINES, angle)
}

pub(crate) fn next_tangent(angle: f64) -> f64 {
    next(&TANGENTS, angle)
}

pub(crate) fn next_tanh(x: f64) -> f64 {
    next(&TANHS, x)
}

fn next(held: &'static Held, of: f64) -> f64 {
    let mut script = held.get();
    let at = script.taken;
    assert!(
        at < script.handed,
        "libm: a number was asked, and no one hands it in"
    );
    script.asked[at] = of;
    script.taken = at + 1;
    held.set(script);
    script.numbers[at]
}
