//! What a tick costs: the Rust's and ours, in one process, from one driver.
//!
//!     bench time                       ns per tick of every effect
//!     bench clear                      a clearing of the longest line and of the reverb's tank, beside memset
//!     bench count EFFECT SIDE TICKS    only these ticks, for callgrind; SIDE is rust or ours
//!
//! How it is taken:
//! - Both are called functions: ours is in the static library, the Rust's tick stands behind `inline(never)`. The Rust's is
//!   `tick_generic` with the cheapest frames (every port set, nothing to test) and in the release profile (fat LTO), so
//!   nothing between the call and its tick is left. The flanger's and the phaser's is `tick`, which reads its ports from quiver's
//!   map and answers in one: it looks up nine or ten, each found at once since they lie in order. That is part of their rows, and
//!   so is writing and reading the slots before and after, without a look-up. The rows flanger_plain and phaser_plain have the
//!   body of this `tick` on the cheapest frames (quiver_oracle's build.rs puts it there), and are to be read beside the others.
//! - Curve numbers are handed to both, to each in its own way. Ours gets them as arguments. For the Rust the driver leaves them
//!   in memory before the call: the frequency in the memo, under the key that the tick will ask for, and the sines where the shim
//!   of libm takes each by one load. "Rust, curves still" is the Rust without these stores, its curve numbers the same in every
//!   tick: what they cost it. What is left on the Rust's side is the memo's own test, which is part of its tick. Of the delay the
//!   curve number is the milliseconds, and its time port is the memo's key; in linear mode there is none, and in the reverb. Of the
//!   phaser it is the coefficient, for both sides the same: phaser.rs says why. Of the tape delay it is the saturated value, and a
//!   pair of halves stands beside one tick: tape_delay.rs says how.
//! - Audio, controls, frequencies and sines move from tick to tick; the state is fed back, the lines too; the samples are summed
//!   up, and both sides must come to the same sum.
//! - Rounds are interleaved, so that a machine that slows down slows both. The lowest is what the code can do; the median says
//!   how noisy the machine was. "Driver" is a tick that copies its audio: what the loop and a call cost alone.

mod chorus;
mod clear;
mod delay;
mod flanger;
mod inputs;
mod lines;
mod phaser;
mod reverb;
mod tape_delay;
mod tremolo;
mod unlined;
mod vibrato;

use chorus::Chorus;
use delay::Delay;
use flanger::Flanger;
use inputs::{inputs, Input};
use lines::Row;
use reverb::Reverb;
use std::hint::black_box;
use std::time::Instant;
use tape_delay::TapeDelay;
use vibrato::Vibrato;

type Tremolo = unlined::Row<tremolo::Tremolo, { room_effects::tremolo::STORES }, 1>;
type Phaser<const PLAIN: bool> =
    unlined::Row<phaser::Phaser<PLAIN>, { room_effects::phaser::STORES }, 3>;

/// The rate of every row.
pub const SAMPLE_RATE: f64 = 48_000.0;

/// An effect that answers N samples: a unit of each side, started alike.
pub trait Effect<const N: usize> {
    const NAME: &'static str;

    fn start() -> Self;

    /// Leave a tick's curve numbers where the Rust's tick takes them.
    fn hand(&mut self, input: &Input);

    fn rust(&mut self, input: &Input) -> [f64; N];

    fn ours(&mut self, input: &Input) -> [f64; N];
}

/// What can be asked of an effect by its name.
struct Asked {
    name: &'static str,
    time: fn(),
    count: fn(side: &str, ticks: &str),
}

const fn asked<E: Effect<N>, const N: usize>() -> Asked {
    Asked {
        name: E::NAME,
        time: time::<E, N>,
        count: count::<E, N>,
    }
}

const EFFECTS: [Asked; 11] = [
    asked::<Tremolo, 1>(),
    asked::<Row<Vibrato, 1>, 1>(),
    asked::<Row<Chorus, 3>, 3>(),
    asked::<Row<Flanger<false>, 3>, 3>(),
    asked::<Row<Flanger<true>, 3>, 3>(),
    asked::<Delay<false>, 1>(),
    asked::<Delay<true>, 1>(),
    asked::<TapeDelay, 1>(),
    asked::<Reverb, 2>(),
    asked::<Phaser<false>, 3>(),
    asked::<Phaser<true>, 3>(),
];

const ROUNDS: usize = 400;
const TICKS: usize = 40_000;

const COLUMNS: [&str; 5] = [
    "driver",
    "Rust, curves still",
    "Rust",
    "ours",
    "ours / Rust",
];

fn main() {
    let words: Vec<String> = std::env::args().skip(1).collect();
    let words: Vec<&str> = words.iter().map(String::as_str).collect();
    match words[..] {
        ["time"] => {
            print_row("ns a tick", COLUMNS.map(String::from));
            EFFECTS.iter().for_each(|effect| (effect.time)());
        }
        ["clear"] => clear::time(),
        ["count", name, side, ticks] => {
            let effect = EFFECTS.iter().find(|effect| effect.name == name);
            let Some(effect) = effect else {
                panic!("there is no row of {name}");
            };
            (effect.count)(side, ticks);
        }
        _ => panic!("bench time, bench clear, or bench count EFFECT SIDE TICKS"),
    }
}

/// The driver. The sum of the samples' bits keeps every tick alive.
#[inline(never)]
fn drive<E: Effect<N>, const N: usize>(
    unit: &mut E,
    tick: impl Fn(&mut E, &Input) -> [f64; N],
    inputs: &[Input],
    ticks: usize,
) -> u64 {
    let mut sum = 0u64;
    for input in inputs.iter().cycle().take(ticks) {
        for sample in tick(unit, input) {
            sum = sum.rotate_left(1) ^ sample.to_bits();
        }
    }
    sum
}

#[no_mangle]
#[inline(never)]
extern "C" fn bench_nothing(audio: f64, out: &mut f64) {
    *out = audio;
}

fn nothing<E: Effect<N>, const N: usize>(_unit: &mut E, input: &Input) -> [f64; N] {
    let mut out = [0.0; N];
    bench_nothing(input.ports[0], &mut out[0]);
    out
}

/// The Rust's tick with its curve numbers handed over.
#[inline(always)]
fn handed<E: Effect<N>, const N: usize>(unit: &mut E, input: &Input) -> [f64; N] {
    unit.hand(input);
    unit.rust(input)
}

fn time<E: Effect<N>, const N: usize>() {
    let inputs = inputs();
    let mut unit = E::start();
    let mut other = E::start();
    other.hand(&inputs[0]);
    let mut times = [const { Vec::new() }; 4];
    for round in 0..ROUNDS {
        let [driver, still, rust, ours] = [
            timed(|| drive(&mut unit, nothing, &inputs, TICKS)),
            timed(|| drive(&mut other, E::rust, &inputs, TICKS)),
            timed(|| drive(&mut unit, handed, &inputs, TICKS)),
            timed(|| drive(&mut unit, E::ours, &inputs, TICKS)),
        ];
        assert_eq!(
            rust.1,
            ours.1,
            "{}: the sides differ in round {round}",
            E::NAME
        );
        for (times, (took, _)) in times.iter_mut().zip([driver, still, rust, ours]) {
            times.push(took);
        }
    }
    let [driver, still, rust, ours] = times.map(Spread::of);
    let ratio = ours.over(rust);
    print_row(
        E::NAME,
        [driver, still, rust, ours, ratio].map(Spread::shown),
    );
}

fn print_row(name: &str, columns: [String; 5]) {
    let [driver, still, rust, ours, ratio] = columns;
    println!("{name:13} {driver:>20} {still:>20} {rust:>20} {ours:>20} {ratio:>20}");
}

/// Named columns of one row.
fn print_spreads<const N: usize>(name: &str, columns: [(&str, Spread); N]) {
    let shown = columns.map(|(of, spread)| format!("{of} {}", spread.shown()));
    println!("{name:13} {}", shown.join("   "));
}

/// ns per tick of a round, and its sum.
fn timed(round: impl FnOnce() -> u64) -> (f64, u64) {
    let start = Instant::now();
    let sum = black_box(round());
    (start.elapsed().as_secs_f64() * 1e9 / TICKS as f64, sum)
}

#[derive(Clone, Copy)]
struct Spread {
    lowest: f64,
    median: f64,
}

impl Spread {
    fn of(mut times: Vec<f64>) -> Self {
        times.sort_by(f64::total_cmp);
        Self {
            lowest: times[0],
            median: times[times.len() / 2],
        }
    }

    fn over(self, other: Self) -> Self {
        Self {
            lowest: self.lowest / other.lowest,
            median: self.median / other.median,
        }
    }

    fn shown(self) -> String {
        format!("{:.2} (median {:.2})", self.lowest, self.median)
    }
}

fn count<E: Effect<N>, const N: usize>(side: &str, ticks: &str) {
    let ticks = ticks.parse().expect("ticks");
    let tick = match side {
        "rust" => handed::<E, N>,
        "ours" => E::ours,
        _ => panic!("the side is rust or ours"),
    };
    println!("{:x}", drive(&mut E::start(), tick, &inputs(), ticks));
}
