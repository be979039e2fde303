//! The rows of effects with lines.

use crate::inputs::Input;
use crate::{Effect, SAMPLE_RATE};
use quiver_oracle::{Effect as _, Lined as _};
use room_effects::{Lined as _, State, MOST, MOST_PORTS};

/// An effect with lines that answers N samples.
pub trait Lined<const N: usize> {
    const NAME: &'static str;

    /// How many lines ours has, each as long as the Rust's.
    const LINES: usize;
    type Ours: room_effects::Lined;
    type Rust: quiver_oracle::Lined;

    /// Leave a tick's curve numbers where the Rust's tick takes them.
    fn hand(unit: &mut Self::Rust, input: &Input);

    /// The Rust's tick as a called function.
    fn rust_tick(unit: &mut Self::Rust, ports: [f64; MOST_PORTS]) -> [f64; N];
}

pub struct Row<E: Lined<N>, const N: usize> {
    rust: E::Rust,
    ours: State,
    memory: Vec<f64>,
}

impl<E: Lined<N>, const N: usize> Effect<N> for Row<E, N> {
    const NAME: &'static str = E::NAME;

    fn start() -> Self {
        let rust = E::Rust::new(SAMPLE_RATE);
        let mut memory = rust.lines()[..E::LINES].concat();
        let mut ours = State {
            write_pos: 0,
            nonzero_places: 0,
            phases: [0.0; MOST],
            sample_rate: 0.0,
        };
        assert_eq!(E::Ours::start(&mut ours, &mut memory, SAMPLE_RATE), 0);
        Self { rust, ours, memory }
    }

    #[inline(always)]
    fn hand(&mut self, input: &Input) {
        E::hand(&mut self.rust, input);
    }

    #[inline(always)]
    fn rust(&mut self, input: &Input) -> [f64; N] {
        E::rust_tick(&mut self.rust, input.ports)
    }

    #[inline(always)]
    fn ours(&mut self, input: &Input) -> [f64; N] {
        let (mut out, mut age) = ([0.0; MOST], 0);
        let t = input.tick();
        E::Ours::tick(&mut self.ours, &mut self.memory, &t, &mut out, &mut age);
        std::array::from_fn(|i| out[i])
    }
}
