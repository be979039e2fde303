//! The rows of effects without lines.

use crate::inputs::Input;
use crate::{Effect, SAMPLE_RATE};
use quiver_oracle::Effect as _;
use room_effects::unlined::State;
use room_effects::{Tick, Unlined as _, MOST, MOST_PORTS};

/// An effect that stores S numbers beside its phase and answers N samples.
pub trait Unlined<const S: usize, const N: usize> {
    const NAME: &'static str;
    type Ours: room_effects::Unlined<S>;
    type Rust: quiver_oracle::Effect;

    /// Leave a tick's curve numbers where the Rust's tick takes them.
    fn hand(unit: &mut Self::Rust, input: &Input);

    /// The Rust's tick as a called function.
    fn rust_tick(unit: &mut Self::Rust, ports: [f64; MOST_PORTS]) -> [f64; N];

    /// The arguments of our tick.
    #[inline(always)]
    fn tick(input: &Input) -> Tick {
        input.tick()
    }
}

pub struct Row<E: Unlined<S, N>, const S: usize, const N: usize> {
    rust: E::Rust,
    ours: State<S>,
}

impl<E: Unlined<S, N>, const S: usize, const N: usize> Effect<N> for Row<E, S, N> {
    const NAME: &'static str = E::NAME;

    fn start() -> Self {
        let mut ours = State::even(0.0);
        assert_eq!(E::Ours::start(&mut ours, SAMPLE_RATE), 0);
        Self {
            rust: E::Rust::new(SAMPLE_RATE),
            ours,
        }
    }

    #[inline(always)]
    fn hand(&mut self, input: &Input) {
        E::hand(&mut self.rust, input);
    }

    #[inline(always)]
    fn rust(&mut self, input: &Input) -> [f64; N] {
        E::rust_tick(&mut self.rust, input.ports)
    }

    #[inline(always)]
    fn ours(&mut self, input: &Input) -> [f64; N] {
        let mut out = [0.0; MOST];
        E::Ours::tick(&mut self.ours, &E::tick(input), &mut out);
        std::array::from_fn(|i| out[i])
    }
}
