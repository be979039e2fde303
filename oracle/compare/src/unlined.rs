//! Effects without lines: ours, which are lent no memory, beside the Rust's. Every number of the state is compared at every call.

mod call;
mod draw;

use crate::bits::{agree, untouched, JUNK};
use crate::random::Random;
use crate::run::{number_agrees, silent_agrees, Made, Pair};
use crate::table;
use crate::tally;
use crate::tick::Form;
use quiver_oracle::{Effect as _, Unlined as _};
use room_effects::unlined::State;
use room_effects::{Tick, Unlined as _, MOST};
use std::fmt::Debug;

pub use call::Call;

/// An effect that stores N numbers beside its phase.
pub trait Effect<const N: usize> {
    const NAME: &'static str;

    const SAMPLES: usize;

    const FORM: Form;

    /// How the Rust is brought to tick with the curve numbers of a tick.
    type Way: Copy + Debug;

    /// A way that does for every tick.
    const ANY_WAY: Self::Way;

    type Ours: room_effects::Unlined<N>;
    type Rust: quiver_oracle::Unlined<N>;

    /// A tick that is accepted.
    fn draw(random: &mut Random) -> (Tick, Self::Way);

    /// The Rust's tick.
    fn in_rust(rust: &mut Self::Rust, t: &Tick, way: Self::Way) -> Result<[f64; MOST], String>;
}

pub struct Unlined<E: Effect<N>, const N: usize> {
    pub ours: State<N>,
    rust: E::Rust,
}

impl<E: Effect<N>, const N: usize> Pair for Unlined<E, N> {
    const NAME: &'static str = E::NAME;
    const REFUSALS: &'static [u32] = &[
        table::SAMPLE_RATE,
        table::STATE,
        table::CONTROL,
        table::CURVE,
    ];
    type Call = Call<E::Way, N>;

    fn start(sample_rate: f64, _random: &mut Random) -> Result<Self, String> {
        Self::started(sample_rate)
    }

    fn draw(&self, random: &mut Random) -> Self::Call {
        self.drawn(random)
    }

    fn call(&mut self, call: &Self::Call) -> Result<Made, String> {
        let number = call.number(&E::FORM);
        match call {
            Call::Start(rate) => self.start_both(*rate, number)?,
            Call::Reset(state) => self.reset_both(state, number)?,
            Call::Silent(state) => Self::silent_ours(state, number)?,
            Call::Tick(state, t, way) => self.tick_both(state, t, *way, number)?,
        }
        Ok(Made::of(number, matches!(call, Call::Tick(..))))
    }

    fn shown(call: &Self::Call) -> String {
        call.shown(&E::FORM)
    }
}

impl<E: Effect<N>, const N: usize> Unlined<E, N> {
    pub fn started(sample_rate: f64) -> Result<Self, String> {
        let mut unit = Self {
            ours: State::even(JUNK),
            rust: E::Rust::new(sample_rate),
        };
        unit.start_both(sample_rate, 0)?;
        Ok(unit)
    }

    /// A refused start writes a state of zeros, which the state test refuses; the unit goes on as it was.
    fn start_both(&mut self, rate: f64, number: u32) -> Result<(), String> {
        let mut state = State::even(JUNK);
        number_agrees(E::Ours::start(&mut state, rate), number)?;
        if number != 0 {
            state_untouched(&State::even(0.0), &state)?;
            return Self::silent_ours(&state, table::STATE);
        }
        self.ours = state;
        self.rust = E::Rust::new(rate);
        self.states_agree()
    }

    fn reset_both(&mut self, before: &State<N>, number: u32) -> Result<(), String> {
        let mut state = *before;
        number_agrees(E::Ours::reset(&mut state), number)?;
        if number != 0 {
            return state_untouched(before, &state);
        }
        self.rust_at(before);
        self.rust.reset();
        self.ours = state;
        self.states_agree()
    }

    fn tick_both(
        &mut self,
        before: &State<N>,
        t: &Tick,
        way: E::Way,
        number: u32,
    ) -> Result<(), String> {
        let mut state = *before;
        let mut out = [JUNK; MOST];
        number_agrees(E::Ours::tick(&mut state, t, &mut out), number)?;
        let out = &out[..E::SAMPLES];
        if number != 0 {
            out.iter()
                .try_for_each(|out| untouched("out of a refused tick", 0.0, *out))?;
            return state_untouched(before, &state);
        }
        self.rust_at(before);
        let rust = E::in_rust(&mut self.rust, t, way)?;
        for (i, (ours, rust)) in out.iter().zip(rust).enumerate() {
            agree(&format!("sample {i}"), *ours, rust)?;
        }
        self.ours = state;
        self.states_agree()
    }

    /// Silent: every number that the effect stores is +0 or −0. One that stores none always is.
    fn silent_ours(state: &State<N>, number: u32) -> Result<(), String> {
        let mut silent = JUNK as u32;
        number_agrees(E::Ours::silent(state, &mut silent), number)?;
        silent_agrees(silent, number == 0 && tally::silent(&state.stores))
    }

    /// The Rust's unit gets the state that ours is handed.
    fn rust_at(&mut self, state: &State<N>) {
        if state.sample_rate.to_bits() != self.rust.sample_rate().to_bits() {
            self.rust = E::Rust::new(state.sample_rate);
        }
        self.rust.phases_mut()[0] = state.lfo_phase;
        self.rust.set_stores(&state.stores);
    }

    fn states_agree(&self) -> Result<(), String> {
        let rust = self.rust.stores();
        for (i, (ours, rust)) in self.ours.stores.into_iter().zip(rust).enumerate() {
            agree(&format!("store {i}"), ours, rust)?;
        }
        agree("phase", self.ours.lfo_phase, self.rust.phases()[0])?;
        agree("rate", self.ours.sample_rate, self.rust.sample_rate())
    }
}

/// What a refused call leaves, or a state that a call may not have written to, to the bit.
fn state_untouched<const N: usize>(should: &State<N>, is: &State<N>) -> Result<(), String> {
    for (i, (should, is)) in should.stores.iter().zip(is.stores).enumerate() {
        untouched(&format!("store {i} after a refusal"), *should, is)?;
    }
    untouched("phase after a refusal", should.lfo_phase, is.lfo_phase)?;
    untouched("rate after a refusal", should.sample_rate, is.sample_rate)
}
