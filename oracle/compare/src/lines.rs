//! Effects with sweeps: ours, in memory that it is lent, beside the Rust's.
//!
//! Of the memory, a tick's own places are compared with the Rust's lines at once. All of it, spare places too, is held against
//! what it should be at every clearing, at every refusal, at every 64th tick of a unit and at the end of the run. Where several
//! of the Rust's lines correspond to one of ours, ours is compared with each of them. The count that a state keeps is held against
//! a reading of the lines after every accepted call.

mod call;
mod counting;
mod directed;
mod draw;
mod record;

use crate::ages::{self, Compared, Sweep};
use crate::bits::{agree, same_count, untouched, JUNK};
use crate::counts::{self, as_count, Handed};
use crate::memory::{self, Memory};
use crate::random::Random;
use crate::run::{self, number_agrees, silent_agrees, Made, Pair};
use crate::table;
use crate::tick::Form;
use call::{Call, What};
use quiver_oracle::{Effect as _, Lined as _};
use room_effects::{Lined as _, State, Tick, MOST};
use std::ops::Range;

pub use record::record;

/// An effect whose lines have one write position.
pub trait Effect {
    const NAME: &'static str;

    /// Document 01's number of the effect.
    const KIND: u64;

    /// The n of document 01's rule for a line's length.
    const N_OF_LENGTH: f64;

    /// How many lines ours has in the memory that it is lent.
    const LINES: usize;

    /// How many of the Rust's lines correspond to each of ours: first come all those of our first line.
    const RUST_LINES_FOR_ONE: usize = 1;

    const SAMPLES: usize;

    const FORM: Form;

    /// How far each phase moves, as a multiple of frequency / rate: to draw phases by, not to compare them.
    const STEPS: &'static [f64];

    /// Whether what a line plays goes back into it. What is not ordinary would then stay, and spread until all is NaN.
    const FEEDS_BACK: bool = false;

    /// How far back the read with each of the sines lies.
    const SWEEP: Sweep;

    type Ours: room_effects::Lined;
    type Rust: quiver_oracle::Lined;
}

pub struct Lines<E: Effect> {
    state: State,
    memory: Memory,
    rust: E::Rust,
    ticks: u64,
    ages: Compared,
    counts: counts::Compared,
}

/// The cases that random ticks don't meet, then a random run.
pub fn run<E: Effect>(ticks: u64, seed: u64) -> Result<String, String> {
    let [ages, counts] = [directed::run::<E>()?.shown(), counting::run::<E>()?.shown()];
    let said = run::run::<Lines<E>>(ticks, seed)?;
    Ok(format!("{said}; directed{ages}{counts}"))
}

fn junk_state() -> State {
    State {
        write_pos: JUNK as u32,
        nonzero_places: JUNK as u32,
        phases: [JUNK; MOST],
        sample_rate: JUNK,
    }
}

/// All of the memory is compared once in this many ticks of a unit.
const WHOLE: u64 = 64;

fn length<E: Effect>(rate: f64) -> u64 {
    table::length(E::N_OF_LENGTH, rate)
}

fn needed<E: Effect>(rate: f64) -> usize {
    (length::<E>(rate) as usize).saturating_mul(E::LINES)
}

/// All that are needed are in use.
fn in_use<E: Effect>(rate: f64) -> [Range<usize>; 1] {
    [0..needed::<E>(rate)]
}

/// How far back a tick's reads lie.
fn distances<E: Effect>(rate: f64, t: &Tick) -> Vec<f64> {
    let [_audio, depth, ..] = E::FORM.ports_read(t);
    let sines = E::FORM.curves_of(t).iter();
    let swept = sines.map(|sine| (E::SWEEP)(rate, ages::depth(depth), *sine));
    swept
        .map(|distance| ages::in_line(distance, length::<E>(rate)))
        .collect()
}

impl<E: Effect> Pair for Lines<E> {
    const NAME: &'static str = E::NAME;
    const REFUSALS: &'static [u32] = &[
        table::SAMPLE_RATE,
        table::MEMORY,
        table::STATE,
        table::CONTROL,
        table::CURVE,
    ];
    const AGED: bool = true;
    const COUNTED: bool = true;
    type Call = Call;

    fn start(sample_rate: f64, _random: &mut Random) -> Result<Self, String> {
        let call = Call::start_in(needed::<E>(sample_rate), sample_rate, 0);
        let mut unit = Self {
            state: junk_state(),
            memory: Memory::junk(0, 0),
            rust: E::Rust::new(sample_rate),
            ticks: 0,
            ages: Compared::default(),
            counts: counts::Compared::default(),
        };
        unit.call(&call)?;
        Ok(unit)
    }

    fn draw(&self, random: &mut Random) -> Call {
        self.drawn(random)
    }

    fn call(&mut self, call: &Call) -> Result<Made, String> {
        let number = call.number::<E>();
        if let Some((place, value)) = call.planted {
            self.plant(place, value);
        }
        match &call.what {
            What::Start { rate, seed } => self.start_both(call.lent, *rate, *seed, number)?,
            What::Retune(_) | What::Reset => self.clear_both(call, number)?,
            What::Silent => {
                let none = call.state.nonzero_places == 0;
                silent_ours::<E>(&call.state, number, none)?;
            }
            What::Tick(t) => self.tick_both(call, t, number)?,
        }
        Ok(Made::of(number, matches!(call.what, What::Tick(_))))
    }

    fn shown(call: &Call) -> String {
        call.shown::<E>()
    }

    fn finish(&self) -> Result<(), String> {
        self.all_agrees()
    }

    fn ages(&self) -> Compared {
        self.ages
    }

    fn counts(&self) -> counts::Compared {
        self.counts
    }
}

impl<E: Effect> Lines<E> {
    fn length(&self) -> u64 {
        length::<E>(self.state.sample_rate)
    }

    /// The host writes to a place, and counts what it writes.
    fn plant(&mut self, place: usize, value: f64) {
        self.memory.plant(place, value);
        self.state.nonzero_places = as_count(self.memory.nonzero());
        let length = self.length() as usize;
        let (line, at) = (place / length, place % length);
        let mut alike = self.rust.lines_mut().chunks_mut(E::RUST_LINES_FOR_ONE);
        for rust in alike.nth(line).into_iter().flatten() {
            rust[at] = value;
        }
    }

    /// A refused start writes a state of zeros, which the state test refuses, and leaves the memory; the unit goes on as it was.
    fn start_both(&mut self, lent: usize, rate: f64, seed: u64, number: u32) -> Result<(), String> {
        let mut memory = Memory::junk(lent, seed);
        let mut state = junk_state();
        number_agrees(E::Ours::start(&mut state, memory.lend(lent), rate), number)?;
        if number != 0 {
            state_untouched::<E>(&zero_state(), &state)?;
            return memory.check();
        }
        memory.cleared(lent, &in_use::<E>(rate));
        self.state = state;
        self.memory = memory;
        self.rust = E::Rust::new(rate);
        self.all_agrees()
    }

    fn clear_both(&mut self, call: &Call, number: u32) -> Result<(), String> {
        let mut state = call.state;
        let lent = self.memory.lend(call.lent);
        let ours = match call.what {
            What::Retune(rate) => E::Ours::retune(&mut state, lent, rate),
            _ => E::Ours::reset(&mut state, lent),
        };
        number_agrees(ours, number)?;
        if number != 0 {
            return self.refused(&call.state, &state);
        }
        self.rust_at(&call.state);
        match call.what {
            What::Retune(rate) => self.rust.set_sample_rate(rate),
            _ => self.rust.reset(),
        }
        self.memory
            .cleared(call.lent, &in_use::<E>(state.sample_rate));
        self.state = state;
        self.all_agrees()
    }

    fn tick_both(&mut self, call: &Call, t: &Tick, number: u32) -> Result<(), String> {
        let handed = (number == 0).then(|| {
            self.rust_at(&call.state);
            self.handed(&call.state)
        });
        let mut state = call.state;
        let (mut out, mut age) = ([JUNK; MOST], JUNK as u32);
        let lent = self.memory.lend(call.lent);
        let ours = E::Ours::tick(&mut state, lent, t, &mut out, &mut age);
        number_agrees(ours, number)?;
        let Some(handed) = handed else {
            out[..E::SAMPLES]
                .iter()
                .try_for_each(|out| untouched("out of a refused tick", 0.0, *out))?;
            self.ages.with_none(age)?;
            return self.refused(&call.state, &state);
        };
        let rust = E::FORM.in_rust(&mut self.rust, t)?;
        for (ours, rust) in out.into_iter().zip(rust).take(E::SAMPLES) {
            agree("out", ours, rust)?;
        }
        let rate = call.state.sample_rate;
        self.ages
            .with(age, &distances::<E>(rate, t), length::<E>(rate))?;
        self.state = state;
        self.written_agrees(call.state.write_pos as usize)?;
        self.count_agrees(&handed)?;
        self.ticks += 1;
        if self.ticks % WHOLE == 0 {
            return self.all_agrees();
        }
        self.states_agree()
    }

    fn handed(&mut self, state: &State) -> Handed {
        let in_use = in_use::<E>(state.sample_rate);
        Handed::new(state.nonzero_places, &mut self.memory, &in_use)
    }

    /// The count that an accepted tick has left, and the answer by it. Then the host counts anew, for the call after one that it
    /// handed another count.
    fn count_agrees(&mut self, handed: &Handed) -> Result<(), String> {
        let counted = self.state.nonzero_places;
        let none = self.counts.with(&mut self.memory, handed, counted)?;
        silent_ours::<E>(&self.state, 0, none)?;
        self.state.nonzero_places = as_count(self.memory.nonzero());
        Ok(())
    }

    /// The Rust's unit gets the state that ours is handed: at another rate, with lines that lie elsewhere in the memory.
    fn rust_at(&mut self, state: &State) {
        if state.sample_rate.to_bits() != self.rust.sample_rate().to_bits() {
            self.rust = E::Rust::new(state.sample_rate);
            let length = length::<E>(state.sample_rate) as usize;
            let places = self.memory.shown(self.memory.count()).chunks_exact(length);
            let alike = self.rust.lines_mut().chunks_mut(E::RUST_LINES_FOR_ONE);
            for (ours, alike) in places.zip(alike) {
                alike.iter_mut().for_each(|rust| rust.copy_from_slice(ours));
            }
        }
        self.rust.set_write_pos(state.write_pos as usize);
        let phases = self.rust.phases_mut();
        phases.copy_from_slice(&state.phases[..phases.len()]);
    }

    /// A refused call leaves state and memory to the bit.
    fn refused(&self, before: &State, after: &State) -> Result<(), String> {
        state_untouched::<E>(before, after)?;
        self.memory.check()
    }

    /// The place that a tick from this position has written in each line.
    fn written_agrees(&mut self, write_pos: usize) -> Result<(), String> {
        let length = self.length() as usize;
        for (i, rust) in self.rust.lines().iter().enumerate() {
            let place = i / E::RUST_LINES_FOR_ONE * length + write_pos;
            self.memory.written(place, rust[write_pos])?;
        }
        Ok(())
    }

    fn states_agree(&self) -> Result<(), String> {
        for (ours, rust) in self.state.phases.into_iter().zip(self.rust.phases()) {
            agree("phase", ours, *rust)?;
        }
        same_count("position", self.state.write_pos, self.rust.write_pos())?;
        agree("rate", self.state.sample_rate, self.rust.sample_rate())
    }

    /// State, every place of every line, and the places beyond them; the count of the places, and the answer by it.
    fn all_agrees(&self) -> Result<(), String> {
        self.states_agree()?;
        self.memory.check()?;
        let counted = self.memory.read(&in_use::<E>(self.state.sample_rate));
        same_count("the count", self.state.nonzero_places, counted as usize)?;
        silent_ours::<E>(&self.state, 0, counted == 0)?;
        let length = self.length() as usize;
        let lines = self.memory.shown(E::LINES * length).chunks_exact(length);
        let rust = self.rust.lines();
        let corresponding = (E::LINES * E::RUST_LINES_FOR_ONE) as u64;
        same_count("the count of lines", corresponding, rust.len())?;
        for (ours, alike) in lines.zip(rust.chunks(E::RUST_LINES_FOR_ONE)) {
            for rust in alike {
                memory::line_agrees(ours, rust)?;
            }
        }
        Ok(())
    }
}

fn zero_state() -> State {
    State {
        write_pos: 0,
        nonzero_places: 0,
        phases: [0.0; MOST],
        sample_rate: 0.0,
    }
}

fn state_untouched<E: Effect>(should: &State, is: &State) -> Result<(), String> {
    let own = should.phases.iter().zip(is.phases).take(E::STEPS.len());
    for (should, is) in own {
        untouched("phase after a refusal", *should, is)?;
    }
    for (what, should, is) in [
        ("position after a refusal", should.write_pos, is.write_pos),
        (
            "count after a refusal",
            should.nonzero_places,
            is.nonzero_places,
        ),
    ] {
        same_count(what, is, should as usize)?;
    }
    untouched("rate after a refusal", should.sample_rate, is.sample_rate)
}

/// "silent" of a state whose count should be 0 or not: that is all that it goes by.
fn silent_ours<E: Effect>(state: &State, number: u32, none: bool) -> Result<(), String> {
    let mut silent = JUNK as u32;
    number_agrees(E::Ours::silent(state, &mut silent), number)?;
    silent_agrees(silent, number == 0 && none)
}
