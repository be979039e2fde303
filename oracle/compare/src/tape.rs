//! The tape delay: ours, whose tick is two calls, in memory that it is lent, beside the Rust's, whose tick is one. The Rust
//! gets its hyperbolic tangents from a script, and so each pair of halves is held against one tick: the sum, the age, what the
//! read half keeps and how the glide moves as soon as that half is made, the sample, the place and the position after the
//! other. What the Rust does not show of itself in that tick it shows in others from the same state (tanh.rs).
//!
//! Of the memory, the place of a half is compared at once. All of it, spare places too, is held against what it should be at
//! every clearing and refusal, now and then between, and at the end of the run: `Memory::check` and, beside the Rust's line,
//! `all_agrees`. The count that a state keeps is held against what halves have written after every accepted half, and against a
//! reading of the line now and then. Most units are at 8,000 or a little above, as a line at 192,000 has 2,304,001 places.

mod aged;
mod arguments;
mod call;
mod counting;
mod directed;
mod draw;
mod halves;
mod long;
mod record;
mod state;
mod tanh;
mod turns;

use crate::ages::Compared;
use crate::bits::{agree, same_count, untouched, JUNK};
use crate::counts::{self, as_count, Handed};
use crate::memory::{self, Memory};
use crate::random::Random;
use crate::run::{self, number_agrees, silent_agrees, Made, Pair};
use crate::table;
use call::{Call, What};
use quiver_oracle::delay::{coefficient, Moving, Unit};
use room_effects::tape_delay as ours;
use room_effects::tape_delay::State;
use state::{junk_state, state_untouched, zero_state, KEPT};
use std::ops::Range;
use tanh::Rest;

pub use record::record;

/// Document 02's number of the effect.
const KIND: u64 = 8;

pub struct Tape {
    state: State,
    memory: Memory,
    rust: Unit,
    /// Of the unit's own read half, if its store half is still to come.
    rest: Option<Rest>,
    /// Nothing but halves has written to the memory since a clearing.
    empty: bool,
    pairs: u64,
    ages: Compared,
    counts: counts::Compared,
}

/// The cases that random calls don't meet, then a random run.
pub fn run(ticks: u64, seed: u64) -> Result<String, String> {
    let (pairs, ages) = [
        directed::run(seed)?,
        turns::run(seed)?,
        aged::run()?,
        long::run(seed)?,
    ]
    .into_iter()
    .fold((0, Compared::default()), |(pairs, ages), (more, aged)| {
        (pairs + more, ages.and(aged))
    });
    let [ages, counts] = [ages.shown(), counting::run()?.shown()];
    let said = run::run::<Tape>(ticks, seed)?;
    Ok(format!("{said}; directed, {pairs} pairs{ages}{counts}"))
}

/// All of the memory is compared once in this many pairs of a unit, or in as many as an eighth of its line.
const WHOLE: u64 = 64;

/// A unit with a longer line is compared as its start left it, and the run goes on with the one that it had.
const LONGEST: u64 = 150_000;

fn length(rate: f64) -> u64 {
    table::delay_length(rate, table::TAPE_MAXIMUM)
}

/// All places of the line.
fn in_use(rate: f64) -> [Range<usize>; 1] {
    [0..length(rate) as usize]
}

impl Pair for Tape {
    const NAME: &'static str = "tape delay";
    const REFUSALS: &'static [u32] = &[
        table::SAMPLE_RATE,
        table::COEFFICIENT,
        table::MEMORY,
        table::STATE,
        table::CONTROL,
        table::CURVE,
        table::TURN,
    ];
    const TICKS: &'static str = "pairs of halves";
    const AGED: bool = true;
    const COUNTED: bool = true;
    const HALVED: bool = true;
    type Call = Call;

    /// The coefficient is the Rust's own; most of the rates that are asked for have lines too long.
    fn start(sample_rate: f64, random: &mut Random) -> Result<Self, String> {
        let rate = if length(sample_rate) <= LONGEST {
            sample_rate
        } else {
            arguments::low_rate(random)
        };
        Self::started(rate, coefficient(rate), 0)
    }

    fn draw(&self, random: &mut Random) -> Call {
        self.drawn(random)
    }

    fn call(&mut self, call: &Call) -> Result<Made, String> {
        let number = call.number();
        if let Some((place, value)) = call.planted {
            self.plant(place, value);
        }
        match &call.what {
            What::Start {
                rate,
                coefficient,
                seed,
            } => self.start_both(call.lent, [*rate, *coefficient], *seed, number)?,
            What::Retune { .. } | What::Reset => self.clear_both(call, number)?,
            What::Silent => silent_ours(&call.state, number, call.state.nonzero_places == 0)?,
            What::Fill(seed) => self.fill(*seed),
            What::Read(t, tanh) => return self.read_both(call, t, *tanh, number),
            What::Store(value) => return self.store_both(call, *value, number),
        }
        Ok(Made::of(number, false))
    }

    fn shown(call: &Call) -> String {
        call.shown()
    }

    fn finish(&self) -> Result<(), String> {
        self.all_agrees()
    }

    fn ages(&self) -> Compared {
        self.ages
    }

    fn counts(&self) -> counts::Compared {
        self.counts
    }
}

impl Tape {
    /// An accepted start with so many spare places.
    fn started(rate: f64, coefficient: f64, spare: usize) -> Result<Self, String> {
        let mut unit = Self {
            state: junk_state(),
            memory: Memory::junk(0, 0),
            rust: Unit::tape(rate, coefficient),
            rest: None,
            empty: true,
            pairs: 0,
            ages: Compared::default(),
            counts: counts::Compared::default(),
        };
        let lent = length(rate) as usize + spare;
        let call = Call::start_in(lent, rate, coefficient, 0);
        number_agrees(0, call.number())?;
        unit.start_both(lent, [rate, coefficient], 0, 0)?;
        Ok(unit)
    }

    fn length(&self) -> u64 {
        length(self.state.sample_rate)
    }

    /// The host writes to a place, and counts what it writes.
    fn plant(&mut self, place: usize, value: f64) {
        self.memory.plant(place, value);
        self.state.nonzero_places = as_count(self.memory.nonzero());
        if let Some(line) = self.rust.line_mut().get_mut(place) {
            *line = value;
        }
    }

    fn fill(&mut self, seed: u64) {
        self.empty = false;
        let mut random = Random::new(seed);
        for place in 0..self.memory.count() {
            self.plant(place, random.ordinary_audio());
        }
    }

    /// A refused start writes a state of zeros, which the state test refuses, and leaves the memory; the unit goes on as it was.
    fn start_both(
        &mut self,
        lent: usize,
        [rate, coefficient]: [f64; 2],
        seed: u64,
        number: u32,
    ) -> Result<(), String> {
        let mut memory = Memory::junk(lent, seed);
        let mut state = junk_state();
        let ours = ours::start(&mut state, memory.lend(lent), rate, coefficient);
        number_agrees(ours, number)?;
        if number != 0 {
            state_untouched(&zero_state(), &state)?;
            return memory.check();
        }
        memory.cleared(lent, &in_use(rate));
        let next = Self {
            state,
            memory,
            rust: Unit::tape(rate, coefficient),
            rest: None,
            empty: true,
            pairs: 0,
            ages: self.ages,
            counts: self.counts,
        };
        next.all_agrees()?;
        if self.memory.count() == 0 || next.length() <= LONGEST {
            *self = next;
        }
        Ok(())
    }

    /// A read that waits is dropped.
    fn clear_both(&mut self, call: &Call, number: u32) -> Result<(), String> {
        let mut state = call.state;
        let lent = self.memory.lend(call.lent);
        let ours = match call.what {
            What::Retune { rate, coefficient } => ours::retune(&mut state, lent, rate, coefficient),
            _ => ours::reset(&mut state, lent),
        };
        number_agrees(ours, number)?;
        if number != 0 {
            return self.refused(&call.state, &state);
        }
        self.rust_at(&call.state);
        match call.what {
            What::Retune { rate, coefficient } => self.rust.set_sample_rate(rate, coefficient),
            _ => self.rust.reset(),
        }
        self.memory.cleared(call.lent, &in_use(state.sample_rate));
        self.state = state;
        self.rest = None;
        self.empty = true;
        self.all_agrees()
    }

    /// The Rust's unit gets the state that ours is handed: at another rate, with a line of another length. (Before a retune that
    /// may be longer than the memory; then all is cleared.)
    fn rust_at(&mut self, state: &State) {
        if state.sample_rate.to_bits() != self.rust.sample_rate().to_bits() {
            self.rust = Unit::tape(state.sample_rate, state.delay_smooth_coef);
            let places = self.memory.shown(self.memory.count());
            for (line, place) in self.rust.line_mut().iter_mut().zip(places) {
                *line = *place;
            }
        }
        self.rust.set_coefficient(state.delay_smooth_coef);
        self.rust.set_moving(Moving {
            write_pos: state.write_pos as usize,
            smoothed_delay: state.smoothed_delay,
            delay_primed: state.delay_primed != 0,
        });
    }

    fn handed(&mut self, state: &State) -> Handed {
        let in_use = in_use(state.sample_rate);
        Handed::new(state.nonzero_places, &mut self.memory, &in_use)
    }

    /// The count that an accepted half has left, and the answer by it. Then the host counts anew, for the call after one that it
    /// handed another count.
    fn count_agrees(&mut self, handed: &Handed) -> Result<(), String> {
        let counted = self.state.nonzero_places;
        let none = self.counts.with(&mut self.memory, handed, counted)?;
        silent_ours(&self.state, 0, none)?;
        self.state.nonzero_places = as_count(self.memory.nonzero());
        Ok(())
    }

    /// A refused call leaves state and memory to the bit.
    fn refused(&self, before: &State, after: &State) -> Result<(), String> {
        state_untouched(before, after)?;
        self.memory.check()
    }

    /// A flag that a call writes is 0 or 1; a store half leaves that of the glide. While no read waits, nothing is kept.
    fn states_agree(&self) -> Result<(), String> {
        let moving = self.rust.moving();
        same_count("position", self.state.write_pos, moving.write_pos)?;
        let primed = u64::from(self.state.delay_primed != 0);
        same_count("primed", primed, usize::from(moving.delay_primed))?;
        agree("distance", self.state.smoothed_delay, moving.smoothed_delay)?;
        agree("rate", self.state.sample_rate, self.rust.sample_rate())?;
        agree(
            "coefficient",
            self.state.delay_smooth_coef,
            self.rust.coefficient(),
        )?;
        let waiting = usize::from(self.rest.is_some());
        same_count("waiting", self.state.waiting, waiting)?;
        if waiting == 0 {
            for (what, kept) in KEPT.into_iter().zip(self.state.kept) {
                untouched(what, 0.0, kept)?;
            }
        }
        Ok(())
    }

    /// State, every place of the line, and the places beyond it; the count of the places, and the answer by it.
    fn all_agrees(&self) -> Result<(), String> {
        self.states_agree()?;
        self.memory.check()?;
        let counted = self.memory.read(&in_use(self.state.sample_rate));
        same_count("the count", self.state.nonzero_places, counted as usize)?;
        silent_ours(&self.state, 0, counted == 0)?;
        let line = self.memory.shown(self.length() as usize);
        memory::line_agrees(line, self.rust.line())
    }
}

/// "silent" of a state whose count should be 0 or not: that is all that it goes by, and whether a read waits.
fn silent_ours(state: &State, number: u32, none: bool) -> Result<(), String> {
    let mut silent = JUNK as u32;
    number_agrees(ours::silent(state, &mut silent), number)?;
    silent_agrees(silent, number == 0 && none && state.waiting == 0)
}
