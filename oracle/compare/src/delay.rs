//! The delay: ours, in memory that it is lent, beside the Rust's. The modes are two rows of the program: a unit starts in its
//! own, and now and then a call is handed a state in the other.
//!
//! Of the memory, a tick's own place is compared with the Rust's line at once. All of it, spare places too, is held against
//! what it should be at every clearing, at every refusal, at every 64th tick of a unit (of a long line, more seldom) and at the
//! end of the run. The count that a state keeps is held against a reading of the line after every accepted call (of a long line,
//! against what was written since the last one).

mod aged;
mod arguments;
mod call;
mod counting;
mod directed;
mod draw;
mod long;
mod record;
mod state;

use crate::ages::{self, Compared};
use crate::bits::{agree, same_count, untouched, JUNK};
use crate::counts::{self, as_count, Handed};
use crate::memory::{self, Memory};
use crate::random::Random;
use crate::run::{self, number_agrees, silent_agrees, Made, Pair};
use crate::table;
use call::{read, Call, What};
use quiver_oracle::delay::{coefficient, key, Moving, Unit};
use room_effects::delay as ours;
use room_effects::delay::{Settings, State, Tick};
use state::{junk_state, state_untouched, zero_state};
use std::ops::Range;

pub use long::run as run_long;
pub use record::record;

/// Document 01's number of the effect.
const KIND: u64 = 1;

pub struct Delay<const LINEAR: bool> {
    state: State,
    memory: Memory,
    rust: Unit,
    ticks: u64,
    ages: Compared,
    counts: counts::Compared,
}

/// The cases that random ticks don't meet, then a random run.
pub fn run<const LINEAR: bool>(ticks: u64, seed: u64) -> Result<String, String> {
    let ages = directed::run::<LINEAR>(seed)?.and(aged::run::<LINEAR>()?);
    let [ages, counts] = [ages.shown(), counting::run::<LINEAR>()?.shown()];
    let said = run::run::<Delay<LINEAR>>(ticks, seed)?;
    Ok(format!("{said}; directed{ages}{counts}"))
}

/// All of the memory is compared once in this many ticks of a unit, or in as many as an eighth of its line.
const WHOLE: u64 = 64;

/// A unit with a longer line is compared as its start left it, and the run goes on with the one that it had.
const LONGEST: u64 = 20_000;

fn length(state: &State) -> u64 {
    table::delay_length(state.sample_rate, state.max_delay_secs)
}

/// All places of the line.
fn in_use(state: &State) -> [Range<usize>; 1] {
    [0..length(state) as usize]
}

/// The places that a start with these settings needs.
fn places(settings: &Settings) -> u64 {
    table::delay_length(
        settings.sample_rate,
        table::held_maximum(settings.max_delay_secs),
    )
}

fn rust_of(settings: &Settings) -> Unit {
    Unit::new(
        settings.sample_rate,
        settings.max_delay_secs,
        settings.delay_smooth_coef,
        settings.linear_time != 0,
    )
}

impl<const LINEAR: bool> Pair for Delay<LINEAR> {
    const NAME: &'static str = if LINEAR { "linear delay" } else { "delay" };
    const REFUSALS: &'static [u32] = &[
        table::SAMPLE_RATE,
        table::COEFFICIENT,
        table::MEMORY,
        table::STATE,
        table::CONTROL,
        table::CURVE,
    ];
    const AGED: bool = true;
    const COUNTED: bool = true;
    type Call = Call;

    /// The coefficient is the Rust's own.
    fn start(sample_rate: f64, random: &mut Random) -> Result<Self, String> {
        let settings = Settings {
            sample_rate,
            delay_smooth_coef: coefficient(sample_rate),
            max_delay_secs: random.within(0.001, 0.1),
            linear_time: u32::from(LINEAR),
        };
        Self::started(&settings, 0)
    }

    fn draw(&self, random: &mut Random) -> Call {
        self.drawn(random)
    }

    fn call(&mut self, call: &Call) -> Result<Made, String> {
        let number = call.number();
        if let Some((place, value)) = call.planted {
            self.plant(place, value);
        }
        match &call.what {
            What::Start { settings, seed } => {
                self.start_both(call.lent, settings, *seed, number)?
            }
            What::Retune { .. } | What::Reset => self.clear_both(call, number)?,
            What::Silent => silent_ours(&call.state, number, call.state.nonzero_places == 0)?,
            What::Tick(t) => self.tick_both(call, t, number)?,
        }
        Ok(Made::of(number, matches!(call.what, What::Tick(_))))
    }

    fn shown(call: &Call) -> String {
        call.shown()
    }

    fn finish(&self) -> Result<(), String> {
        self.all_agrees()
    }

    fn ages(&self) -> Compared {
        self.ages
    }

    fn counts(&self) -> counts::Compared {
        self.counts
    }
}

impl<const LINEAR: bool> Delay<LINEAR> {
    /// An accepted start with so many spare places.
    fn started(settings: &Settings, spare: usize) -> Result<Self, String> {
        let mut unit = Self {
            state: junk_state(),
            memory: Memory::junk(0, 0),
            rust: rust_of(settings),
            ticks: 0,
            ages: Compared::default(),
            counts: counts::Compared::default(),
        };
        let lent = places(settings) as usize + spare;
        number_agrees(0, Call::start_in(lent, *settings, 0).number())?;
        unit.start_both(lent, settings, 0, 0)?;
        Ok(unit)
    }

    fn length(&self) -> u64 {
        length(&self.state)
    }

    /// The host writes to a place, and counts what it writes.
    fn plant(&mut self, place: usize, value: f64) {
        self.memory.plant(place, value);
        self.state.nonzero_places = as_count(self.memory.nonzero());
        if let Some(line) = self.rust.line_mut().get_mut(place) {
            *line = value;
        }
    }

    /// A refused start writes a state of zeros, which the state test refuses, and leaves the memory; the unit goes on as it was.
    fn start_both(
        &mut self,
        lent: usize,
        settings: &Settings,
        seed: u64,
        number: u32,
    ) -> Result<(), String> {
        let mut memory = Memory::junk(lent, seed);
        let mut state = junk_state();
        number_agrees(ours::start(&mut state, memory.lend(lent), settings), number)?;
        if number != 0 {
            state_untouched(&zero_state(), &state)?;
            return memory.check();
        }
        memory.cleared(lent, &in_use(&state));
        let next = Self {
            state,
            memory,
            rust: rust_of(settings),
            ticks: 0,
            ages: self.ages,
            counts: self.counts,
        };
        next.all_agrees()?;
        same_count(
            "linear",
            u64::from(state.linear_time),
            usize::from(settings.linear_time != 0),
        )?;
        if self.memory.count() == 0 || next.length() <= LONGEST {
            *self = next;
        }
        Ok(())
    }

    fn clear_both(&mut self, call: &Call, number: u32) -> Result<(), String> {
        let mut state = call.state;
        let lent = self.memory.lend(call.lent);
        let ours = match call.what {
            What::Retune { rate, coefficient } => ours::retune(&mut state, lent, rate, coefficient),
            _ => ours::reset(&mut state, lent),
        };
        number_agrees(ours, number)?;
        if number != 0 {
            return self.refused(&call.state, &state);
        }
        self.rust_at(&call.state);
        match call.what {
            What::Retune { rate, coefficient } => self.rust.set_sample_rate(rate, coefficient),
            _ => self.rust.reset(),
        }
        self.memory.cleared(call.lent, &in_use(&state));
        self.state = state;
        self.all_agrees()
    }

    fn tick_both(&mut self, call: &Call, t: &Tick, number: u32) -> Result<(), String> {
        let handed = (number == 0).then(|| {
            self.rust_at(&call.state);
            self.handed(&call.state)
        });
        let mut state = call.state;
        let (mut out, mut age) = (JUNK, JUNK as u32);
        let lent = self.memory.lend(call.lent);
        number_agrees(ours::tick(&mut state, lent, t, &mut out, &mut age), number)?;
        let Some(handed) = handed else {
            untouched("out of a refused tick", 0.0, out)?;
            self.ages.with_none(age)?;
            return self.refused(&call.state, &state);
        };
        agree("out", out, in_rust(&mut self.rust, t))?;
        self.age_agrees(age, &call.state, t)?;
        self.state = state;
        let written = call.state.write_pos as usize;
        self.memory.written(written, self.rust.line()[written])?;
        self.count_agrees(&handed)?;
        self.ticks += 1;
        if self.ticks % WHOLE.max(self.length() / 8) == 0 {
            return self.all_agrees();
        }
        self.states_agree()
    }

    fn handed(&mut self, state: &State) -> Handed {
        Handed::new(state.nonzero_places, &mut self.memory, &in_use(state))
    }

    /// The count that an accepted tick has left, and the answer by it. Then the host counts anew, for the call after one that it
    /// handed another count.
    fn count_agrees(&mut self, handed: &Handed) -> Result<(), String> {
        let counted = self.state.nonzero_places;
        let none = self.counts.with(&mut self.memory, handed, counted)?;
        silent_ours(&self.state, 0, none)?;
        self.state.nonzero_places = as_count(self.memory.nonzero());
        Ok(())
    }

    /// The age of an accepted tick from this state; the Rust's unit has just made it too, and keeps the distance at which it read.
    fn age_agrees(&mut self, age: u32, before: &State, t: &Tick) -> Result<(), String> {
        let length = length(before);
        let read = ages::delay(before, t, length);
        agree("distance read", read, self.rust.moving().smoothed_delay)?;
        self.ages.with(age, &[read], length)
    }

    /// The Rust's unit gets the state that ours is handed: at another rate, with a line of another length. (Before a retune that
    /// may be longer than the memory; then all is cleared.)
    fn rust_at(&mut self, state: &State) {
        let settings = [state.sample_rate, state.max_delay_secs].map(f64::to_bits);
        if settings != [self.rust.sample_rate(), self.rust.maximum()].map(f64::to_bits) {
            self.rust = Unit::new(
                state.sample_rate,
                state.max_delay_secs,
                state.delay_smooth_coef,
                LINEAR,
            );
            let places = self.memory.shown(self.memory.count());
            for (line, place) in self.rust.line_mut().iter_mut().zip(places) {
                *line = *place;
            }
        }
        self.rust.set_coefficient(state.delay_smooth_coef);
        self.rust.set_linear(state.linear_time != 0);
        self.rust.set_moving(Moving {
            write_pos: state.write_pos as usize,
            smoothed_delay: state.smoothed_delay,
            delay_primed: state.delay_primed != 0,
        });
    }

    /// A refused call leaves state and memory to the bit.
    fn refused(&self, before: &State, after: &State) -> Result<(), String> {
        state_untouched(before, after)?;
        self.memory.check()
    }

    /// A flag that a call writes is 0 or 1; the one for the mode is the host's own, any number.
    fn states_agree(&self) -> Result<(), String> {
        let moving = self.rust.moving();
        same_count("position", self.state.write_pos, moving.write_pos)?;
        same_count(
            "primed",
            self.state.delay_primed,
            usize::from(moving.delay_primed),
        )?;
        agree("distance", self.state.smoothed_delay, moving.smoothed_delay)?;
        agree("rate", self.state.sample_rate, self.rust.sample_rate())?;
        agree(
            "coefficient",
            self.state.delay_smooth_coef,
            self.rust.coefficient(),
        )?;
        agree("maximum", self.state.max_delay_secs, self.rust.maximum())?;
        let linear = u64::from(self.state.linear_time != 0);
        same_count("linear", linear, usize::from(self.rust.linear()))
    }

    /// State, every place of the line, and the places beyond it; the count of the places, and the answer by it.
    fn all_agrees(&self) -> Result<(), String> {
        self.states_agree()?;
        self.memory.check()?;
        let counted = self.memory.read(&in_use(&self.state));
        same_count("the count", self.state.nonzero_places, counted as usize)?;
        silent_ours(&self.state, 0, counted == 0)?;
        let line = self.memory.shown(self.length() as usize);
        memory::line_agrees(line, self.rust.line())
    }
}

/// The Rust's tick.
fn in_rust(rust: &mut Unit, t: &Tick) -> f64 {
    let ports = read(t);
    rust.plant_milliseconds(key(ports[1]), t.milliseconds);
    rust.tick(ports)
}

/// "silent" of a state whose count should be 0 or not: that is all that it goes by.
fn silent_ours(state: &State, number: u32, none: bool) -> Result<(), String> {
    let mut silent = JUNK as u32;
    number_agrees(ours::silent(state, &mut silent), number)?;
    silent_agrees(silent, number == 0 && none)
}
