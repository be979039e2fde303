//! The reverb: ours, in a tank that it is lent, beside the Rust's 25 buffers.
//!
//! Of the tank, the 25 places that a tick writes are compared with the Rust's at once. All of it, spare places too, is held
//! against what it should be at every clearing, at every refusal, at every 1024th tick of a unit and at the end of the run. The count
//! that a state keeps is held against these 25 after every tick, and against a reading of the tank every few ticks.

mod call;
mod counting;
mod directed;
mod draw;
mod record;

use crate::bits::{agree, same_count, untouched, JUNK};
use crate::counts::{self, as_count, Handed};
use crate::memory::{self, Memory};
use crate::random::Random;
use crate::run::{self, number_agrees, silent_agrees, Made, Pair};
use crate::table::{self, TANK, TANK_PLACES};
use crate::tally;
use call::{read, Call, What};
use quiver_oracle::reverb::Unit;
use room_effects::reverb as ours;
use room_effects::reverb::{State, Tick};

pub use record::record;

/// Document 01's number of the effect.
const KIND: u64 = 6;

pub struct Reverb {
    state: State,
    memory: Memory,
    rust: Unit,
    ticks: u64,
    /// The places that the last tick left what is not ordinary in: it would stay, and spread until all is NaN.
    wild: Vec<usize>,
    counts: counts::Compared,
}

/// The cases that random ticks don't meet, then a random run.
pub fn run(ticks: u64, seed: u64) -> Result<String, String> {
    directed::run(seed)?;
    let counts = counting::run(seed)?.shown();
    let said = run::run::<Reverb>(ticks, seed)?;
    Ok(format!("{said}; directed{counts}"))
}

fn junk_state() -> State {
    State {
        nonzero_places: JUNK as u32,
        ..State::even(JUNK as u32, JUNK, JUNK)
    }
}

/// All of the memory is compared once in this many ticks of a unit.
const WHOLE: u64 = 1024;

/// Not what ordinary audio can come to.
fn wild(x: f64) -> bool {
    !(x.abs() < 1e6)
}

impl Pair for Reverb {
    const NAME: &'static str = "reverb";
    const REFUSALS: &'static [u32] = &[
        table::SAMPLE_RATE,
        table::MEMORY,
        table::STATE,
        table::CONTROL,
    ];
    const COUNTED: bool = true;
    type Call = Call;

    fn start(sample_rate: f64, _random: &mut Random) -> Result<Self, String> {
        Self::started(sample_rate, 0)
    }

    fn draw(&self, random: &mut Random) -> Call {
        self.drawn(random)
    }

    fn call(&mut self, call: &Call) -> Result<Made, String> {
        let number = call.number();
        for (place, value) in &call.planted {
            self.plant(*place, *value);
        }
        match &call.what {
            What::Start { rate, seed } => self.start_both(call.lent, *rate, *seed, number)?,
            What::Retune(_) | What::Reset => self.clear_both(call, number)?,
            What::Silent => silent_ours(&call.state, number, call.state.nonzero_places == 0)?,
            What::Tick(t) => self.tick_both(call, t, number)?,
        }
        Ok(Made::of(number, matches!(call.what, What::Tick(_))))
    }

    fn shown(call: &Call) -> String {
        call.shown()
    }

    fn finish(&self) -> Result<(), String> {
        self.all_agrees()
    }

    fn counts(&self) -> counts::Compared {
        self.counts
    }
}

impl Reverb {
    /// An accepted start with so many spare places.
    fn started(sample_rate: f64, spare: usize) -> Result<Self, String> {
        let mut unit = Self {
            state: junk_state(),
            memory: Memory::junk(0, 0),
            rust: Unit::new(sample_rate),
            ticks: 0,
            wild: Vec::new(),
            counts: counts::Compared::default(),
        };
        unit.start_both(TANK_PLACES + spare, sample_rate, 0, 0)?;
        Ok(unit)
    }

    fn lengths(&self) -> [u64; 25] {
        table::tank_lengths(self.state.sample_rate)
    }

    /// The host writes to a place, and counts what it writes.
    fn plant(&mut self, place: usize, value: f64) {
        self.memory.plant(place, value);
        self.state.nonzero_places = as_count(self.memory.nonzero());
        if let Some(line) = (0..TANK.len()).rfind(|line| TANK[*line].0 <= place) {
            if let Some(there) = self.rust.line_mut(line).get_mut(place - TANK[line].0) {
                *there = value;
            }
        }
    }

    /// A refused start writes a state of zeros, which the state test refuses, and leaves the memory; the unit goes on as it was.
    fn start_both(&mut self, lent: usize, rate: f64, seed: u64, number: u32) -> Result<(), String> {
        let mut memory = Memory::junk(lent, seed);
        let mut state = junk_state();
        number_agrees(ours::start(&mut state, memory.lend(lent), rate), number)?;
        if number != 0 {
            state_untouched(&State::even(0, 0.0, 0.0), &state)?;
            return memory.check();
        }
        memory.cleared(lent, &table::tank_in_use(rate));
        *self = Self {
            state,
            memory,
            rust: Unit::new(rate),
            ticks: 0,
            wild: Vec::new(),
            counts: self.counts,
        };
        self.all_agrees()
    }

    fn clear_both(&mut self, call: &Call, number: u32) -> Result<(), String> {
        let mut state = call.state;
        let lent = self.memory.lend(call.lent);
        let ours = match call.what {
            What::Retune(rate) => ours::retune(&mut state, lent, rate),
            _ => ours::reset(&mut state, lent),
        };
        number_agrees(ours, number)?;
        if number != 0 {
            return self.refused(&call.state, &state);
        }
        self.rust_at(&call.state);
        match call.what {
            What::Retune(rate) => self.rust.set_sample_rate(rate),
            _ => self.rust.reset(),
        }
        let in_use = table::tank_in_use(state.sample_rate);
        self.memory.cleared(call.lent, &in_use);
        self.state = state;
        self.wild.clear();
        self.all_agrees()
    }

    fn tick_both(&mut self, call: &Call, t: &Tick, number: u32) -> Result<(), String> {
        let handed = (number == 0).then(|| {
            self.rust_at(&call.state);
            self.handed(&call.state)
        });
        let mut state = call.state;
        let mut out = [JUNK; 2];
        let lent = self.memory.lend(call.lent);
        number_agrees(ours::tick(&mut state, lent, t, &mut out), number)?;
        let Some(handed) = handed else {
            out.iter()
                .try_for_each(|out| untouched("out of a refused tick", 0.0, *out))?;
            return self.refused(&call.state, &state);
        };
        let rust = self.rust.tick(read(t));
        for ((ours, rust), side) in out.into_iter().zip(rust).zip(["left", "right"]) {
            agree(side, ours, rust)?;
        }
        self.state = state;
        self.written_agrees(&call.state)?;
        self.count_agrees(&handed)?;
        self.ticks += 1;
        if self.ticks % WHOLE == 0 {
            return self.all_agrees();
        }
        self.states_agree()
    }

    /// The place that a tick from this state has written in each line.
    fn written_agrees(&mut self, before: &State) -> Result<(), String> {
        self.wild.clear();
        for (line, pos) in before.positions().into_iter().enumerate() {
            let rust = self.rust.line(line)[pos as usize];
            let place = TANK[line].0 + pos as usize;
            self.memory
                .written(place, rust)
                .map_err(|differs| format!("line {line}: {differs}"))?;
            if wild(rust) {
                self.wild.push(place);
            }
        }
        Ok(())
    }

    fn handed(&mut self, state: &State) -> Handed {
        let in_use = table::tank_in_use(state.sample_rate);
        Handed::new(state.nonzero_places, &mut self.memory, &in_use)
    }

    /// The count that an accepted tick has left, and the answer by it. Then the host counts anew, for the call after one that it
    /// handed another count.
    fn count_agrees(&mut self, handed: &Handed) -> Result<(), String> {
        let counted = self.state.nonzero_places;
        let none = self.counts.with(&mut self.memory, handed, counted)?;
        silent_ours(&self.state, 0, none)?;
        self.state.nonzero_places = as_count(self.memory.nonzero());
        Ok(())
    }

    /// The Rust's unit gets the state that ours is handed: at another rate, other lengths of the same buffers.
    fn rust_at(&mut self, state: &State) {
        if state.sample_rate.to_bits() != self.rust.sample_rate().to_bits() {
            self.rust.at_rate(state.sample_rate);
        }
        self.rust
            .set_positions(&state.positions().map(|pos| pos as usize));
        self.rust.set_stores(&state.stores());
    }

    /// A refused call leaves state and memory to the bit.
    fn refused(&self, before: &State, after: &State) -> Result<(), String> {
        state_untouched(before, after)?;
        self.memory.check()
    }

    fn states_agree(&self) -> Result<(), String> {
        let rust = self.rust.positions();
        for (line, (ours, rust)) in self.state.positions().into_iter().zip(rust).enumerate() {
            same_count("position", ours, rust)
                .map_err(|differs| format!("line {line}: {differs}"))?;
        }
        let rust = self.rust.stores();
        for (comb, (ours, rust)) in self.state.stores().into_iter().zip(rust).enumerate() {
            agree("store", ours, rust).map_err(|differs| format!("comb {comb}: {differs}"))?;
        }
        agree("rate", self.state.sample_rate, self.rust.sample_rate())
    }

    /// State, every place of every buffer, and the places beyond them; the count of the places in use, and the answer by it; that the
    /// table reads the lengths as the Rust does.
    fn all_agrees(&self) -> Result<(), String> {
        self.states_agree()?;
        self.memory.check()?;
        let in_use = table::tank_in_use(self.state.sample_rate);
        let counted = self.memory.read(&in_use);
        same_count("the count", self.state.nonzero_places, counted as usize)?;
        silent_ours(&self.state, 0, counted == 0)?;
        let places = self.memory.shown(TANK_PLACES);
        for (line, (start, count)) in TANK.into_iter().enumerate() {
            memory::line_agrees(&places[start..start + count], self.rust.line(line))
                .map_err(|differs| format!("line {line}: {differs}"))?;
        }
        lengths_agree(&self.lengths(), &self.rust)
    }
}

fn lengths_agree(table: &[u64; 25], rust: &Unit) -> Result<(), String> {
    for (line, (table, rust)) in table.iter().zip(rust.lengths()).enumerate() {
        same_count("length by the table", *table, rust)
            .map_err(|differs| format!("line {line}: {differs}"))?;
    }
    Ok(())
}

fn state_untouched(should: &State, is: &State) -> Result<(), String> {
    for (should, is) in should.positions().into_iter().zip(is.positions()) {
        same_count("position after a refusal", is, should as usize)?;
    }
    for (should, is) in should.stores().into_iter().zip(is.stores()) {
        untouched("store after a refusal", should, is)?;
    }
    let should_count = should.nonzero_places as usize;
    same_count("count after a refusal", is.nonzero_places, should_count)?;
    untouched("rate after a refusal", should.sample_rate, is.sample_rate)
}

/// "silent" of a state whose count should be 0 or not: that is all that it goes by, and whether "its sixteen damping stores are also +0
/// or −0".
fn silent_ours(state: &State, number: u32, none: bool) -> Result<(), String> {
    let mut silent = JUNK as u32;
    number_agrees(ours::silent(state, &mut silent), number)?;
    let quiet = tally::silent(&state.stores());
    silent_agrees(silent, number == 0 && none && quiet)
}
