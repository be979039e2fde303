//! A call of the reverb, and its number by the table.

use super::junk_state;
use crate::bits::shown;
use crate::table::{self, TANK_PLACES};
use room_effects::reverb::{State, Tick, PORTS};

pub struct Call {
    /// What the call is handed: the unit's own, another one that fits, or one that must be refused. For a start of no account.
    pub state: State,
    /// What the host writes to places of the unit's memory before the call: a line may hold any float.
    pub planted: Vec<(usize, f64)>,
    /// How many places it is lent.
    pub lent: usize,
    pub what: What,
}

pub enum What {
    /// In memory of its own, which holds junk by the seed.
    Start {
        rate: f64,
        seed: u64,
    },
    Retune(f64),
    Reset,
    Silent,
    Tick(Tick),
}

impl Call {
    /// A start in a memory of its own, of `lent` places.
    pub fn start_in(lent: usize, rate: f64, seed: u64) -> Self {
        Self {
            state: junk_state(),
            planted: Vec::new(),
            lent,
            what: What::Start { rate, seed },
        }
    }

    /// The documents' order: start 1, 3; retune 4, 1, 3; reset 4, 3; silent 4; tick 4, 3, 5.
    pub fn number(&self) -> u32 {
        let state = (table::STATE, misfits(&self.state));
        let sample_rate = |rate: f64| (table::SAMPLE_RATE, table::sample_rate(rate));
        let short = table::memory(self.lent as u64, 1, TANK_PLACES as u64);
        let memory = (table::MEMORY, short);
        match &self.what {
            What::Start { rate, .. } => table::first(&[sample_rate(*rate), memory]),
            What::Retune(rate) => table::first(&[state, sample_rate(*rate), memory]),
            What::Reset => table::first(&[state, memory]),
            What::Silent => table::first(&[state]),
            What::Tick(t) => table::first(&[state, memory, cause(t)]),
        }
    }

    pub fn shown(&self) -> String {
        let mut lines = match &self.what {
            What::Start { rate, seed } => {
                format!("start, junk {seed}:\n  {}", shown(&[("new rate", *rate)]))
            }
            What::Retune(rate) => format!("retune:\n  {}", shown(&[("new rate", *rate)])),
            What::Reset => "reset:".into(),
            What::Silent => "silent:".into(),
            What::Tick(t) => {
                let [audio, size, damping, mix, predelay] = t.ports;
                let numbers = shown(&[
                    ("audio", audio),
                    ("size", size),
                    ("damping", damping),
                    ("mix", mix),
                    ("predelay", predelay),
                ]);
                format!("tick:\n  set {:#x}\n  {numbers}", t.set)
            }
        };
        for (place, value) in &self.planted {
            lines += &format!("\n  place {place} {}", shown(&[("planted", *value)]));
        }
        let positions = self.state.positions();
        let count = self.state.nonzero_places;
        let rate = shown(&[("rate", self.state.sample_rate)]);
        let stores = self.state.stores().map(|store| ("store", store));
        let lent = self.lent;
        lines
            + &format!(
                "\n  positions {positions:?}, count {count}\n  {}\n  {rate}\n  {lent} places",
                shown(&stores)
            )
    }
}

/// "rate as in 1; every position below its line's length at that rate", and the count at most the places in use. Stores may be any
/// float.
fn misfits(state: &State) -> bool {
    let lengths = table::tank_lengths(state.sample_rate);
    let mut positions = state.positions().into_iter().zip(lengths);
    table::sample_rate(state.sample_rate)
        || table::count(state.nonzero_places, lengths.iter().sum())
        || positions.any(|(position, length)| table::position(position, length))
}

/// The ports as document 01 has them, each a number or unset.
pub fn read(t: &Tick) -> [Option<f64>; PORTS] {
    std::array::from_fn(|i| (t.set >> i & 1 == 1).then_some(t.ports[i]))
}

/// Cause 5. There is no curve number.
pub fn cause(t: &Tick) -> (u32, bool) {
    let [_audio, controls @ ..] = read(t);
    (table::CONTROL, controls.into_iter().any(table::control))
}
