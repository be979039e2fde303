//! A call of the tape delay, and its number by the table.

use super::length;
use super::state::junk_state;
use super::tanh::Tanh;
use crate::bits::shown;
use crate::table;
use room_effects::tape_delay::{Read, State};
use room_effects::MOST_PORTS;

pub struct Call {
    /// What the call is handed: the unit's own, another one that fits, or one that must be refused. For a start of no account.
    pub state: State,
    /// What the host writes to a place of the unit's memory before the call: a line may hold any float.
    pub planted: Option<(usize, f64)>,
    /// How many places it is lent.
    pub lent: usize,
    pub what: What,
}

pub enum What {
    /// In memory of its own, which holds junk by the seed.
    Start {
        rate: f64,
        coefficient: f64,
        seed: u64,
    },
    Retune {
        rate: f64,
        coefficient: f64,
    },
    Reset,
    Silent,
    /// No call of ours: the host writes ordinary audio, by the seed, to every place of the unit's memory.
    Fill(u64),
    /// The first half of a tick, with the hyperbolic tangent of the whole tick.
    Read(Read, Tanh),
    /// The second, with the saturated value.
    Store(f64),
}

impl Call {
    /// A start in a memory of its own, of `lent` places.
    pub fn start_in(lent: usize, rate: f64, coefficient: f64, seed: u64) -> Self {
        Self {
            state: junk_state(),
            planted: None,
            lent,
            what: What::Start {
                rate,
                coefficient,
                seed,
            },
        }
    }

    /// Documents 01 and 02: start 1, 2, 3; retune 4, 1, 2, 3; reset 4, 3; silent 4; read half 4, 7, 3, 5; store half 4, 7, 3, 6.
    pub fn number(&self) -> u32 {
        let state = (table::STATE, misfits(&self.state));
        let turn = |out_of_turn: bool| (table::TURN, out_of_turn);
        let sample_rate = |rate: f64| (table::SAMPLE_RATE, table::sample_rate(rate));
        let coefficient = |c: f64| (table::COEFFICIENT, table::coefficient(c));
        let memory = |rate: f64| {
            let short = table::memory(self.lent as u64, 1, length(rate));
            (table::MEMORY, short)
        };
        let memory_now = memory(self.state.sample_rate);
        let waiting = self.state.waiting != 0;
        match &self.what {
            What::Start {
                rate,
                coefficient: new,
                ..
            } => table::first(&[sample_rate(*rate), coefficient(*new), memory(*rate)]),
            What::Retune {
                rate,
                coefficient: new,
            } => table::first(&[state, sample_rate(*rate), coefficient(*new), memory(*rate)]),
            What::Reset => table::first(&[state, memory_now]),
            What::Silent => table::first(&[state]),
            What::Fill(_) => 0,
            What::Read(t, _) => table::first(&[state, turn(waiting), memory_now, control(t)]),
            What::Store(value) => {
                let curve = (table::CURVE, table::saturated(*value));
                table::first(&[state, turn(!waiting), memory_now, curve])
            }
        }
    }

    pub fn shown(&self) -> String {
        let mut lines = self.what.shown();
        if let Some((place, value)) = self.planted {
            lines += &format!("\n  place {place} {}", shown(&[("planted", value)]));
        }
        let State {
            write_pos,
            nonzero_places,
            delay_primed,
            waiting,
            kept: [audio, read, mix],
            ..
        } = self.state;
        let numbers = shown(&[
            ("distance", self.state.smoothed_delay),
            ("kept audio", audio),
            ("kept read", read),
            ("kept mix", mix),
            ("rate", self.state.sample_rate),
            ("coefficient", self.state.delay_smooth_coef),
        ]);
        let lent = self.lent;
        lines
            + &format!(
                "\n  position {write_pos}, count {nonzero_places}\n  primed {delay_primed:#x}, waiting {waiting:#x}\n  {numbers}\n  {lent} places"
            )
    }
}

impl What {
    fn shown(&self) -> String {
        match self {
            What::Start {
                rate,
                coefficient,
                seed,
            } => format!("start, junk {seed}:\n  {}", pace(*rate, *coefficient)),
            What::Retune { rate, coefficient } => {
                format!("retune:\n  {}", pace(*rate, *coefficient))
            }
            What::Reset => "reset:".into(),
            What::Silent => "silent:".into(),
            What::Fill(seed) => format!("the host fills the memory, audio {seed}:"),
            What::Read(t, tanh) => {
                let [audio, time, feedback, mix] = t.ports;
                let numbers = shown(&[
                    ("audio", audio),
                    ("time", time),
                    ("feedback", feedback),
                    ("mix", mix),
                ]);
                format!(
                    "read half:\n  set {:#x}\n  {numbers}\n  {}",
                    t.set,
                    tanh.shown()
                )
            }
            What::Store(value) => {
                format!("store half:\n  {}", shown(&[("saturated", *value)]))
            }
        }
    }
}

fn pace(rate: f64, coefficient: f64) -> String {
    shown(&[("new rate", rate), ("new coefficient", coefficient)])
}

fn misfits(state: &State) -> bool {
    let length = length(state.sample_rate);
    table::sample_rate(state.sample_rate)
        || table::position(state.write_pos, length)
        || table::count(state.nonzero_places, length)
        || table::coefficient(state.delay_smooth_coef)
        || table::distance(state.delay_primed != 0, state.smoothed_delay, length)
        || table::kept(state.waiting != 0, state.kept)
}

/// The ports as document 01 has them, each a number or unset.
pub fn read(t: &Read) -> [Option<f64>; MOST_PORTS] {
    std::array::from_fn(|i| (t.set >> i & 1 == 1).then_some(t.ports[i]))
}

/// Cause 5, of a read half.
pub fn control(t: &Read) -> (u32, bool) {
    let [_audio, controls @ ..] = read(t);
    let nan = controls.into_iter().any(table::control);
    (table::CONTROL, nan)
}
