//! A call of the delay, and its number by the table.

use super::state::junk_state;
use super::{length, places};
use crate::bits::shown;
use crate::table;
use room_effects::delay::{Settings, State, Tick};
use room_effects::MOST_PORTS;

pub struct Call {
    /// What the call is handed: the unit's own, another one that fits, or one that must be refused. For a start of no account.
    pub state: State,
    /// What the host writes to a place of the unit's memory before the call: a line may hold any float.
    pub planted: Option<(usize, f64)>,
    /// How many places it is lent.
    pub lent: usize,
    pub what: What,
}

pub enum What {
    /// In memory of its own, which holds junk by the seed.
    Start {
        settings: Settings,
        seed: u64,
    },
    Retune {
        rate: f64,
        coefficient: f64,
    },
    Reset,
    Silent,
    Tick(Tick),
}

impl Call {
    /// A start in a memory of its own, of `lent` places.
    pub fn start_in(lent: usize, settings: Settings, seed: u64) -> Self {
        Self {
            state: junk_state(),
            planted: None,
            lent,
            what: What::Start { settings, seed },
        }
    }

    /// The documents' order: start 1, 2, 3; retune 4, 1, 2, 3; reset 4, 3; silent 4; tick 4, 3, 5, 6.
    pub fn number(&self) -> u32 {
        let state = (table::STATE, misfits(&self.state));
        let sample_rate = |rate: f64| (table::SAMPLE_RATE, table::sample_rate(rate));
        let coefficient = |c: f64| (table::COEFFICIENT, table::coefficient(c));
        let memory = |length: u64| {
            let short = table::memory(self.lent as u64, 1, length);
            (table::MEMORY, short)
        };
        let memory_now = memory(length(&self.state));
        match &self.what {
            What::Start { settings, .. } => table::first(&[
                sample_rate(settings.sample_rate),
                coefficient(settings.delay_smooth_coef),
                memory(places(settings)),
            ]),
            What::Retune {
                rate,
                coefficient: new,
            } => table::first(&[
                state,
                sample_rate(*rate),
                coefficient(*new),
                memory(table::delay_length(*rate, self.state.max_delay_secs)),
            ]),
            What::Reset => table::first(&[state, memory_now]),
            What::Silent => table::first(&[state]),
            What::Tick(t) => {
                let [control, curve] = causes(t, self.state.linear_time != 0);
                table::first(&[state, memory_now, control, curve])
            }
        }
    }

    pub fn shown(&self) -> String {
        let mut lines = self.what.shown();
        if let Some((place, value)) = self.planted {
            lines += &format!("\n  place {place} {}", shown(&[("planted", value)]));
        }
        let State {
            write_pos,
            nonzero_places,
            delay_primed,
            linear_time,
            ..
        } = self.state;
        let numbers = shown(&[
            ("distance", self.state.smoothed_delay),
            ("rate", self.state.sample_rate),
            ("coefficient", self.state.delay_smooth_coef),
            ("maximum", self.state.max_delay_secs),
        ]);
        let lent = self.lent;
        lines
            + &format!(
                "\n  position {write_pos}, count {nonzero_places}\n  primed {delay_primed:#x}, linear {linear_time:#x}\n  {numbers}\n  {lent} places"
            )
    }
}

impl What {
    fn shown(&self) -> String {
        match self {
            What::Start { settings, seed } => format!(
                "start, junk {seed}, linear {:#x}:\n  {}",
                settings.linear_time,
                shown(&[
                    ("new rate", settings.sample_rate),
                    ("new coefficient", settings.delay_smooth_coef),
                    ("new maximum", settings.max_delay_secs),
                ])
            ),
            What::Retune { rate, coefficient } => format!(
                "retune:\n  {}",
                shown(&[("new rate", *rate), ("new coefficient", *coefficient)])
            ),
            What::Reset => "reset:".into(),
            What::Silent => "silent:".into(),
            What::Tick(t) => {
                let [audio, time, feedback, mix] = t.ports;
                let numbers = shown(&[
                    ("audio", audio),
                    ("time", time),
                    ("feedback", feedback),
                    ("mix", mix),
                    ("milliseconds", t.milliseconds),
                ]);
                format!("tick:\n  set {:#x}\n  {numbers}", t.set)
            }
        }
    }
}

fn misfits(state: &State) -> bool {
    let length = length(state);
    table::sample_rate(state.sample_rate)
        || table::maximum(state.max_delay_secs)
        || table::position(state.write_pos, length)
        || table::count(state.nonzero_places, length)
        || table::coefficient(state.delay_smooth_coef)
        || table::distance(state.delay_primed != 0, state.smoothed_delay, length)
}

/// The ports as document 01 has them, each a number or unset.
pub fn read(t: &Tick) -> [Option<f64>; MOST_PORTS] {
    std::array::from_fn(|i| (t.set >> i & 1 == 1).then_some(t.ports[i]))
}

/// Causes 5 and 6, in the order of a tick: which mode reads the time, and which the milliseconds.
pub fn causes(t: &Tick, linear: bool) -> [(u32, bool); 2] {
    let [_audio, time, feedback, mix] = read(t);
    let control = table::control(feedback) || table::control(mix) || linear && table::control(time);
    let curve = !linear && table::curve(t.milliseconds);
    [(table::CONTROL, control), (table::CURVE, curve)]
}
