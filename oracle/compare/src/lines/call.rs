//! A call of an effect with lines, and its number by the table.

use super::{junk_state, length, needed, Effect};
use crate::bits::shown;
use crate::table;
use room_effects::{State, Tick};

pub struct Call {
    /// What the call is handed: the unit's own, another one that fits, or one that must be refused. For a start of no account.
    pub state: State,
    /// What the host writes to a place of the unit's memory before the call: a line may hold any float.
    pub planted: Option<(usize, f64)>,
    /// How many places it is lent.
    pub lent: usize,
    pub what: What,
}

pub enum What {
    /// In memory of its own, which holds junk by the seed.
    Start {
        rate: f64,
        seed: u64,
    },
    Retune(f64),
    Reset,
    Silent,
    Tick(Tick),
}

impl Call {
    /// A start in a memory of its own, of `lent` places.
    pub fn start_in(lent: usize, rate: f64, seed: u64) -> Self {
        Self {
            state: junk_state(),
            planted: None,
            lent,
            what: What::Start { rate, seed },
        }
    }

    /// The documents' order: start 1, 3; retune 4, 1, 3; reset 4, 3; silent 4; tick 4, 3, 5, 6.
    pub fn number<E: Effect>(&self) -> u32 {
        let state = (table::STATE, misfits::<E>(&self.state));
        let sample_rate = |rate: f64| (table::SAMPLE_RATE, table::sample_rate(rate));
        let memory = |rate: f64| {
            let length = length::<E>(rate);
            let short = table::memory(self.lent as u64, E::LINES as u64, length);
            (table::MEMORY, short)
        };
        let memory_now = memory(self.state.sample_rate);
        match &self.what {
            What::Start { rate, .. } => table::first(&[sample_rate(*rate), memory(*rate)]),
            What::Retune(rate) => table::first(&[state, sample_rate(*rate), memory(*rate)]),
            What::Reset => table::first(&[state, memory_now]),
            What::Silent => table::first(&[state]),
            What::Tick(t) => {
                let [control, curve] = E::FORM.causes(t);
                table::first(&[state, memory_now, control, curve])
            }
        }
    }

    pub fn shown<E: Effect>(&self) -> String {
        let mut lines = match &self.what {
            What::Start { rate, seed } => {
                format!("start, junk {seed}:\n  {}", shown(&[("rate", *rate)]))
            }
            What::Retune(rate) => format!("retune:\n  {}", shown(&[("new rate", *rate)])),
            What::Reset => "reset:".into(),
            What::Silent => "silent:".into(),
            What::Tick(t) => format!("tick:\n  {}", E::FORM.listed(t)),
        };
        if let Some((place, value)) = self.planted {
            lines += &format!("\n  place {place} {}", shown(&[("planted", value)]));
        }
        let State {
            write_pos,
            nonzero_places,
            phases,
            sample_rate,
        } = self.state;
        let phases = shown(&phases.map(|phase| ("phase", phase))[..E::STEPS.len()]);
        let rate = shown(&[("rate", sample_rate)]);
        let lent = self.lent;
        lines
            + &format!(
                "\n  position {write_pos}, count {nonzero_places}\n  {phases}\n  {rate}\n  {lent} places"
            )
    }
}

fn misfits<E: Effect>(state: &State) -> bool {
    table::sample_rate(state.sample_rate)
        || table::position(state.write_pos, length::<E>(state.sample_rate))
        || table::count(state.nonzero_places, needed::<E>(state.sample_rate) as u64)
        || state.phases[..E::STEPS.len()]
            .iter()
            .copied()
            .any(table::phase)
}
