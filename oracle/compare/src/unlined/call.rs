//! A call of an effect without lines, and its number by the table.

use crate::bits::shown;
use crate::table;
use crate::tick::Form;
use room_effects::unlined::State;
use room_effects::Tick;
use std::fmt::Debug;

/// A state is what the call is handed: the unit's own, another one that fits, or one that must be refused.
pub enum Call<Way, const N: usize> {
    Start(f64),
    Reset(State<N>),
    Silent(State<N>),
    Tick(State<N>, Tick, Way),
}

impl<Way: Debug, const N: usize> Call<Way, N> {
    /// Document 01's order: start 1; reset and silent 4; tick 4, 5, 6.
    pub fn number(&self, form: &Form) -> u32 {
        match self {
            Call::Start(rate) => table::first(&[(table::SAMPLE_RATE, table::sample_rate(*rate))]),
            Call::Reset(state) | Call::Silent(state) => {
                table::first(&[(table::STATE, misfits(state))])
            }
            Call::Tick(state, t, _) => {
                let [control, curve] = form.causes(t);
                table::first(&[(table::STATE, misfits(state)), control, curve])
            }
        }
    }

    pub fn shown(&self, form: &Form) -> String {
        let of = |state: &State<N>| {
            let mut numbers = state.stores.map(|store| ("store", store)).to_vec();
            numbers.extend([("phase", state.lfo_phase), ("rate", state.sample_rate)]);
            shown(&numbers)
        };
        match self {
            Call::Start(rate) => format!("start:\n  {}", shown(&[("rate", *rate)])),
            Call::Reset(state) => format!("reset:\n  {}", of(state)),
            Call::Silent(state) => format!("silent:\n  {}", of(state)),
            Call::Tick(state, t, way) => {
                format!("tick, {way:?}:\n  {}\n  {}", of(state), form.listed(t))
            }
        }
    }
}

/// "rate as in 1; every phase at least 0 and below 1". What an effect stores may be any float.
fn misfits<const N: usize>(state: &State<N>) -> bool {
    table::sample_rate(state.sample_rate) || table::phase(state.lfo_phase)
}
