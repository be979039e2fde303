//! Calls for a unit without lines: mostly ticks, now and then one that must be refused.

use super::call::Call;
use super::{Effect, Unlined};
use crate::random::Random;
use room_effects::unlined::State;
use room_effects::Tick;

impl<E: Effect<N>, const N: usize> Unlined<E, N> {
    pub fn drawn(&self, random: &mut Random) -> Call<E::Way, N> {
        let (t, way) = E::draw(random);
        let state = match random.below(1024) {
            0..=1 => return Call::Start(random.sample_rate()),
            2 => return Call::Start(random.wrong_sample_rate()),
            3 => return Call::Start(random.any()),
            4..=5 => return Call::Reset(self.ours),
            6 => return Call::Reset(self.at_any_state(random)),
            7 => return Call::Reset(self.wrong_state(random)),
            8 => return Call::Silent(self.ours),
            9..=10 => return Call::Silent(self.quiet(random)),
            11 => return Call::Silent(self.wrong_state(random)),
            12..=31 => return self.wrong_tick(random),
            32..=55 => self.at_any_state(random),
            56..=63 => self.near_wrap(&t, random),
            _ => self.ordinary_state(random),
        };
        Call::Tick(state, t, way)
    }

    /// The unit's own, mostly with ordinary numbers in place of others, if there are any: those would stay, and spread until all
    /// is NaN.
    fn ordinary_state(&self, random: &mut Random) -> State<N> {
        let mut state = self.ours;
        if state.stores.iter().any(|store| wild(*store)) && !random.one_in(3) {
            let wild = state.stores.iter_mut().filter(|store| wild(**store));
            wild.for_each(|store| *store = random.ordinary_audio());
        }
        state
    }

    /// Another phase, any floats in some of the stores, and now and then another rate.
    fn at_any_state(&self, random: &mut Random) -> State<N> {
        let mut state = State {
            lfo_phase: random.phase(),
            ..self.ours
        };
        for store in &mut state.stores {
            if random.one_in(4) {
                *store = random.mostly_ordinary_audio();
            }
        }
        if random.one_in(8) {
            state.sample_rate = random.sample_rate();
        }
        state
    }

    /// A phase that the tick takes to 1, or just short of it or beyond.
    fn near_wrap(&self, t: &Tick, random: &mut Random) -> State<N> {
        State {
            lfo_phase: random.phase_near_wrap(t.frequency / self.ours.sample_rate),
            ..self.ours
        }
    }

    /// Another phase, and zeros of either sign in the stores, but mostly for one.
    fn quiet(&self, random: &mut Random) -> State<N> {
        let mut state = State {
            lfo_phase: random.phase(),
            ..self.ours
        };
        state.stores = state.stores.map(|_| random.of(&[0.0, -0.0]));
        let any = random.below(N as u64 + 1) as usize;
        if let Some(store) = state.stores.get_mut(any) {
            *store = random.audio();
        }
        state
    }

    /// A state that the test refuses, by its phase, its rate or both.
    fn wrong_state(&self, random: &mut Random) -> State<N> {
        let mut state = self.at_any_state(random);
        let wrong = random.below(4);
        if wrong != 0 {
            state.lfo_phase = random.wrong_phase();
        }
        if wrong < 2 {
            state.sample_rate = random.wrong_sample_rate();
        }
        state
    }

    /// A tick with its state, some of its other arguments, or several of them wrong; now and then none.
    fn wrong_tick(&self, random: &mut Random) -> Call<E::Way, N> {
        let state = if random.one_in(4) {
            self.wrong_state(random)
        } else {
            self.ours
        };
        Call::Tick(state, E::FORM.draw_wrong(random), E::ANY_WAY)
    }
}

/// Not what ordinary audio mostly comes to.
fn wild(x: f64) -> bool {
    !(x.abs() < 1e6)
}
