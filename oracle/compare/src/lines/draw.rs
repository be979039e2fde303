//! Calls for a unit with lines: mostly ticks, now and then one that must be refused.

use super::call::{Call, What};
use super::{length, needed, Effect, Lines};
use crate::counts;
use crate::random::Random;
use crate::table;
use crate::table::as_position;
use room_effects::{State, Tick};

impl<E: Effect> Lines<E> {
    pub fn drawn(&self, random: &mut Random) -> Call {
        // Clearings are rarer than a line is long, so that most reads find what ticks have stored.
        if random.one_in(2 * self.length()) {
            return self.clearing(random);
        }
        let t = tick::<E>(random);
        let state = match random.below(1024) {
            0..=31 => return self.wrong(random),
            32..=39 => return self.question(random),
            40..=63 => self.at_any_state(random),
            64..=71 => self.near_wrap(&t, random),
            72..=73 => self.at_another_rate(random),
            74..=137 => self.at_any_count(random),
            _ => self.state,
        };
        let call = self.lent_enough(state, What::Tick(t), random);
        self.counted_in(call, random)
    }

    /// The call with what the host plants before it, if anything: that counts in the state, unless it is to be handed another count.
    fn counted_in(&self, mut call: Call, random: &mut Random) -> Call {
        call.planted = self.planted(random);
        if call.state.nonzero_places == self.state.nonzero_places {
            call.state.nonzero_places = self.memory.count_with(call.planted.as_slice());
        }
        call
    }

    /// Any float now and then. Where the line feeds back, mostly an ordinary one over the other kind that the last tick stored.
    fn planted(&self, random: &mut Random) -> Option<(usize, f64)> {
        if let Some(place) = self.last_wild().filter(|_| !random.one_in(3)) {
            return Some((place, random.ordinary_audio()));
        }
        random.one_in(64).then(|| {
            let place = random.below(self.memory.count() as u64);
            (place as usize, random.audio())
        })
    }

    /// Where the line feeds back: a place that the last tick wrote, if what it holds is not ordinary.
    fn last_wild(&self) -> Option<usize> {
        let length = self.length() as usize;
        let last = (self.state.write_pos as usize + length - 1) % length;
        let mut places = (0..E::LINES).map(|line| line * length + last);
        let memory = self.memory.shown(self.memory.count());
        places.find(|place| E::FEEDS_BACK && wild(memory[*place]))
    }

    /// A call that is lent all the unit's memory or, now and then, no more of it than it needs.
    fn lent_enough(&self, state: State, what: What, random: &mut Random) -> Call {
        let mut lent = self.memory.count();
        if random.one_in(16) {
            lent = lent.min(needed::<E>(rate_in_force(&state, &what)));
        }
        Call {
            state,
            planted: None,
            lent,
            what,
        }
    }

    /// A start, a retune or a reset, accepted unless a retune wants more memory than there is.
    fn clearing(&self, random: &mut Random) -> Call {
        let state = match random.below(4) {
            0 => self.at_any_state(random),
            1 => self.at_another_rate(random),
            _ => self.state,
        };
        let what = match random.below(4) {
            0 => return start::<E>(random.sample_rate(), random),
            1..=2 => What::Retune(self.new_rate(random)),
            _ => What::Reset,
        };
        self.lent_enough(state, what, random)
    }

    /// A rate to go to: the same, any, one that the memory suffices for, one at which it just does or just does not.
    fn new_rate(&self, random: &mut Random) -> f64 {
        match random.below(4) {
            0 => self.state.sample_rate,
            1 => random.sample_rate(),
            2 => self.rate_that_fits(random),
            _ => {
                let length = (self.memory.count() / E::LINES) as u64 + random.below(2);
                let rate = (length - 10) as f64 * 1_000.0 / E::N_OF_LENGTH;
                random.of(&[rate, rate.next_up(), rate.next_down()])
            }
        }
    }

    fn rate_that_fits(&self, random: &mut Random) -> f64 {
        let rate = random.sample_rate();
        if needed::<E>(rate) <= self.memory.count() {
            rate
        } else {
            random.within(8_000.0, self.state.sample_rate)
        }
    }

    /// Some of the arguments wrong, several at once too, so that the order of the causes shows; now and then none.
    fn wrong(&self, random: &mut Random) -> Call {
        let rate = if random.one_in(2) {
            random.wrong_sample_rate()
        } else {
            self.new_rate(random)
        };
        let what = match random.below(8) {
            0 => return wrong_start::<E>(rate, random),
            1 => What::Retune(rate),
            2 => What::Reset,
            3 => What::Silent,
            _ => What::Tick(E::FORM.draw_wrong(random)),
        };
        let state = if random.one_in(3) {
            self.wrong_state(random)
        } else {
            self.state
        };
        let mut lent = self.memory.count();
        if random.one_in(3) {
            lent = lent.min(short(needed::<E>(rate_in_force(&state, &what)), random));
        }
        Call {
            state,
            planted: None,
            lent,
            what,
        }
    }

    /// A state that the test refuses, by its position, a phase, its rate, its count or several of them.
    fn wrong_state(&self, random: &mut Random) -> State {
        let mut state = self.state;
        let wrong = 1 + random.below(15);
        if wrong & 1 != 0 {
            state.write_pos = random.wrong_position(self.length());
        }
        if wrong & 2 != 0 {
            state.phases[random.below(E::STEPS.len() as u64) as usize] = random.wrong_phase();
        }
        if wrong & 4 != 0 {
            state.sample_rate = random.wrong_sample_rate();
        }
        if wrong & 8 != 0 {
            let in_use = needed::<E>(self.state.sample_rate);
            state.nonzero_places = counts::wrong(in_use as u64, random);
        }
        state
    }

    /// Another count: that of no memory that the unit has.
    fn at_any_count(&self, random: &mut Random) -> State {
        let in_use = needed::<E>(self.state.sample_rate);
        State {
            nonzero_places: counts::drawn(in_use as u64, random),
            ..self.state
        }
    }

    /// Another position and other phases.
    fn at_any_state(&self, random: &mut Random) -> State {
        let last = self.length() - 1;
        let any = as_position(random.below(last + 1));
        State {
            write_pos: random.of(&[0, as_position(last), any, any]),
            ..self.with_phases(|_| random.phase())
        }
    }

    fn with_phases(&self, mut phase: impl FnMut(f64) -> f64) -> State {
        let mut state = self.state;
        for (own, step) in state.phases.iter_mut().zip(E::STEPS) {
            *own = phase(*step);
        }
        state
    }

    /// Phases that the tick takes to 1, or just short of it or beyond.
    fn near_wrap(&self, t: &Tick, random: &mut Random) -> State {
        let rate = self.state.sample_rate;
        self.with_phases(|step| random.phase_near_wrap(t.frequency * step / rate))
    }

    /// The state of a unit with shorter lines, or with longer ones than the memory has, or now and then than the position fits.
    fn at_another_rate(&self, random: &mut Random) -> State {
        let sample_rate = if random.one_in(4) {
            random.sample_rate()
        } else {
            self.rate_that_fits(random)
        };
        let length = length::<E>(sample_rate);
        State {
            write_pos: as_position(random.below(length + length / 16)),
            nonzero_places: counts::drawn(needed::<E>(sample_rate) as u64, random),
            sample_rate,
            ..self.state
        }
    }

    /// Whether a unit is silent, by its own count or by any other.
    fn question(&self, random: &mut Random) -> Call {
        let (own, other) = (self.state, self.at_any_count(random));
        let state = random.of(&[own, other]);
        self.lent_enough(state, What::Silent, random)
    }
}

/// Not what ordinary audio can come to.
fn wild(x: f64) -> bool {
    !(x.abs() < 1_000.0)
}

/// A tick that is accepted, its audio mostly ordinary. What is not finite doesn't get into a line that feeds back, what is
/// merely huge does.
pub fn tick<E: Effect>(random: &mut Random) -> Tick {
    let mut t = E::FORM.draw(random, Random::mostly_ordinary_audio);
    let audio = &mut t.ports[0];
    if E::FEEDS_BACK && audio.is_finite() && wild(*audio) && !random.one_in(16) {
        *audio = random.ordinary_audio();
    }
    t
}

/// The rate that the call's need of memory goes by.
fn rate_in_force(state: &State, what: &What) -> f64 {
    match what {
        What::Start { rate, .. } | What::Retune(rate) => *rate,
        _ => state.sample_rate,
    }
}

/// Too few places: one less than needed, none, or any number of them.
fn short(needed: usize, random: &mut Random) -> usize {
    let any = random.below(needed as u64) as usize;
    random.of(&[needed - 1, needed - 1, 0, any])
}

/// A start in as much memory as it needs, in a little more, or in as much as some other rate needs.
fn start<E: Effect>(rate: f64, random: &mut Random) -> Call {
    let exact = needed::<E>(rate);
    let spare = match random.below(3) {
        0 => 0,
        1 => random.below(20) as usize,
        _ => needed::<E>(random.sample_rate()).saturating_sub(exact),
    };
    Call::start_in(exact + spare, rate, random.bits())
}

/// A start that may be refused by its rate, by its memory or by both.
fn wrong_start<E: Effect>(rate: f64, random: &mut Random) -> Call {
    let fits = if table::sample_rate(rate) {
        random.sample_rate()
    } else {
        rate
    };
    let mut lent = needed::<E>(fits);
    if random.one_in(2) {
        lent = short(lent, random);
    }
    Call::start_in(lent, rate, random.bits())
}
