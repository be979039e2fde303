//! Calls for a delay: mostly ticks, now and then one that must be refused.

use super::arguments::{coefficient_at, settings, tick, wild, wrong_tick};
use super::call::{Call, What};
use super::{length, places, Delay, LONGEST};
use crate::counts;
use crate::random::Random;
use crate::table;
use crate::table::as_position;
use room_effects::delay::{Settings, State};

/// Clearings are much rarer than a line is long, so that most reads find what ticks have stored; a short line counts as this long.
const SELDOM: u64 = 200;

/// No start is lent more places than this, so that the run goes on; the long line has a row of its own.
const MOST_LENT: u64 = 500_000;

impl<const LINEAR: bool> Delay<LINEAR> {
    pub fn drawn(&self, random: &mut Random) -> Call {
        if random.one_in(8 * self.length().max(SELDOM)) {
            return self.clearing(random);
        }
        let state = match random.below(1024) {
            0..=31 => return self.wrong(random),
            32..=39 => return self.question(random),
            40..=71 => self.at_any_state(random),
            72..=73 => self.at_other_settings(random),
            74..=137 => self.at_any_count(random),
            _ => self.state,
        };
        let t = tick(&state, random);
        let call = self.lent_enough(state, What::Tick(t), random);
        self.counted_in(call, random)
    }

    /// The call with what the host plants before it, if anything: that counts in the state, unless it is to be handed another count.
    fn counted_in(&self, mut call: Call, random: &mut Random) -> Call {
        call.planted = self.planted(random);
        if call.state.nonzero_places == self.state.nonzero_places {
            call.state.nonzero_places = self.memory.count_with(call.planted.as_slice());
        }
        call
    }

    /// Any float now and then, and mostly an ordinary one over the other kind that the last tick stored.
    fn planted(&self, random: &mut Random) -> Option<(usize, f64)> {
        if let Some(place) = self.last_wild().filter(|_| !random.one_in(3)) {
            return Some((place, random.ordinary_audio()));
        }
        random.one_in(64).then(|| {
            let place = random.below(self.memory.count() as u64);
            (place as usize, random.audio())
        })
    }

    /// The place that the last tick wrote, if what it holds is not ordinary: it would stay, and spread until all is NaN.
    fn last_wild(&self) -> Option<usize> {
        let length = self.length();
        let last = ((u64::from(self.state.write_pos) + length - 1) % length) as usize;
        Some(last).filter(|last| wild(self.memory.shown(self.memory.count())[*last]))
    }

    /// A call that is lent all the unit's memory or, now and then, no more of it than it needs.
    fn lent_enough(&self, state: State, what: What, random: &mut Random) -> Call {
        let mut lent = self.memory.count();
        if random.one_in(16) {
            lent = lent.min(needed(&state, &what));
        }
        Call {
            state,
            planted: None,
            lent,
            what,
        }
    }

    /// A start, a retune or a reset, accepted unless it wants more memory than there is.
    fn clearing(&self, random: &mut Random) -> Call {
        let state = match random.below(4) {
            0 => self.at_any_state(random),
            1 => self.at_other_settings(random),
            _ => self.state,
        };
        let what = match random.below(4) {
            0 => return start::<LINEAR>(random.sample_rate(), random),
            1..=2 => self.retune(&state, random),
            _ => What::Reset,
        };
        self.lent_enough(state, what, random)
    }

    fn retune(&self, state: &State, random: &mut Random) -> What {
        let rate = self.new_rate(state, random);
        What::Retune {
            rate,
            coefficient: coefficient_at(rate, random),
        }
    }

    /// A rate to go to: the same, any, one at which the memory just suffices or just does not.
    fn new_rate(&self, state: &State, random: &mut Random) -> f64 {
        match random.below(4) {
            0 => state.sample_rate,
            1 => random.sample_rate(),
            2 => random.within(8_000.0, state.sample_rate),
            _ => {
                let whole = self.memory.count() as u64 - random.below(2);
                let rate = whole as f64 / state.max_delay_secs;
                random.of(&[rate, rate.next_up(), rate.next_down()])
            }
        }
    }

    /// Some of the arguments wrong, several at once too, so that the order of the causes shows; of a tick now and then none. A
    /// clearing that nothing else is wrong with is lent too little: too many of them, and most reads would find +0.
    fn wrong(&self, random: &mut Random) -> Call {
        let rate = if random.one_in(2) {
            random.wrong_sample_rate()
        } else {
            self.new_rate(&self.state, random)
        };
        let coefficient = if random.one_in(2) {
            random.wrong_coefficient()
        } else {
            random.coefficient()
        };
        let state = if random.one_in(3) {
            self.wrong_state(random)
        } else {
            self.state
        };
        let what = match random.below(8) {
            0 => return wrong_start::<LINEAR>(rate, coefficient, random),
            1 => What::Retune { rate, coefficient },
            2 => What::Reset,
            3 => What::Silent,
            _ => What::Tick(wrong_tick(&self.state, random)),
        };
        let mut call = Call {
            state,
            planted: None,
            lent: self.memory.count(),
            what,
        };
        let clears = matches!(call.what, What::Retune { .. } | What::Reset);
        if random.one_in(3) || clears && call.number() == 0 {
            let short = short(needed(&call.state, &call.what), random);
            call.lent = call.lent.min(short);
        }
        call
    }

    /// A state that the test refuses, by its position, its distance, its rate, its coefficient, its maximum, its count or several of
    /// them.
    fn wrong_state(&self, random: &mut Random) -> State {
        let mut state = self.state;
        let wrong = 1 + random.below(63);
        if wrong & 1 != 0 {
            state.write_pos = random.wrong_position(self.length());
        }
        if wrong & 2 != 0 {
            state.delay_primed = random.flag();
            state.smoothed_delay = if state.delay_primed != 0 {
                random.wrong_distance(self.length())
            } else {
                random.no_plus_zero()
            };
        }
        if wrong & 4 != 0 {
            state.sample_rate = random.wrong_sample_rate();
        }
        if wrong & 8 != 0 {
            state.delay_smooth_coef = random.wrong_coefficient();
        }
        if wrong & 16 != 0 {
            state.max_delay_secs = random.wrong_maximum();
        }
        if wrong & 32 != 0 {
            state.nonzero_places = counts::wrong(self.length(), random);
        }
        state
    }

    /// Another count: that of no memory that the unit has.
    fn at_any_count(&self, random: &mut Random) -> State {
        State {
            nonzero_places: counts::drawn(self.length(), random),
            ..self.state
        }
    }

    /// Another position, another glide, another coefficient; now and then the other mode, and flags that are on otherwise.
    fn at_any_state(&self, random: &mut Random) -> State {
        let last = self.length() - 1;
        let (own, any) = (self.state.write_pos, as_position(random.below(last + 1)));
        let primed = random.flag();
        State {
            write_pos: random.of(&[own, own, own, 0, as_position(last), any]),
            delay_primed: primed,
            smoothed_delay: if primed != 0 {
                random.distance(self.length())
            } else {
                0.0
            },
            delay_smooth_coef: random.coefficient(),
            linear_time: if random.one_in(4) {
                random.flag()
            } else {
                u32::from(LINEAR)
            },
            ..self.state
        }
    }

    /// The state of a unit at another rate, with another maximum: a shorter line or, now and then, a longer one than the memory has.
    fn at_other_settings(&self, random: &mut Random) -> State {
        let sample_rate = random.sample_rate();
        let most = self.memory.count() as f64 / sample_rate;
        let maximum = random.within(0.001, most * 1.1).clamp(0.001, 60.0);
        let length = table::delay_length(sample_rate, maximum);
        State {
            write_pos: as_position(random.below(length + length / 16)),
            nonzero_places: counts::drawn(length, random),
            smoothed_delay: random.distance(length),
            delay_primed: 1,
            sample_rate,
            max_delay_secs: maximum,
            ..self.state
        }
    }

    /// Whether a unit is silent, by its own count or by any other.
    fn question(&self, random: &mut Random) -> Call {
        let (own, other) = (self.state, self.at_any_count(random));
        let state = random.of(&[own, other]);
        self.lent_enough(state, What::Silent, random)
    }
}

/// The places that the call needs.
fn needed(state: &State, what: &What) -> usize {
    let places = match what {
        What::Start { settings, .. } => places(settings),
        What::Retune { rate, .. } => table::delay_length(*rate, state.max_delay_secs),
        _ => length(state),
    };
    places as usize
}

/// Too few places: one less than needed, none, or any number of them.
fn short(needed: usize, random: &mut Random) -> usize {
    let any = random.below(needed as u64) as usize;
    random.of(&[needed - 1, needed - 1, 0, any])
}

/// A start in as much memory as it needs or in a little more; in too little where it needs very much.
fn start<const LINEAR: bool>(rate: f64, random: &mut Random) -> Call {
    let coefficient = coefficient_at(rate, random);
    let settings = settings::<LINEAR>(rate, coefficient, random);
    let spare = random.of(&[0, 0, 1, 17, 1_000]);
    Call::start_in(lendable(&settings) + spare, settings, random.bits())
}

fn lendable(settings: &Settings) -> usize {
    let needed = places(settings);
    let most = if needed > MOST_LENT { LONGEST } else { needed };
    most as usize
}

/// A start that is refused by its rate, its coefficient, its memory or several of them.
fn wrong_start<const LINEAR: bool>(rate: f64, coefficient: f64, random: &mut Random) -> Call {
    let fits = if table::sample_rate(rate) {
        random.sample_rate()
    } else {
        rate
    };
    let settings = Settings {
        sample_rate: rate,
        ..settings::<LINEAR>(fits, coefficient, random)
    };
    let at_fits = Settings {
        sample_rate: fits,
        ..settings
    };
    let lent = lendable(&at_fits);
    let mut call = Call::start_in(lent, settings, random.bits());
    if random.one_in(2) || call.number() == 0 {
        call.lent = short(lent, random);
    }
    call
}
