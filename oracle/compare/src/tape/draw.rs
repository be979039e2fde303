//! Calls for a tape delay: mostly halves in turn, now and then one that must be refused.

use super::arguments::{coefficient_at, low_rate, read_half, tanh};
use super::call::{Call, What};
use super::{length, Tape};
use crate::ages;
use crate::counts;
use crate::random::Random;
use crate::table::as_position;
use crate::table::TAPE_MAXIMUM;
use room_effects::tape_delay::{Read, State};

/// Clearings are so rare that most reads find what the host or a store half has written.
const SELDOM: u64 = 4_000;

/// How long a line is empty after a clearing: then the host fills it, since its end is further than a run gets.
const EMPTY: u64 = 128;

impl Tape {
    pub fn drawn(&self, random: &mut Random) -> Call {
        if random.one_in(SELDOM) {
            return self.clearing(random);
        }
        if self.empty && random.one_in(EMPTY) {
            return self.lent_all(self.state, What::Fill(random.bits()));
        }
        let state = match random.below(1024) {
            0..=7 => return self.wrong(random),
            8..=9 => return self.question(random),
            10..=41 => self.at_any_state(random),
            42 if random.one_in(16) => self.at_another_rate(random),
            43..=106 => self.at_any_count(random),
            _ => self.state,
        };
        self.half(state, random)
    }

    /// The half whose turn it is in this state, in which it is accepted but for a value that is a NaN.
    fn half(&self, state: State, random: &mut Random) -> Call {
        if state.waiting != 0 {
            let value = self.value(random);
            return self.lent_enough(state, What::Store(value), random);
        }
        let t = read_half(&state, random);
        let tanh = tanh(random);
        let mut call = self.lent_enough(state, What::Read(t, tanh), random);
        call.planted = self.planted(&state, &t, random);
        // The host counts what it plants, unless the call is to be handed another count.
        if state.nonzero_places == self.state.nonzero_places {
            call.state.nonzero_places = self.memory.count_with(call.planted.as_slice());
        }
        call
    }

    /// What the Rust saturates the sum to or, now and then, any other value; mostly that where there is a NaN.
    fn value(&self, random: &mut Random) -> f64 {
        let own = self.rest.map(|rest| rest.saturated);
        let other = random.curve();
        own.filter(|own| !random.one_in(if own.is_nan() { 2 } else { 64 }))
            .unwrap_or(other)
    }

    /// Any float now and then: anywhere, or at or beside a place that is read. (A line that is longer than the memory is refused.)
    fn planted(&self, state: &State, t: &Read, random: &mut Random) -> Option<(usize, f64)> {
        if !random.one_in(64) {
            return None;
        }
        let count = self.memory.count() as u64;
        let length = length(state.sample_rate);
        let back = ages::tape(state, t, length) as u64 + random.below(3);
        let read = (u64::from(state.write_pos) + 2 * length + 1 - back) % length;
        let any = random.below(count);
        let place = random.of(&[any, read, read]);
        let value = random.audio();
        (place < count).then_some((place as usize, value))
    }

    fn lent_all(&self, state: State, what: What) -> Call {
        Call {
            state,
            planted: None,
            lent: self.memory.count(),
            what,
        }
    }

    /// A call that is lent all the unit's memory or, now and then, no more of it than it needs.
    fn lent_enough(&self, state: State, what: What, random: &mut Random) -> Call {
        let mut call = self.lent_all(state, what);
        if random.one_in(16) {
            call.lent = call.lent.min(needed(&call));
        }
        call
    }

    /// A start, a retune or a reset, accepted unless it wants more memory than there is.
    fn clearing(&self, random: &mut Random) -> Call {
        let state = match random.below(4) {
            0 => self.at_any_state(random),
            1 => self.at_another_rate(random),
            _ => self.state,
        };
        let what = match random.below(4) {
            0 => return start(random),
            1..=2 => {
                let rate = self.new_rate(&state, random);
                What::Retune {
                    rate,
                    coefficient: coefficient_at(rate, random),
                }
            }
            _ => What::Reset,
        };
        self.lent_enough(state, what, random)
    }

    /// A rate to go to: the same, any, one at which the memory just suffices or just does not.
    fn new_rate(&self, state: &State, random: &mut Random) -> f64 {
        match random.below(4) {
            0 => state.sample_rate,
            1 => random.sample_rate(),
            2 => low_rate(random),
            _ => {
                let whole = self.memory.count() as u64 - random.below(2);
                let rate = whole as f64 / TAPE_MAXIMUM;
                random.of(&[rate, rate.next_up(), rate.next_down()])
            }
        }
    }

    /// Some of the arguments wrong, several at once too, so that the order of the causes shows; of a half now and then none. A
    /// clearing that nothing else is wrong with is lent too little: too many of them, and most reads would find +0.
    fn wrong(&self, random: &mut Random) -> Call {
        let rate = if random.one_in(2) {
            random.wrong_sample_rate()
        } else {
            self.new_rate(&self.state, random)
        };
        let coefficient = if random.one_in(2) {
            random.wrong_coefficient()
        } else {
            random.coefficient()
        };
        let state = if random.one_in(3) {
            self.wrong_state(random)
        } else {
            self.state
        };
        let what = match random.below(8) {
            0 => return wrong_start(rate, coefficient, random),
            1 => What::Retune { rate, coefficient },
            2 => What::Reset,
            3 => What::Silent,
            _ => self.wrong_half(random),
        };
        let mut call = self.lent_all(state, what);
        let clears = matches!(call.what, What::Retune { .. } | What::Reset);
        if random.one_in(3) || clears && call.number() == 0 {
            let short = short(needed(&call), random);
            call.lent = call.lent.min(short);
        }
        call
    }

    /// Either half, whosever turn it is, its controls or its value wrong or not.
    fn wrong_half(&self, random: &mut Random) -> What {
        if random.one_in(2) {
            let value = if random.one_in(2) {
                random.wrong_curve()
            } else {
                self.value(random)
            };
            return What::Store(value);
        }
        let mut t = read_half(&self.state, random);
        for control in &mut t.ports[1..] {
            if random.one_in(4) {
                *control = random.wrong_control();
            }
        }
        What::Read(t, tanh(random))
    }

    /// A state that the test refuses, by its position, its distance, its rate, its coefficient, what it keeps, its count or several of
    /// them.
    fn wrong_state(&self, random: &mut Random) -> State {
        let mut state = self.state;
        let wrong = 1 + random.below(63);
        if wrong & 1 != 0 {
            state.write_pos = random.wrong_position(self.length());
        }
        if wrong & 2 != 0 {
            state.delay_primed = random.flag();
            state.smoothed_delay = if state.delay_primed != 0 {
                random.wrong_distance(self.length())
            } else {
                random.no_plus_zero()
            };
        }
        if wrong & 4 != 0 {
            state.sample_rate = random.wrong_sample_rate();
        }
        if wrong & 8 != 0 {
            state.delay_smooth_coef = random.wrong_coefficient();
        }
        if wrong & 16 != 0 {
            state.waiting = random.flag();
            if state.waiting != 0 {
                state.kept = [random.audio(), random.audio(), random.wrong_mix()];
            } else {
                state.kept[random.below(3) as usize] = random.no_plus_zero();
            }
        }
        if wrong & 32 != 0 {
            state.nonzero_places = counts::wrong(self.length(), random);
        }
        state
    }

    /// Another count: that of no memory that the unit has.
    fn at_any_count(&self, random: &mut Random) -> State {
        State {
            nonzero_places: counts::drawn(self.length(), random),
            ..self.state
        }
    }

    /// Another position, another glide, another coefficient, and a read that waits or not, whatever it has kept; flags that are on
    /// otherwise.
    fn at_any_state(&self, random: &mut Random) -> State {
        let last = self.length() - 1;
        let (own, any) = (self.state.write_pos, as_position(random.below(last + 1)));
        let primed = random.flag();
        let waiting = random.flag();
        State {
            write_pos: random.of(&[own, own, own, 0, as_position(last), any]),
            delay_primed: primed,
            smoothed_delay: if primed != 0 {
                random.distance(self.length())
            } else {
                0.0
            },
            delay_smooth_coef: random.coefficient(),
            waiting,
            kept: if waiting != 0 {
                let mix = random.within(0.0, 1.0);
                let mix = random.of(&[mix, mix, 0.0, -0.0, 1.0]);
                [random.audio(), random.audio(), mix]
            } else {
                [0.0; 3]
            },
            ..self.state
        }
    }

    /// The state of a unit at another rate: with a shorter line or, now and then, a longer one than the memory has.
    fn at_another_rate(&self, random: &mut Random) -> State {
        let sample_rate = low_rate(random);
        let length = length(sample_rate);
        State {
            write_pos: as_position(random.below(length + length / 16)),
            nonzero_places: counts::drawn(length, random),
            smoothed_delay: random.distance(length),
            delay_primed: 1,
            sample_rate,
            ..self.state
        }
    }

    /// Whether a unit is silent, by its own count or by any other, a read waiting or not.
    fn question(&self, random: &mut Random) -> Call {
        let (own, any, other) = (
            self.state,
            self.at_any_state(random),
            self.at_any_count(random),
        );
        let none = State {
            nonzero_places: 0,
            ..any
        };
        let state = random.of(&[own, any, none, other]);
        self.lent_enough(state, What::Silent, random)
    }
}

/// The places that the call needs.
fn needed(call: &Call) -> usize {
    let rate = match call.what {
        What::Start { rate, .. } | What::Retune { rate, .. } => rate,
        _ => call.state.sample_rate,
    };
    length(rate) as usize
}

/// Too few places: one less than needed, none, or any number of them.
fn short(needed: usize, random: &mut Random) -> usize {
    let any = random.below(needed as u64) as usize;
    random.of(&[needed - 1, needed - 1, 0, any])
}

/// A start in as much memory as it needs or in a little more, or in more than any low rate needs.
fn start(random: &mut Random) -> Call {
    let rate = low_rate(random);
    let needed = length(rate) as usize;
    let lent = random.of(&[needed, needed + 1, needed + 17, 148_000]);
    Call::start_in(lent, rate, coefficient_at(rate, random), random.bits())
}

/// A start that is refused by its rate, its coefficient, its memory or several of them. Where the memory is not one place short, it
/// is small.
fn wrong_start(rate: f64, coefficient: f64, random: &mut Random) -> Call {
    let small = random.below(64) as usize;
    let mut call = Call::start_in(small, rate, coefficient, random.bits());
    let needed = needed(&call);
    if random.one_in(4) && needed < 200_000 {
        call.lent = needed - 1;
    }
    call
}
