//! Calls for a reverb: mostly ticks, now and then one that must be refused.

use super::call::{Call, What};
use super::{wild, Reverb};
use crate::counts;
use crate::random::Random;
use crate::table::as_position;
use crate::table::{self, TANK, TANK_PLACES};
use room_effects::reverb::{State, Tick, LINES, STORES};

impl Reverb {
    /// Clearings are much rarer than a line is long, so that most reads find what ticks have stored.
    pub fn drawn(&self, random: &mut Random) -> Call {
        if random.one_in(8 * self.lengths()[0]) {
            return self.clearing(random);
        }
        let state = match random.below(4096) {
            0..=31 => return self.wrong(random),
            32..=37 => return self.question(random),
            38..=101 => self.at_any_state(random),
            102..=105 => self.at_other_rate(random),
            106..=361 => self.at_any_count(random),
            _ => self.ordinary_state(random),
        };
        let t = tick(state.sample_rate, random);
        let mut call = self.lent_enough(state, What::Tick(t), random);
        call.planted = self.planted(&state, random);
        // The host counts what it plants, unless the call is to be handed another count.
        if state.nonzero_places == self.state.nonzero_places {
            call.state.nonzero_places = self.memory.count_with(&call.planted);
        }
        call
    }

    fn in_use(&self) -> u64 {
        self.lengths().iter().sum()
    }

    /// The unit's own with another count: that of no memory that it has.
    fn at_any_count(&self, random: &mut Random) -> State {
        State {
            nonzero_places: counts::drawn(self.in_use(), random),
            ..self.ordinary_state(random)
        }
    }

    /// The unit's own, mostly with ordinary stores in place of others: those would stay.
    fn ordinary_state(&self, random: &mut Random) -> State {
        let mut state = self.state;
        for comb in 0..STORES {
            let store = state.store_mut(comb);
            if wild(*store) && !random.one_in(3) {
                *store = random.ordinary_audio();
            }
        }
        state
    }

    /// Any float now and then, where this tick reads it or anywhere, and mostly ordinary ones over the other kind that the last
    /// tick stored.
    fn planted(&self, state: &State, random: &mut Random) -> Vec<(usize, f64)> {
        let mut planted = Vec::new();
        if !self.wild.is_empty() && !random.one_in(3) {
            planted.extend(self.wild.iter().map(|at| (*at, random.ordinary_audio())));
        }
        if random.one_in(64) {
            let line = random.below(LINES as u64) as usize;
            let (start, count) = TANK[line];
            let next = (state.positions()[line] as usize).min(count - 1);
            let any = random.below(self.memory.count() as u64) as usize;
            planted.push((random.of(&[start + next, any]), random.audio()));
        }
        planted
    }

    /// A call that is lent all the unit's memory or, now and then, no more of it than it needs.
    fn lent_enough(&self, state: State, what: What, random: &mut Random) -> Call {
        let mut lent = self.memory.count();
        if random.one_in(16) {
            lent = lent.min(TANK_PLACES);
        }
        Call {
            state,
            planted: Vec::new(),
            lent,
            what,
        }
    }

    /// A start, a retune or a reset.
    fn clearing(&self, random: &mut Random) -> Call {
        let state = match random.below(4) {
            0 => self.at_any_state(random),
            1 => self.at_other_rate(random),
            _ => self.state,
        };
        let what = match random.below(4) {
            0 => {
                let spare = random.of(&[0, 0, 1, 17, 1_000]);
                let rate = random.sample_rate();
                return Call::start_in(TANK_PLACES + spare, rate, random.bits());
            }
            1..=2 => What::Retune(self.new_rate(random)),
            _ => What::Reset,
        };
        self.lent_enough(state, what, random)
    }

    fn new_rate(&self, random: &mut Random) -> f64 {
        let any = random.sample_rate();
        random.of(&[self.state.sample_rate, any, any, any])
    }

    /// Some of the arguments wrong, several at once too, so that the order of the causes shows; of a tick now and then none. A
    /// clearing that nothing else is wrong with is lent too little: too many of them, and most reads would find +0.
    fn wrong(&self, random: &mut Random) -> Call {
        let rate = if random.one_in(2) {
            random.wrong_sample_rate()
        } else {
            self.new_rate(random)
        };
        let state = if random.one_in(3) {
            self.wrong_state(random)
        } else {
            self.state
        };
        let what = match random.below(8) {
            0 => What::Start {
                rate,
                seed: random.bits(),
            },
            1 => What::Retune(rate),
            2 => What::Reset,
            3 => What::Silent,
            _ => What::Tick(wrong_tick(self.state.sample_rate, random)),
        };
        let mut call = Call {
            state,
            planted: Vec::new(),
            lent: self.memory.count(),
            what,
        };
        let clears = !matches!(call.what, What::Silent | What::Tick(_));
        if random.one_in(3) || clears && call.number() == 0 {
            let any = random.below(TANK_PLACES as u64) as usize;
            call.lent = random.of(&[TANK_PLACES - 1, TANK_PLACES - 1, 0, any]);
        }
        call
    }

    /// A state that the test refuses, by one of its positions or several, by its rate, by its count or by several of these.
    fn wrong_state(&self, random: &mut Random) -> State {
        let mut state = self.at_any_state(random);
        let lengths = self.lengths();
        let wrong = 1 + random.below(15);
        if wrong & 3 != 0 {
            for _ in 0..random.of(&[1, 1, 1, 2, 5]) {
                let line = random.below(LINES as u64) as usize;
                *state.position_mut(line) = random.wrong_position(lengths[line]);
            }
        }
        if wrong & 4 != 0 {
            state.sample_rate = random.wrong_sample_rate();
        }
        if wrong & 8 != 0 {
            state.nonzero_places = counts::wrong(self.in_use(), random);
        }
        state
    }

    /// Other positions, the ends of the lines among them, and stores of any float.
    fn at_any_state(&self, random: &mut Random) -> State {
        let mut state = self.state;
        for (line, length) in self.lengths().into_iter().enumerate() {
            let own = state.positions()[line];
            let any = as_position(random.below(length));
            *state.position_mut(line) = random.of(&[own, own, 0, as_position(length - 1), any]);
        }
        for comb in 0..STORES {
            if random.one_in(4) {
                *state.store_mut(comb) = random.mostly_ordinary_audio();
            }
        }
        state
    }

    /// The state of a unit at another rate; now and then a position is at its line's length or beyond.
    fn at_other_rate(&self, random: &mut Random) -> State {
        let sample_rate = random.sample_rate();
        let lengths = table::tank_lengths(sample_rate);
        let mut state = State {
            nonzero_places: counts::drawn(lengths.iter().sum(), random),
            sample_rate,
            ..self.state
        };
        for (line, length) in lengths.into_iter().enumerate() {
            let beyond = u64::from(random.one_in(200));
            *state.position_mut(line) = as_position(random.below(length) + beyond * length);
        }
        state
    }

    /// Whether a unit is silent, by its own count or by any other, with stores that mostly are zeros.
    fn question(&self, random: &mut Random) -> Call {
        let (own, other) = (self.state, self.at_any_count(random));
        let mut state = self.at_quiet_stores(random);
        state.nonzero_places = random.of(&[own, other]).nonzero_places;
        self.lent_enough(state, What::Silent, random)
    }

    /// The unit's state with stores of +0 and −0, mostly all of them, else but for one; now and then with its own.
    fn at_quiet_stores(&self, random: &mut Random) -> State {
        let mut state = self.state;
        if random.one_in(8) {
            return state;
        }
        for comb in 0..STORES {
            *state.store_mut(comb) = random.of(&[0.0, -0.0]);
        }
        if random.one_in(3) {
            *state.store_mut(random.below(STORES as u64) as usize) = random.audio();
        }
        state
    }
}

/// A tick that a unit at this rate accepts, its audio mostly ordinary. What is not finite doesn't get into the tank, what is
/// merely huge does, and goes round there. Each port is unset one time in five, and its number is then any; now and then the
/// mask's other bits are set.
pub fn tick(rate: f64, random: &mut Random) -> Tick {
    let mut t = if random.one_in(16) {
        tick_at_ends(random)
    } else {
        ordinary_tick(rate, random)
    };
    let audio = &mut t.ports[0];
    if audio.is_finite() && wild(*audio) && !random.one_in(64) {
        *audio = random.ordinary_audio();
    }
    t
}

fn ordinary_tick(rate: f64, random: &mut Random) -> Tick {
    let mut t = Tick {
        set: if random.one_in(8) {
            random.bits() as u32 & !31
        } else {
            0
        },
        ports: [
            random.mostly_ordinary_audio(),
            random.control(),
            random.control(),
            random.control(),
            predelay(rate, random),
        ],
    };
    for (i, value) in t.ports.iter_mut().enumerate() {
        if random.one_in(5) {
            *value = random.any();
        } else {
            t.set |= 1 << i;
        }
    }
    t
}

/// Controls at the ends of their range.
fn tick_at_ends(random: &mut Random) -> Tick {
    let mut end = || random.of(&[0.0, -0.0, 1.0]);
    let controls = [(); 4].map(|()| end());
    let [size, damping, mix, predelay] = controls;
    Tick {
        set: 31,
        ports: [random.extreme(), size, damping, mix, predelay],
    }
}

/// Any delay, or one at a whole number of samples.
fn predelay(rate: f64, random: &mut Random) -> f64 {
    if random.one_in(3) {
        return random.control();
    }
    let most = (rate / 10.0) as u64 + 2;
    let whole = random.below(most) as f64 / (rate / 10.0);
    random.of(&[whole, whole.next_up(), whole.next_down()])
}

/// Some of the controls wrong, several at once too; now and then none.
fn wrong_tick(rate: f64, random: &mut Random) -> Tick {
    let mut t = tick(rate, random);
    for control in &mut t.ports[1..] {
        if random.one_in(4) {
            *control = random.wrong_control();
        }
    }
    t
}
