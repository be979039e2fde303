//! What the ticks get: numbers of every-day use that move from tick to tick. Few enough to stay in the cache.

use libm::timing::set_numbers;
use quiver_oracle::Effect;
use room_effects::{Tick, MOST, MOST_PORTS};

pub struct Input {
    /// Audio and three controls; what each control is, and whether there is a third, depends on the effect.
    pub ports: [f64; MOST_PORTS],
    pub frequency: f64,
    /// From −1 to 1: sines, or coefficients of all-passes.
    pub curves: [f64; MOST],
    /// Up to a second: the delay's curve number.
    pub milliseconds: f64,
}

impl Input {
    /// Leaves the curve numbers where the Rust's tick takes them.
    #[inline(always)]
    pub fn hand<const SINES: usize>(&self, rust: &mut impl Effect) {
        rust.plant_frequency(self.frequency);
        set_numbers::<SINES>(std::array::from_fn(|i| self.curves[i]));
    }

    /// The arguments of our tick, every port set.
    #[inline(always)]
    pub fn tick(&self) -> Tick {
        Tick {
            set: (1 << MOST_PORTS) - 1,
            ports: self.ports,
            frequency: self.frequency,
            curves: self.curves,
        }
    }
}

const COUNT: usize = 512;

pub fn inputs() -> Vec<Input> {
    let mut state = 1u64;
    // The upper bits of a linear congruence, evenly from `low` to `high`.
    let mut within = |low: f64, high: f64| {
        state = state
            .wrapping_mul(6_364_136_223_846_793_005)
            .wrapping_add(1_442_695_040_888_963_407);
        low + (state >> 11) as f64 / (1u64 << 53) as f64 * (high - low)
    };
    let mut input = |_| {
        let [first, second, third] = [(); 3].map(|()| within(0.0, 1.0));
        let audio = within(-5.0, 5.0);
        let frequency = within(0.1, 20.0);
        Input {
            ports: [audio, first, second, third],
            frequency,
            curves: [(); 3].map(|()| within(-1.0, 1.0)),
            milliseconds: frequency * 50.0,
        }
    };
    (0..COUNT).map(&mut input).collect()
}
