//! Numbers to call with: ordinary ones, and often those at which floats go wrong.
//! The same seed draws the same numbers on every machine, so nothing here asks for a sine or a power.

use crate::table::as_position;
use std::f64::consts::PI;

pub struct Random(u64);

const INFINITIES: [f64; 2] = [f64::INFINITY, f64::NEG_INFINITY];
const ZEROS: [f64; 2] = [0.0, -0.0];
const SMALLEST: f64 = f64::from_bits(1);

impl Random {
    pub fn new(seed: u64) -> Self {
        Self(seed)
    }

    /// splitmix64
    pub fn bits(&mut self) -> u64 {
        self.0 = self.0.wrapping_add(0x9e37_79b9_7f4a_7c15);
        let z = (self.0 ^ (self.0 >> 30)).wrapping_mul(0xbf58_476d_1ce4_e5b9);
        let z = (z ^ (z >> 27)).wrapping_mul(0x94d0_49bb_1331_11eb);
        z ^ (z >> 31)
    }

    pub fn below(&mut self, n: u64) -> u64 {
        ((u128::from(self.bits()) * u128::from(n)) >> 64) as u64
    }

    pub fn one_in(&mut self, n: u64) -> bool {
        self.below(n) == 0
    }

    pub fn of<T: Copy>(&mut self, list: &[T]) -> T {
        list[self.below(list.len() as u64) as usize]
    }

    /// Evenly from `low` up to, and not with, `high`.
    pub fn within(&mut self, low: f64, high: f64) -> f64 {
        let unit = (self.bits() >> 11) as f64 / (1u64 << 53) as f64;
        low + unit * (high - low)
    }

    fn signed(&mut self, x: f64) -> f64 {
        x.copysign(self.of(&[1.0, -1.0]))
    }

    /// Any of the floats, NaNs and infinities among them.
    pub fn any(&mut self) -> f64 {
        f64::from_bits(self.bits())
    }

    pub fn nan(&mut self) -> f64 {
        f64::from_bits(self.bits() | 0x7ff8_0000_0000_0000)
    }

    fn subnormal(&mut self) -> f64 {
        let digits = 1 + self.below(52);
        f64::from_bits((self.bits() >> (64 - digits)).max(1))
    }

    fn signed_subnormal(&mut self) -> f64 {
        let x = self.subnormal();
        self.signed(x)
    }

    /// Above 0 and below 1, any exponent as likely as any other.
    fn small(&mut self) -> f64 {
        f64::from_bits(self.below(1.0f64.to_bits() - 1) + 1)
    }

    fn signed_small(&mut self) -> f64 {
        let x = self.small();
        self.signed(x)
    }

    /// Zeros, units, infinities, and the largest and smallest floats.
    pub fn extreme(&mut self) -> f64 {
        let x = self.of(&[
            0.0,
            1.0,
            f64::MIN_POSITIVE,
            SMALLEST,
            1e308,
            f64::MAX,
            f64::INFINITY,
        ]);
        self.signed(x)
    }

    pub fn audio(&mut self) -> f64 {
        match self.below(16) {
            0 => self.nan(),
            1 => self.of(&INFINITIES),
            2 => self.of(&ZEROS),
            3 => self.extreme(),
            4 => self.signed_subnormal(),
            5 => self.any(),
            _ => self.ordinary_audio(),
        }
    }

    pub fn ordinary_audio(&mut self) -> f64 {
        self.within(-5.0, 5.0)
    }

    /// Mostly ordinary audio: a line full of the other kind would play little but NaN.
    pub fn mostly_ordinary_audio(&mut self) -> f64 {
        if self.one_in(4) {
            self.audio()
        } else {
            self.ordinary_audio()
        }
    }

    /// A control that is no NaN, in and around 0 to 1.
    pub fn control(&mut self) -> f64 {
        match self.below(16) {
            0 => self.of(&INFINITIES),
            1 => self.of(&ZEROS),
            2 => self.of(&[0.5, 1.0, 1.0f64.next_down(), 1.0f64.next_up(), -1.0, 2.0]),
            3 => self.of(&[1e308, -1e308, f64::MAX, f64::MIN, SMALLEST, -SMALLEST]),
            4 => self.signed_subnormal(),
            5 => self.signed_small(),
            6 => self.within(-0.5, 1.5),
            _ => self.within(0.0, 1.0),
        }
    }

    /// A feedback that is no NaN, in and around −0.95 to 0.95.
    pub fn feedback(&mut self) -> f64 {
        match self.below(8) {
            0 => {
                let end = self.of(&[0.95, 0.95f64.next_down(), 0.95f64.next_up(), 1.0]);
                self.signed(end)
            }
            1 => self.control(),
            2 => -self.control(),
            _ => self.within(-1.0, 1.0),
        }
    }

    /// A feedback that is no NaN, in and around 0 to 0.99.
    pub fn unit_feedback(&mut self) -> f64 {
        match self.below(8) {
            0 => self.of(&[0.99, 0.99f64.next_down(), 0.99f64.next_up(), 1.0, 0.0, -0.0]),
            1 => self.control(),
            _ => self.within(-0.1, 1.0),
        }
    }

    /// A feedback that is no NaN, in and around 0 to 1.5.
    pub fn tape_feedback(&mut self) -> f64 {
        match self.below(8) {
            0 => self.of(&[
                1.5,
                1.5f64.next_down(),
                1.5f64.next_up(),
                2.0,
                1.0,
                0.0,
                -0.0,
            ]),
            1 => self.control(),
            _ => self.within(-0.1, 1.6),
        }
    }

    /// A stages control that is no NaN: two, four or six of them, and the ends of these ranges.
    pub fn stages(&mut self) -> f64 {
        match self.below(4) {
            0 => {
                let end = self.of(&[0.33f64, 0.66]);
                self.of(&[end, end.next_down(), end.next_up()])
            }
            1 => self.control(),
            _ => self.within(0.0, 1.0),
        }
    }

    /// A tangent of which the coefficient lies in −1 to 1, the ends among them.
    pub fn tangent(&mut self) -> f64 {
        match self.below(8) {
            0 => self.of(&[0.0, -0.0, 1.0, 1.0f64.next_down(), 1.0f64.next_up(), 1e300]),
            1 => self.small(),
            2 => self.within(1.0, 30.0),
            3 => 1.0 / self.within(1e-18, 1.0),
            _ => self.within(0.0, 1.0),
        }
    }

    /// A glide coefficient: at least 0 and below 1.
    pub fn coefficient(&mut self) -> f64 {
        match self.below(8) {
            0 => self.of(&ZEROS),
            1 => self.of(&[0.5, 1.0f64.next_down(), SMALLEST, 1.0 - f64::EPSILON]),
            2 => self.subnormal(),
            3 => self.small(),
            4 => self.within(0.99, 1.0),
            _ => self.within(0.0, 1.0),
        }
    }

    /// A glide distance in a line of this length: 1 to length − 1.
    pub fn distance(&mut self, length: u64) -> f64 {
        let last = (length - 1) as f64;
        match self.below(4) {
            0 => self.of(&[1.0, 1.0f64.next_up(), last, last.next_down()]),
            1 => (1 + self.below(length - 1)) as f64,
            _ => self.within(1.0, last),
        }
    }

    /// A flag that is on.
    pub fn on(&mut self) -> u32 {
        self.of(&[1, 1, 1, 2, 1 << 31, u32::MAX])
    }

    pub fn flag(&mut self) -> u32 {
        let on = self.on();
        self.of(&[0, on])
    }

    pub fn frequency(&mut self) -> f64 {
        match self.below(16) {
            0 => self.of(&ZEROS),
            1 => self.of(&[32.0, 32.0f64.next_down(), 1.0, 0.1, 20.0]),
            2 => self.subnormal(),
            3 => self.small(),
            4..=9 => self.within(0.1, 20.0),
            _ => self.within(0.0, 32.0),
        }
    }

    /// A sine, or a coefficient of an all-pass.
    pub fn curve(&mut self) -> f64 {
        match self.below(16) {
            0 => self.of(&ZEROS),
            1 => self.of(&[1.0, -1.0, 1.0f64.next_down(), -(1.0f64.next_down())]),
            2 => self.signed_subnormal(),
            3 => self.signed_small(),
            _ => self.within(-1.0, 1.0),
        }
    }

    pub fn phase(&mut self) -> f64 {
        match self.below(8) {
            0 => self.of(&ZEROS),
            1 => self.of(&[0.5, 0.5f64.next_down(), 0.5f64.next_up(), 0.25, 0.75]),
            2 => self.of(&[1.0f64.next_down(), 1.0f64.next_down().next_down(), 0.9999]),
            3 => self.subnormal(),
            4 => self.small(),
            _ => self.within(0.0, 1.0),
        }
    }

    /// A phase that a step takes to 1, or to one of the floats around it.
    pub fn phase_near_wrap(&mut self, step: f64) -> f64 {
        let phase = 1.0 - step;
        self.of(&[phase, phase.next_up(), phase.next_down()])
            .min(1.0f64.next_down())
    }

    pub fn sample_rate(&mut self) -> f64 {
        match self.below(4) {
            0 => self.of(&[
                8_000.0f64.next_up(),
                192_000.0f64.next_down(),
                8_000.0 * PI,
                44_099.999,
            ]),
            1 => self.within(8_000.0, 192_000.0),
            2 => self.within(8_000.0, 192_000.0).trunc(),
            _ => self.of(&COMMON_RATES),
        }
    }

    pub fn wrong_control(&mut self) -> f64 {
        self.nan()
    }

    pub fn wrong_sample_rate(&mut self) -> f64 {
        let nan = self.nan();
        let nearly = [
            8_000.0f64.next_down(),
            192_000.0f64.next_up(),
            7_999.0,
            192_001.0,
        ];
        let far = [
            0.0,
            -0.0,
            SMALLEST,
            -44_100.0,
            1e308,
            f64::INFINITY,
            f64::NEG_INFINITY,
            nan,
        ];
        if self.one_in(2) {
            self.of(&nearly)
        } else {
            self.of(&far)
        }
    }

    pub fn wrong_position(&mut self, length: u64) -> u32 {
        let end = as_position(length);
        let beyond = as_position(length + self.below(100_000));
        self.of(&[end, end, end + 1, beyond, 1 << 31, u32::MAX])
    }

    pub fn wrong_phase(&mut self) -> f64 {
        let nan = self.nan();
        self.of(&[
            1.0,
            1.0f64.next_up(),
            2.0,
            -1e-300,
            -SMALLEST,
            -0.5,
            f64::INFINITY,
            f64::NEG_INFINITY,
            nan,
        ])
    }

    pub fn wrong_coefficient(&mut self) -> f64 {
        let nan = self.nan();
        let wrong = [1.0, 1.0f64.next_up(), 2.0, -SMALLEST, -0.5, f64::INFINITY];
        let wrong = self.of(&wrong);
        self.of(&[wrong, wrong, f64::NEG_INFINITY, nan])
    }

    pub fn wrong_maximum(&mut self) -> f64 {
        let nan = self.nan();
        let nearly = [0.001f64.next_down(), 60.0f64.next_up(), 0.0, -0.0];
        let far = [-1.0, SMALLEST, 1e308, f64::INFINITY, f64::NEG_INFINITY, nan];
        if self.one_in(2) {
            self.of(&nearly)
        } else {
            self.of(&far)
        }
    }

    /// No distance of a primed state with a line of this length.
    pub fn wrong_distance(&mut self, length: u64) -> f64 {
        let nan = self.nan();
        let last = (length - 1) as f64;
        let nearly = [1.0f64.next_down(), last.next_up(), last + 1.0, 0.0, -0.0];
        let far = [SMALLEST, -1.0, 1e308, f64::INFINITY, f64::NEG_INFINITY, nan];
        if self.one_in(2) {
            self.of(&nearly)
        } else {
            self.of(&far)
        }
    }

    /// No mix of a read that waits.
    pub fn wrong_mix(&mut self) -> f64 {
        let nan = self.nan();
        self.of(&[-SMALLEST, 1.0f64.next_up(), 2.0, f64::INFINITY, nan])
    }

    /// No distance of an unprimed state, and nothing kept while no read waits.
    pub fn no_plus_zero(&mut self) -> f64 {
        let nan = self.nan();
        self.of(&[-0.0, -0.0, SMALLEST, -SMALLEST, 1.0, f64::INFINITY, nan])
    }

    pub fn wrong_frequency(&mut self) -> f64 {
        let nan = self.nan();
        let ends = [
            32.000_001,
            32.0f64.next_up(),
            -1e-9,
            -SMALLEST,
            -32.0,
            1e308,
        ];
        if self.one_in(2) {
            self.of(&ends)
        } else {
            self.of(&[f64::INFINITY, f64::NEG_INFINITY, nan])
        }
    }

    pub fn wrong_curve(&mut self) -> f64 {
        let wrong = [1.000_000_1, 1.0f64.next_up(), 2.0, 1e308, f64::INFINITY];
        let wrong = self.of(&wrong);
        let nan = self.nan();
        let signed = self.signed(wrong);
        self.of(&[signed, signed, nan])
    }
}

pub const COMMON_RATES: [f64; 7] = [
    8_000.0, 11_025.0, 22_050.0, 44_100.0, 48_000.0, 96_000.0, 192_000.0,
];
