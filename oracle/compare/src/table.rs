//! The table of refusals, read from document 01, with what document 02 adds to it, and from nothing else: of each cause, whether
//! it applies.

use std::ops::Range;

pub const SAMPLE_RATE: u32 = 1;
pub const COEFFICIENT: u32 = 2;
pub const MEMORY: u32 = 3;
pub const STATE: u32 = 4;
pub const CONTROL: u32 = 5;
pub const CURVE: u32 = 6;
pub const TURN: u32 = 7;

/// One more than the table's last number.
pub const NUMBERS: usize = 8;

/// The number of the first cause that applies, 0 for none. The causes stand in the order of the call.
pub fn first(causes: &[(u32, bool)]) -> u32 {
    causes
        .iter()
        .find(|(_, applies)| *applies)
        .map_or(0, |(number, _)| *number)
}

/// "sample rate NaN or outside 8,000 to 192,000"
pub fn sample_rate(rate: f64) -> bool {
    rate.is_nan() || rate < 8_000.0 || rate > 192_000.0
}

/// "A line has L places: the whole part of ... n × rate / 1000, plus 10". A rate that is refused must not stop the program.
pub fn length(n: f64, rate: f64) -> u64 {
    ((n * rate / 1_000.0).trunc() as u64).saturating_add(10)
}

/// "memory with fewer places than needed": that is `lines` lines of this length.
pub fn memory(places: u64, lines: u64, length: u64) -> bool {
    places < length.saturating_mul(lines)
}

/// A place of a line as states keep it, in 32 bits.
pub fn as_position(place: u64) -> u32 {
    u32::try_from(place).expect("no line is so long")
}

/// "every position below its line's length at that rate": the state test fails where this is true.
pub fn position(position: u32, length: u64) -> bool {
    u64::from(position) >= length
}

/// "Number 4 also names a count above the places in use": the state test fails where this is true.
pub fn count(count: u32, in_use: u64) -> bool {
    u64::from(count) > in_use
}

/// "every phase at least 0 and below 1": the state test fails where this is true.
pub fn phase(phase: f64) -> bool {
    !(phase >= 0.0 && phase < 1.0)
}

/// "a control read by this tick is set and NaN"
pub fn control(port: Option<f64>) -> bool {
    port.is_some_and(f64::is_nan)
}

/// "curve number NaN, ... a frequency outside 0 to 32"
pub fn frequency(frequency: f64) -> bool {
    frequency.is_nan() || frequency < 0.0 || frequency > 32.0
}

/// "curve number NaN, a sine outside −1 to 1"
pub fn sine(sine: f64) -> bool {
    sine.is_nan() || sine < -1.0 || sine > 1.0
}

/// "curve number NaN" and, of the phaser, "Number 6 also names a coefficient outside −1 to 1"
pub fn allpass_coefficient(coefficient: f64) -> bool {
    coefficient.is_nan() || coefficient < -1.0 || coefficient > 1.0
}

/// "glide coefficient NaN or outside 0 ≤ c < 1 (delay only)"
pub fn coefficient(coefficient: f64) -> bool {
    coefficient.is_nan() || coefficient < 0.0 || coefficient >= 1.0
}

/// "The delay's maximum in seconds: not finite means 2.0, else clamped to 0.001 to 60."
pub fn held_maximum(maximum: f64) -> f64 {
    if !maximum.is_finite() {
        2.0
    } else if maximum < 0.001 {
        0.001
    } else if maximum > 60.0 {
        60.0
    } else {
        maximum
    }
}

/// "A line has L places: the whole part of rate × maximum, plus 1 (delay)". What is refused must not stop the program.
pub fn delay_length(rate: f64, maximum: f64) -> u64 {
    ((rate * maximum).trunc() as u64).saturating_add(1)
}

/// "maximum 0.001 to 60": the state test fails where this is true.
pub fn maximum(maximum: f64) -> bool {
    !(maximum >= 0.001 && maximum <= 60.0)
}

/// "glide distance +0 while unprimed, else 1 to L − 1": the state test fails where this is true.
pub fn distance(primed: bool, distance: f64, length: u64) -> bool {
    if primed {
        !(distance >= 1.0 && distance <= (length - 1) as f64)
    } else {
        distance.to_bits() != 0
    }
}

/// "maximum 12 seconds": a tape delay's length is a delay's with this maximum.
pub const TAPE_MAXIMUM: f64 = 12.0;

/// "Number 4 also names a waiting mix that is NaN or outside 0 to 1, or a kept number not +0 while none waits": the state test
/// fails where this is true. Audio, sample read and mix are kept.
pub fn kept(waiting: bool, kept: [f64; 3]) -> bool {
    if waiting {
        let [_audio, _read, mix] = kept;
        !(mix >= 0.0 && mix <= 1.0)
    } else {
        kept.into_iter().any(|number| number.to_bits() != 0)
    }
}

/// "Number 6 also names a saturated value NaN or outside −1 to 1"
pub fn saturated(value: f64) -> bool {
    value.is_nan() || value < -1.0 || value > 1.0
}

/// "curve number NaN"
pub fn curve(number: f64) -> bool {
    number.is_nan()
}

/// "The tank lies as eight left combs of 4,096 places, eight right, four left all-passes of 1,500, four right, predelay 9,600":
/// where each line starts and how many places lie there for it.
pub const TANK: [(usize, usize); 25] = {
    let mut lines = [(0, 0); 25];
    let (mut line, mut start) = (0, 0);
    while line < 25 {
        let places = match line {
            0..16 => 4_096,
            16..24 => 1_500,
            _ => 9_600,
        };
        lines[line] = (start, places);
        start += places;
        line += 1;
    }
    lines
};

/// The tank's places, the same at every rate.
pub const TANK_PLACES: usize = TANK[24].0 + TANK[24].1;

/// The places of the tank that are in use at a rate: of each line as many as its length there.
pub fn tank_in_use(rate: f64) -> [Range<usize>; 25] {
    let lengths = tank_lengths(rate);
    std::array::from_fn(|line| {
        let (start, _) = TANK[line];
        start..start + lengths[line] as usize
    })
}

/// "Lengths at 44,100: combs 1116, ...; all-passes 556, ... Each is multiplied by rate/44100 and cut to its whole part, at most
/// 4,095 and 1,499. Spread: 23 × ratio rounded half away from zero, at least 1; right lengths are left plus spread, under the
/// same caps." What is refused must not stop the program.
pub fn tank_lengths(rate: f64) -> [u64; 25] {
    const COMBS: [u64; 8] = [1116, 1188, 1277, 1356, 1422, 1491, 1557, 1617];
    const ALLPASSES: [u64; 4] = [556, 441, 341, 225];
    let ratio = rate / 44_100.0;
    let spread = {
        let wide = 23.0 * ratio;
        let below = wide.trunc();
        let up = wide - below >= 0.5;
        (below as u64).saturating_add(u64::from(up)).max(1)
    };
    let left = |base: u64, most: u64| ((base as f64 * ratio).trunc() as u64).min(most);
    let right = |base: u64, most: u64| left(base, most).saturating_add(spread).min(most);
    std::array::from_fn(|line| match line {
        0..8 => left(COMBS[line], 4_095),
        8..16 => right(COMBS[line - 8], 4_095),
        16..20 => left(ALLPASSES[line - 16], 1_499),
        20..24 => right(ALLPASSES[line - 20], 1_499),
        _ => 9_600,
    })
}
