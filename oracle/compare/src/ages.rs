//! The age that a tick answers beside its samples, read from the description of the effects and from nothing of ours: from the
//! tick's own inputs how far back each of its reads lies, and from that how old, in ticks, the oldest sample is that they weigh
//! above 0.

use crate::table::TAPE_MAXIMUM;
use room_effects::{delay, tape_delay, MOST_PORTS};

/// How far back a read lies, before it is held within the line: by the rate, the depth and the read's own sine.
pub type Sweep = fn(rate: f64, depth: f64, sine: f64) -> f64;

/// "distance (10 + sine × (depth × 10 × 0.9)) × rate / 1000"
pub fn vibrato(rate: f64, depth: f64, sine: f64) -> f64 {
    (10.0 + sine * (depth * 10.0 * 0.9)) * rate / 1_000.0
}

/// "distance 7 × rate / 1000 + (sine × 0.5 + 0.5) × (depth × 25 × rate / 1000)"
pub fn chorus(rate: f64, depth: f64, sine: f64) -> f64 {
    7.0 * rate / 1_000.0 + (sine * 0.5 + 0.5) * (depth * 25.0 * rate / 1_000.0)
}

/// "distance (1 + (sine + 1) × 0.5 × (depth × 9)) × rate / 1000"
pub fn flanger(rate: f64, depth: f64, sine: f64) -> f64 {
    (1.0 + (sine + 1.0) * 0.5 * (depth * 9.0)) * rate / 1_000.0
}

/// "depth 0.5", where it is unset, and it clamps to 0 to 1.
pub fn depth(port: Option<f64>) -> f64 {
    held(port.unwrap_or(0.5), 0.0, 1.0)
}

/// "clamped to 1 to L − 1"
pub fn in_line(distance: f64, length: u64) -> f64 {
    held(distance, 1.0, (length - 1) as f64)
}

fn held(x: f64, least: f64, most: f64) -> f64 {
    if x < least {
        least
    } else if x > most {
        most
    } else {
        x
    }
}

/// Where a delay's tick reads, in a line of this length. The state is the one before the tick.
pub fn delay(before: &delay::State, t: &delay::Tick, length: u64) -> f64 {
    let milliseconds = if before.linear_time != 0 {
        linear(t.set, t.ports, before.max_delay_secs)
    } else {
        t.milliseconds
    };
    let target = target(milliseconds, before.sample_rate, length);
    let last = (before.delay_primed != 0).then_some(before.smoothed_delay);
    glided(target, last, before.delay_smooth_coef)
}

/// Where a tape delay's read half does: where the tick of a delay with linear time and the tape's maximum would.
pub fn tape(before: &tape_delay::State, t: &tape_delay::Read, length: u64) -> f64 {
    let as_delay = delay::State {
        write_pos: before.write_pos,
        nonzero_places: before.nonzero_places,
        smoothed_delay: before.smoothed_delay,
        delay_primed: before.delay_primed,
        sample_rate: before.sample_rate,
        delay_smooth_coef: before.delay_smooth_coef,
        max_delay_secs: TAPE_MAXIMUM,
        linear_time: 1,
    };
    let tick = delay::Tick {
        set: t.set,
        ports: t.ports,
        milliseconds: 0.0,
    };
    delay(&as_delay, &tick, length)
}

/// "time (0.5 where it is unset) clamped to 0 to the maximum, times 1000"
fn linear(set: u32, ports: [f64; MOST_PORTS], maximum: f64) -> f64 {
    let [_audio, time, ..] = ports;
    let seconds = if set & 2 != 0 { time } else { 0.5 };
    held(seconds, 0.0, maximum) * 1_000.0
}

/// "target is milliseconds × rate / 1000, clamped to 1 to L − 1"
fn target(milliseconds: f64, rate: f64, length: u64) -> f64 {
    in_line(milliseconds * rate / 1_000.0, length)
}

/// "The first tick after a clearing reads there; later ticks read at target + (last distance − target) × coefficient."
fn glided(target: f64, last: Option<f64>, coefficient: f64) -> f64 {
    last.map_or(target, |last| target + (last - target) * coefficient)
}

/// "the whole part of the distance, plus one where the fraction isn't zero": the largest of the reads'.
pub fn of(distances: &[f64]) -> u64 {
    let one = |distance: &f64| distance.trunc() as u64 + u64::from(distance.fract() != 0.0);
    distances.iter().map(one).max().unwrap_or(0)
}

/// A read worked out by hand: where the last one was (nowhere before the first), the target and the coefficient; then the distance
/// and its age.
pub struct Glide {
    pub last: Option<f64>,
    pub target: f64,
    pub coefficient: f64,
    pub distance: f64,
    pub age: u64,
}

/// Whole distances and the floats beside them, at both ends of a line whose greatest distance is `far`.
pub fn glides(far: f64) -> impl Iterator<Item = Glide> {
    let slow = 1.0f64.next_down();
    let farthest = far as u64;
    let glides = [
        (None, 0.0, 0.5, 1.0, 1),
        (None, 1.0, 0.5, 1.0, 1),
        (None, 2.0, 0.5, 2.0, 2),
        (None, 2.5, 0.5, 2.5, 3),
        (None, far - 1.0, 0.5, far - 1.0, farthest - 1),
        (None, far - 0.5, 0.5, far - 0.5, farthest),
        (None, far, 0.5, far, farthest),
        (Some(1.0), 1.0, 0.9, 1.0, 1),
        (Some(1.0f64.next_up()), 1.0, slow, 1.0f64.next_up(), 2),
        (Some(2.0f64.next_down()), 2.0, slow, 2.0f64.next_down(), 2),
        (Some(2.0f64.next_up()), 2.0, slow, 2.0f64.next_up(), 3),
        (Some(4.0), 2.0, 0.5, 3.0, 3),
        (Some(far.next_down()), far, slow, far.next_down(), farthest),
        (Some(far), far, 0.9, far, farthest),
        (Some(far), 1.0, 0.0, 1.0, 1),
        (Some(1.0), far, 0.0, far, farthest),
    ];
    let one = |(last, target, coefficient, distance, age)| Glide {
        last,
        target,
        coefficient,
        distance,
        age,
    };
    glides.into_iter().map(one)
}

/// How many ages were compared.
#[derive(Clone, Copy, Default)]
pub struct Compared {
    /// Beside the reading.
    read: u64,
    /// Of refused ticks, beside 0.
    refused: u64,
}

impl Compared {
    /// The age of an accepted tick, whose reads lie at these distances in a line of this length.
    pub fn with(&mut self, age: u32, distances: &[f64], length: u64) -> Result<(), String> {
        let (age, should) = (u64::from(age), of(distances));
        let fault = if age != should {
            format!("should be {should}")
        } else if !(1..length).contains(&age) {
            format!("should lie in 1 to {}", length - 1)
        } else if !is_oldest(age, distances) {
            "is not that of the oldest sample with a weight above 0".into()
        } else {
            self.read += 1;
            return Ok(());
        };
        Err(format!(
            "the age is {age}, and {fault}; reads at {distances:?}"
        ))
    }

    /// The age of a refused tick is 0.
    pub fn with_none(&mut self, age: u32) -> Result<(), String> {
        if age != 0 {
            return Err(format!("the age of a refused tick is {age}"));
        }
        self.refused += 1;
        Ok(())
    }

    /// Whether the age of each accepted tick was compared, of so many, and that of at least so many refused ones.
    pub fn covers(self, ticks: u64, refused: u64) -> bool {
        self.read == ticks && self.refused >= refused
    }

    pub fn and(self, other: Self) -> Self {
        Self {
            read: self.read + other.read,
            refused: self.refused + other.refused,
        }
    }

    /// For a list of counts; nothing where no age was compared, as of an effect that has none.
    pub fn shown(self) -> String {
        let counted = |count: u64, whose: &str| match count {
            0 => String::new(),
            _ => format!(", {count} ages{whose} compared"),
        };
        counted(self.read, "") + &counted(self.refused, " of refused ticks")
    }
}

/// Whether a place so many back is weighed above 0, and none further back.
fn is_oldest(age: u64, distances: &[f64]) -> bool {
    let places = distances.iter().flat_map(|distance| weights(*distance));
    let mut heard = places.filter(|(_, weight)| *weight > 0.0);
    heard.clone().any(|(back, _)| back == age) && heard.all(|(back, _)| back <= age)
}

/// How far back the two places of a read lie, each with what the read multiplies it by: with the fraction f of the distance, 1 − f
/// and f.
fn weights(distance: f64) -> [(u64, f64); 2] {
    let whole = distance.floor();
    let fraction = distance - whole;
    [(0, 1.0 - fraction), (1, fraction)].map(|(more, weight)| (whole as u64 + more, weight))
}
