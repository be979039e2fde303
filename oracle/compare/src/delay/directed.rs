//! Cases that random ticks hardly meet.

use super::call::{Call, What};
use super::{places, Delay};
use crate::ages::Compared;
use crate::random::Random;
use crate::run::Pair as _;
use crate::table;
use crate::table::as_position;
use room_effects::delay::{Settings, State, Tick};

pub fn run<const LINEAR: bool>(seed: u64) -> Result<Compared, String> {
    lengths::<LINEAR>()?;
    maxima::<LINEAR>()?;
    let ends = ends_of_the_line::<LINEAR>(&mut Random::new(seed))?;
    let beyond = beyond_the_maximum::<LINEAR>(&mut Random::new(seed))?;
    Ok(ends.and(beyond).and(zeros::<LINEAR>()?))
}

fn settings<const LINEAR: bool>(sample_rate: f64, maximum: f64) -> Settings {
    Settings {
        sample_rate,
        delay_smooth_coef: 0.0,
        max_delay_secs: maximum,
        linear_time: u32::from(LINEAR),
    }
}

fn made<const LINEAR: bool>(unit: &mut Delay<LINEAR>, call: &Call) -> Result<(), String> {
    match unit.call(call) {
        Ok(_) => Ok(()),
        Err(message) => Err(format!("directed, {}\n{message}", call.shown())),
    }
}

/// The length is rate × maximum. Of the rates at which maximum × 1000 × rate / 1000 gives another, some, by a start and by a
/// retune, with as many places as that takes and with one less.
fn lengths<const LINEAR: bool>() -> Result<(), String> {
    const MAXIMUM: f64 = 0.35;
    let other = |rate: f64| (MAXIMUM * 1_000.0 * rate / 1_000.0) as u64 + 1;
    let differs = |rate: &f64| other(*rate) != table::delay_length(*rate, MAXIMUM);
    let rates: Vec<f64> = (8_000..=192_000).map(f64::from).filter(differs).collect();
    if rates.len() != 2_266 {
        return Err(format!("{} rates tell the orders apart", rates.len()));
    }
    for rate in rates.into_iter().step_by(100) {
        let of = settings::<LINEAR>(rate, MAXIMUM);
        let mut unit = Delay::<LINEAR>::started(&settings::<LINEAR>(rate, MAXIMUM), 0)?;
        for lent in [places(&of) as usize, places(&of) as usize - 1] {
            made(&mut unit, &Call::start_in(lent, of, 1))?;
            let call = Call {
                state: unit.state,
                planted: None,
                lent,
                what: What::Retune {
                    rate,
                    coefficient: 0.5,
                },
            };
            made(&mut unit, &call)?;
        }
    }
    Ok(())
}

/// Not finite means 2, else clamped: the places go by what is held.
fn maxima<const LINEAR: bool>() -> Result<(), String> {
    let [low, high] = [0.001f64, 60.0];
    for maximum in [
        low,
        low.next_down(),
        low.next_up(),
        0.0,
        -0.0,
        -1.0,
        -f64::MAX,
        f64::MIN_POSITIVE,
        high,
        high.next_up(),
        high.next_down(),
        f64::MAX,
        f64::INFINITY,
        f64::NEG_INFINITY,
        f64::NAN,
    ] {
        let of = settings::<LINEAR>(8_000.0, maximum);
        let mut unit = Delay::<LINEAR>::started(&of, 3)?;
        made(&mut unit, &Call::start_in(places(&of) as usize - 1, of, 1))?;
    }
    Ok(())
}

/// A tick with every port set, in either mode, that reads so many places back from an unprimed state.
fn reading<const LINEAR: bool>(unit: &Delay<LINEAR>, distance: f64, audio: f64) -> Tick {
    let rate = unit.state.sample_rate;
    Tick {
        set: 15,
        ports: [audio, distance / rate, 0.5, 1.0],
        milliseconds: distance * 1_000.0 / rate,
    }
}

/// Whole distances near both ends of a line, 0 among them, from every position, with a place before, at or behind the read that
/// is not finite: both places read are multiplied always, and at length − 1 the second is the one to be written.
fn ends_of_the_line<const LINEAR: bool>(random: &mut Random) -> Result<Compared, String> {
    let of = settings::<LINEAR>(8_000.0, 0.0025);
    let length = places(&of);
    let start = Delay::<LINEAR>::started(&of, 2)?;
    let mut unit = start;
    for write_pos in 0..length {
        for distance in [0, 1, 2, length / 2, length - 2, length - 1, length] {
            for sound in [1.0, f64::INFINITY, f64::NEG_INFINITY, f64::NAN] {
                for behind in 0..=2 {
                    for place in 0..length {
                        unit.plant(place as usize, random.ordinary_audio());
                    }
                    let at = (write_pos + 2 * length - distance.max(1) + 1 - behind) % length;
                    let t = reading(&unit, distance as f64, random.ordinary_audio());
                    let call = Call {
                        state: State {
                            write_pos: as_position(write_pos),
                            smoothed_delay: 0.0,
                            delay_primed: 0,
                            ..unit.state
                        },
                        planted: Some((at as usize, sound)),
                        lent: unit.memory.count(),
                        what: What::Tick(t),
                    };
                    made(&mut unit, &call)?;
                }
            }
        }
    }
    Ok(unit.ages)
}

/// Linear times beyond the maximum, where maximum × 1000 × rate / 1000 comes out below length − 1: elsewhere the clamp of the
/// distance would do for the clamp of the time.
fn beyond_the_maximum<const LINEAR: bool>(random: &mut Random) -> Result<Compared, String> {
    const RATE: f64 = 11_025.0;
    let mut compared = Compared::default();
    let tells = |whole: &f64| {
        let maximum = whole / RATE;
        let far = table::delay_length(RATE, maximum) - 1;
        maximum * 1_000.0 * RATE / 1_000.0 < far as f64
    };
    let wholes: Vec<f64> = (12..100).map(f64::from).filter(tells).collect();
    if wholes.is_empty() {
        return Err("no maximum tells the clamps apart".into());
    }
    for whole in wholes {
        let of = settings::<true>(RATE, whole / RATE);
        let mut unit = Delay::<LINEAR>::started(&of, 0)?;
        for place in 0..unit.memory.count() {
            unit.plant(place, random.ordinary_audio());
        }
        let maximum = unit.state.max_delay_secs;
        for time in [maximum, maximum.next_up(), 1.0, f64::MAX, f64::INFINITY] {
            let call = Call {
                state: unit.state,
                planted: None,
                lent: unit.memory.count(),
                what: What::Tick(Tick {
                    set: 15,
                    ports: [1.0, time, 0.5, 0.5],
                    milliseconds: f64::NAN,
                }),
            };
            made(&mut unit, &call)?;
        }
        compared = compared.and(unit.ages);
    }
    Ok(compared)
}

/// +0 and −0 in audio, every control and the line, each with each: whose sign goes where.
fn zeros<const LINEAR: bool>() -> Result<Compared, String> {
    let mut unit = Delay::<LINEAR>::started(&settings::<LINEAR>(8_000.0, 0.001), 0)?;
    for signs in 0..64u32 {
        let zero = |i: u32| if signs >> i & 1 == 1 { -0.0 } else { 0.0 };
        for place in 0..unit.memory.count() {
            unit.plant(place, zero(5));
        }
        let t = Tick {
            set: 15,
            ports: [0, 1, 2, 3].map(zero),
            milliseconds: zero(4),
        };
        let call = Call {
            state: unit.state,
            planted: None,
            lent: unit.memory.count(),
            what: What::Tick(t),
        };
        made(&mut unit, &call)?;
    }
    Ok(unit.ages)
}
