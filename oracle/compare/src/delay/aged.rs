//! Ages that random ticks hardly meet: reads at whole distances and at the floats beside them, at both ends of a line, right after
//! a clearing, and along a glide to a target that stands.

use super::call::{Call, What};
use super::Delay;
use crate::ages::{self, Compared};
use crate::random::Random;
use crate::run::{Made, Pair as _};
use room_effects::delay::{Settings, State, Tick};

/// A power of two, so that time and milliseconds for a whole distance are exact.
const RATE: f64 = 8_192.0;

const COEFFICIENT: f64 = 0.9;

/// At mix 0 nothing that is read is heard; it has its age all the same.
const MIXES: [f64; 3] = [0.0, -0.0, 1.0];

/// The shortest line, a power of two, and others: the greatest distance in each.
const FARTHEST: [f64; 4] = [8.0, 20.0, 2_999.0, 4_096.0];

pub fn run<const LINEAR: bool>() -> Result<Compared, String> {
    let mut compared = Compared::default();
    for far in FARTHEST {
        let mut unit = started::<LINEAR>(far)?;
        glides_to(&mut unit, far)?;
        after_clearings(&mut unit)?;
        standing_target(&mut unit, far)?;
        compared = compared.and(unit.ages);
    }
    Ok(compared)
}

/// A unit whose line has one place more than this, full of audio.
fn started<const LINEAR: bool>(far: f64) -> Result<Delay<LINEAR>, String> {
    let settings = Settings {
        sample_rate: RATE,
        delay_smooth_coef: COEFFICIENT,
        max_delay_secs: far / RATE,
        linear_time: u32::from(LINEAR),
    };
    let mut unit = Delay::<LINEAR>::started(&settings, 2)?;
    let mut random = Random::new(1);
    for place in 0..unit.memory.count() {
        unit.plant(place, random.ordinary_audio());
    }
    Ok(unit)
}

/// A tick with this target. What the mode doesn't read is NaN.
fn tick<const LINEAR: bool>(target: f64, mix: f64) -> Tick {
    let [time, milliseconds] = if LINEAR {
        [target / RATE, f64::NAN]
    } else {
        [f64::NAN, target * 1_000.0 / RATE]
    };
    Tick {
        set: 15,
        ports: [0.5, time, 0.5, mix],
        milliseconds,
    }
}

/// A call that is lent all the unit's memory.
pub fn made<const LINEAR: bool>(
    unit: &mut Delay<LINEAR>,
    state: State,
    what: What,
) -> Result<Made, String> {
    let call = Call {
        state,
        planted: None,
        lent: unit.memory.count(),
        what,
    };
    unit.call(&call)
        .map_err(|message| format!("directed, {}\n{message}", call.shown()))
}

/// Ticks from this state, which must read here and answer this age, and so must the reading.
fn aged<const LINEAR: bool>(
    unit: &mut Delay<LINEAR>,
    state: State,
    target: f64,
    distance: f64,
    age: u64,
) -> Result<(), String> {
    for mix in MIXES {
        let t = tick::<LINEAR>(target, mix);
        let read = ages::delay(&state, &t, unit.length());
        if read != distance || ages::of(&[read]) != age {
            return Err(format!(
                "a read at {read:?} should lie at {distance:?} and have the age {age}"
            ));
        }
        made(unit, state, What::Tick(t))?;
    }
    Ok(())
}

fn glides_to<const LINEAR: bool>(unit: &mut Delay<LINEAR>, far: f64) -> Result<(), String> {
    for glide in ages::glides(far) {
        let state = State {
            delay_primed: u32::from(glide.last.is_some()),
            smoothed_delay: glide.last.unwrap_or(0.0),
            delay_smooth_coef: glide.coefficient,
            ..unit.state
        };
        aged(unit, state, glide.target, glide.distance, glide.age)?;
    }
    Ok(())
}

/// The first tick after a clearing reads at its target and glides from nowhere; the next one glides from there.
fn after_clearings<const LINEAR: bool>(unit: &mut Delay<LINEAR>) -> Result<(), String> {
    let settings = Settings {
        sample_rate: RATE,
        delay_smooth_coef: COEFFICIENT,
        max_delay_secs: unit.state.max_delay_secs,
        linear_time: u32::from(LINEAR),
    };
    let retune = What::Retune {
        rate: RATE,
        coefficient: COEFFICIENT,
    };
    let lent = unit.memory.count();
    for clearing in [What::Start { settings, seed: 1 }, retune, What::Reset] {
        let state = unit.state;
        match clearing {
            What::Start { .. } => unit.call(&Call::start_in(lent, settings, 1))?,
            other => made(unit, state, other)?,
        };
        let cleared = unit.state;
        aged(unit, cleared, 7.5, 7.5, 8)?;
        let read = 2.0 + (7.5 - 2.0) * COEFFICIENT;
        let primed = State {
            delay_primed: 1,
            smoothed_delay: 7.5,
            ..cleared
        };
        aged(unit, primed, 2.0, read, 7)?;
    }
    Ok(())
}

/// The age goes with the glide, tick after tick, while the target stands at the end of the line.
fn standing_target<const LINEAR: bool>(unit: &mut Delay<LINEAR>, far: f64) -> Result<(), String> {
    let first = State {
        delay_primed: 1,
        smoothed_delay: 1.0,
        delay_smooth_coef: COEFFICIENT,
        ..unit.state
    };
    let mut state = first;
    let mut met = Vec::new();
    for _ in 0..400 {
        let t = tick::<LINEAR>(far, 0.0);
        met.push(ages::of(&[ages::delay(&state, &t, unit.length())]));
        made(unit, state, What::Tick(t))?;
        state = unit.state;
    }
    let glides = met[0] < far as u64 && met.is_sorted() && met[399] == far as u64;
    met.dedup();
    if glides && met.len() > 4 {
        return Ok(());
    }
    Err(format!("the ages along a glide are {met:?}"))
}
