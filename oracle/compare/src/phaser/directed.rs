//! Cases that random ticks hardly meet, or of which more is known than that both sides agree.

use super::{one_tick, two_ticks, with_right, Phaser, Way, FORM};
use crate::bits::{agree, untouched};
use crate::random::Random;
use crate::run::Pair as _;
use crate::table;
use crate::tally;
use crate::unlined::{Call, Unlined};
use quiver_oracle::phaser::{coefficient, Unit};
use quiver_oracle::{Effect as _, Unlined as _};
use room_effects::phaser::{STAGES, STORES};
use room_effects::unlined::State;
use room_effects::Tick;

type Pair = Unlined<Phaser, STORES>;

const RATE: f64 = 44_100.0;

pub fn run(seed: u64) -> Result<(), String> {
    let mut random = Random::new(seed);
    two_ticks_for_one(&mut random)?;
    numbers_of_stages(&mut random)?;
    taps(&mut random)?;
    idle_stages(&mut random)?;
    ends_of_the_feedback(&mut random)?;
    overflow()?;
    idle_sound()?;
    places_that_sound(&mut random)?;
    refused_stages(&mut random)?;
    zeros()
}

fn made(unit: &mut Pair, call: &Call<Way, STORES>) -> Result<(), String> {
    match unit.call(call) {
        Ok(_) => Ok(()),
        Err(message) => Err(format!("directed, {}\n{message}", call.shown(&FORM))),
    }
}

/// A message where what a case is there for did not happen.
fn must(what: &str, holds: bool) -> Result<(), String> {
    if holds {
        return Ok(());
    }
    Err(format!("directed: {what}"))
}

/// A tick with every port set: audio, feedback, mix, stages.
fn tick_of(ports: [f64; 4], [left, right]: [f64; 2]) -> Tick {
    Tick {
        set: FORM.all_set(),
        ports,
        frequency: 1.0,
        curves: [left, right, 0.0],
    }
}

/// A unit in such a state that every store is another number, none of them 0.
fn sounding(random: &mut Random) -> Result<Pair, String> {
    let mut unit = Pair::started(RATE)?;
    unit.ours.stores = [(); STORES].map(|()| random.within(0.5, 5.0));
    Ok(unit)
}

/// A tick from the unit's own state; what it left is then that.
fn ticked(unit: &mut Pair, t: Tick) -> Result<(), String> {
    made(unit, &Call::Tick(unit.ours, t, Way::TwoTicks))
}

/// "Silent?" of the unit's own state.
fn asked(unit: &mut Pair) -> Result<(), String> {
    made(unit, &Call::Silent(unit.ours))
}

/// The stages of each chain whose numbers a tick moved must be the first so many.
fn moved(before: &State<STORES>, after: &State<STORES>, count: usize) -> Result<(), String> {
    for (place, (before, after)) in before.stores.iter().zip(after.stores).enumerate() {
        if place % STAGES >= count {
            untouched(&format!("store {place} of an idle stage"), *before, after)?;
        } else {
            let differs = before.to_bits() != after.to_bits();
            must(&format!("store {place} of an active stage stayed"), differs)?;
        }
    }
    Ok(())
}

/// Where the Rust comes to both coefficients in one tick, two ticks of it come to the same samples and the same state.
fn two_ticks_for_one(random: &mut Random) -> Result<(), String> {
    let [mut one, mut two] = [(); 2].map(|()| Unit::new(RATE));
    for _ in 0..20_000 {
        let tangent = random.tangent();
        let t = FORM.draw(random, Random::audio);
        let t = with_right(t, coefficient(tangent));
        let stores = [(); STORES].map(|()| random.mostly_ordinary_audio());
        let phase = random.phase();
        for unit in [&mut one, &mut two] {
            unit.set_stores(&stores);
            unit.phases_mut()[0] = phase;
        }
        let once = one_tick(&mut one, &t, t.curves[0], Some(tangent), Unit::tick)?;
        let twice = two_ticks(&mut two, &t)?;
        let samples = once.into_iter().zip(twice);
        let stores = one.stores().into_iter().zip(two.stores());
        let phases = (one.phases()[0], two.phases()[0]);
        for (once, twice) in samples.chain(stores).chain([phases]) {
            agree("two ticks of the Rust's for one", twice, once)?;
        }
    }
    Ok(())
}

/// The control's ends: below 0.33 two stages, below 0.66 four, else six. An unset port is 1.
fn numbers_of_stages(random: &mut Random) -> Result<(), String> {
    let [two, four] = [0.33f64, 0.66];
    for (control, count) in [
        (Some(two), 4),
        (Some(two.next_down()), 2),
        (Some(two.next_up()), 4),
        (Some(1.0 / 3.0), 4),
        (Some(four), 6),
        (Some(four.next_down()), 4),
        (Some(four.next_up()), 6),
        (Some(2.0 / 3.0), 6),
        (Some(0.0), 2),
        (Some(-0.0), 2),
        (Some(-f64::MAX), 2),
        (Some(f64::NEG_INFINITY), 2),
        (Some(1.0), 6),
        (Some(f64::MAX), 6),
        (Some(f64::INFINITY), 6),
        (None, 6),
    ] {
        let mut unit = sounding(random)?;
        let before = unit.ours;
        let any = random.any();
        let mut t = tick_of([1.5, 0.5, 0.5, control.unwrap_or(any)], [0.3, -0.6]);
        if control.is_none() {
            t.set &= !8;
        }
        ticked(&mut unit, t)?;
        moved(&before, &unit.ours, count).map_err(|said| format!("stages {control:?}: {said}"))?;
    }
    Ok(())
}

/// The tap is what the last active stage put out last: where the number of stages rises or falls, an old number of a stage that
/// was idle, or one of a stage that goes on to another. What goes into the chain tells: the first stage's x1.
fn taps(random: &mut Random) -> Result<(), String> {
    const FEEDBACK: f64 = 0.5;
    for from in [0.0, 0.5, 1.0] {
        for (to, count) in [(0.0, 2), (0.5, 4), (1.0, 6)] {
            let mut unit = sounding(random)?;
            for _ in 0..3 {
                ticked(
                    &mut unit,
                    tick_of([random.ordinary_audio(), FEEDBACK, 0.5, from], [0.7, -0.4]),
                )?;
            }
            let before = unit.ours.stores;
            let audio = random.ordinary_audio();
            ticked(&mut unit, tick_of([audio, FEEDBACK, 0.5, to], [0.7, -0.4]))?;
            for side in 0..2 {
                let tap = before[(2 + side) * STAGES + count - 1];
                let x1 = unit.ours.stores[side * STAGES];
                agree(
                    &format!("what goes into side {side}"),
                    x1,
                    audio + tap * FEEDBACK,
                )?;
            }
        }
    }
    Ok(())
}

/// Idle stages keep both numbers for good, and go on from them.
fn idle_stages(random: &mut Random) -> Result<(), String> {
    for (control, count) in [(0.0, 2), (0.5, 4)] {
        let mut unit = sounding(random)?;
        let before = unit.ours;
        for _ in 0..100 {
            let coefficients = [(); 2].map(|()| random.within(-0.9, 0.9));
            let audio = random.ordinary_audio();
            ticked(&mut unit, tick_of([audio, 0.3, 0.5, control], coefficients))?;
            moved(&before, &unit.ours, count)?;
        }
        ticked(&mut unit, tick_of([1.0, 0.3, 0.5, 1.0], [0.2, 0.4]))?;
    }
    Ok(())
}

/// Feedback at its ends, beyond them and infinite.
fn ends_of_the_feedback(random: &mut Random) -> Result<(), String> {
    for sign in [1.0, -1.0] {
        let start = sounding(random)?.ours;
        let mut at_the_end = None;
        for feedback in [0.95, 0.95f64.next_up(), 1.0, 2.0, f64::MAX, f64::INFINITY] {
            let mut unit = Pair::started(RATE)?;
            let t = tick_of([1.0, sign * feedback, 1.0, 1.0], [0.5, -0.5]);
            made(&mut unit, &Call::Tick(start, t, Way::TwoTicks))?;
            let stores = unit.ours.stores.map(f64::to_bits);
            must(
                "feedback is clamped",
                *at_the_end.get_or_insert(stores) == stores,
            )?;
        }
        let mut unit = Pair::started(RATE)?;
        let t = tick_of([1.0, sign * 0.949_999, 1.0, 1.0], [0.5, -0.5]);
        made(&mut unit, &Call::Tick(start, t, Way::TwoTicks))?;
        let stores = unit.ours.stores.map(f64::to_bits);
        must("feedback within its ends stays", at_the_end != Some(stores))?;
    }
    Ok(())
}

/// The largest audio at coefficients of 1: the second tick overflows, and from the third on all is NaN until a reset.
fn overflow() -> Result<(), String> {
    let mut unit = Pair::started(RATE)?;
    let last = |unit: &Pair| [3 * STAGES - 1, STORES - 1].map(|place| unit.ours.stores[place]);
    for round in 0..2 {
        for at in 0..6 {
            let audio = if at < 3 { f64::MAX } else { 0.25 };
            ticked(&mut unit, tick_of([audio, 0.0, 1.0, 1.0], [1.0, 1.0]))?;
            let wet = last(&unit);
            let expected = match at {
                0 => wet == [f64::MAX; 2],
                1 => wet == [f64::INFINITY; 2],
                _ => wet.iter().all(|wet| wet.is_nan()),
            };
            must(
                &format!("round {round}, tick {at} leaves {wet:?}"),
                expected,
            )?;
        }
        asked(&mut unit)?;
        let reset = Call::Reset(unit.ours);
        made(&mut unit, &reset)?;
        must("a reset clears", tally::silent(&unit.ours.stores))?;
    }
    Ok(())
}

/// Six stages, then two: the idle ones keep the unit from silence, and at six it sounds again. With coefficients of 0 a stage hands
/// on what came in the tick before.
fn idle_sound() -> Result<(), String> {
    let mut unit = Pair::started(RATE)?;
    let tick = |unit: &mut Pair, audio: f64, stages: f64| {
        ticked(unit, tick_of([audio, 0.0, 1.0, stages], [0.0, 0.0]))
    };
    for _ in 0..8 {
        tick(&mut unit, 2.0, 1.0)?;
    }
    for _ in 0..100 {
        tick(&mut unit, 0.0, 0.0)?;
    }
    let active: Vec<f64> = (0..STORES)
        .filter(|place| place % STAGES < 2)
        .map(|place| unit.ours.stores[place])
        .collect();
    must("the active stages are silent", tally::silent(&active))?;
    must("the idle ones are not", !tally::silent(&unit.ours.stores))?;
    asked(&mut unit)?;
    tick(&mut unit, 0.0, 1.0)?;
    must("it sounds at six", unit.ours.stores[STORES - 1] == 2.0)?;
    for _ in 0..8 {
        tick(&mut unit, 0.0, 1.0)?;
    }
    must("it falls silent at six", tally::silent(&unit.ours.stores))?;
    asked(&mut unit)
}

/// "Silent" of zeros of either sign, and of the same with any other number in each of the places by turns.
fn places_that_sound(random: &mut Random) -> Result<(), String> {
    let mut unit = Pair::started(RATE)?;
    let sounds = [
        1.0,
        f64::from_bits(1),
        -f64::from_bits(1),
        f64::INFINITY,
        f64::NAN,
    ];
    for place in 0..STORES {
        for sound in sounds {
            let mut state = unit.ours;
            state.stores = [(); STORES].map(|()| random.of(&[0.0, -0.0]));
            made(&mut unit, &Call::Silent(state))?;
            state.stores[place] = sound;
            made(&mut unit, &Call::Silent(state))?;
        }
    }
    Ok(())
}

/// A stages control that is NaN is refused, the others too; of an unset port the number is not looked at.
fn refused_stages(random: &mut Random) -> Result<(), String> {
    for port in 1..4 {
        let mut unit = sounding(random)?;
        let mut t = tick_of([1.0, 0.5, 0.5, 0.5], [0.5, 0.25]);
        t.ports[port] = f64::NAN;
        let call = Call::Tick(unit.ours, t, Way::TwoTicks);
        must("a NaN is refused", call.number(&FORM) == table::CONTROL)?;
        made(&mut unit, &call)?;
        t.set &= !(1 << port);
        let call = Call::Tick(unit.ours, t, Way::TwoTicks);
        must("an unset port is not read", call.number(&FORM) == 0)?;
        made(&mut unit, &call)?;
    }
    Ok(())
}

/// +0 and −0 in audio, feedback, mix, coefficients and stores, each with each: whose sign goes where.
fn zeros() -> Result<(), String> {
    let mut unit = Pair::started(RATE)?;
    for signs in 0..256u32 {
        let zero = |i: u32| if signs >> i & 1 == 1 { -0.0 } else { 0.0 };
        let mut state = unit.ours;
        state.lfo_phase = zero(5);
        for (place, store) in state.stores.iter_mut().enumerate() {
            *store = zero(if place < STORES / 2 { 6 } else { 7 });
        }
        for stages in [zero(2), 1.0] {
            for mix in [zero(1), 1.0] {
                let t = tick_of([zero(0), zero(2), mix, stages], [3, 4].map(zero));
                made(&mut unit, &Call::Tick(state, t, Way::TwoTicks))?;
            }
        }
    }
    Ok(())
}
