//! Halves out of turn, the order of the refusals, and what may come between two halves.

use super::call::{Call, What};
use super::directed::Directed;
use super::tanh::Tanh;
use super::Tape;
use crate::counts::as_count;
use crate::run::Made;
use crate::table;
use crate::table::as_position;
use room_effects::tape_delay::{Read, State};

const RATE: f64 = 8_000.0;
const COEFFICIENT: f64 = 0.5;

/// A read half with every port set, and one with a control that is a NaN.
const READ: Read = Read {
    set: 15,
    ports: [0.5, 0.25, 1.25, 0.75],
};
const NO_FEEDBACK: Read = Read {
    set: 15,
    ports: [0.5, 0.25, f64::NAN, 0.75],
};

pub fn run(seed: u64) -> Result<Directed, String> {
    let mut unit = Tape::started(RATE, COEFFICIENT, 1)?;
    orders(&mut unit)?;
    kept(&mut unit)?;
    unit.fill(seed);
    between(&mut unit)?;
    no_number(&mut unit)?;
    dropped(&mut unit)?;
    quiet(&mut unit)?;
    Ok((unit.pairs, unit.ages))
}

fn expect(made: Result<Made, String>, number: u32) -> Result<(), String> {
    match made? {
        Made::Refused(is) if is == number => Ok(()),
        _ => Err(format!("directed: a call should be refused by {number}")),
    }
}

/// A state of the unit in which a read waits, and kept what no read half keeps.
fn waiting(unit: &Tape) -> State {
    State {
        waiting: 1,
        kept: [f64::INFINITY, -0.5, -0.0],
        ..unit.state
    }
}

/// Every call from a state that fits or doesn't, in which a read waits or doesn't, with every choice of wrong arguments and too few
/// places or enough: the first cause of the table's must be given. Accepted halves and clearings are among them.
fn orders(unit: &mut Tape) -> Result<(), String> {
    for choice in 0..128u32 {
        let is = |bit: u32| choice >> bit & 1 == 1;
        let rate = if is(0) { f64::NAN } else { RATE };
        let coefficient = if is(1) { 1.0 } else { COEFFICIENT };
        for what in [
            What::Start {
                rate,
                coefficient,
                seed: 1,
            },
            What::Retune { rate, coefficient },
            What::Reset,
            What::Silent,
            What::Read(if is(0) { NO_FEEDBACK } else { READ }, Tanh::Own),
            What::Store(if is(0) { 1.0f64.next_up() } else { -1.0 }),
        ] {
            let mut state = if is(2) { waiting(unit) } else { idle(unit) };
            if is(4) {
                state.kept = [0.0, 0.5, 1.5];
            }
            if is(6) {
                state.nonzero_places = as_count(unit.length() + 1);
            }
            let call = Call {
                state: State {
                    write_pos: if is(3) { as_position(unit.length()) } else { 7 },
                    ..state
                },
                planted: None,
                lent: unit.length() as usize - usize::from(is(5)),
                what,
            };
            unit.directed(&call)?;
        }
    }
    Ok(())
}

/// Numbers that are nearly those that a state may keep: +0 alone while no read waits, and of one that waits a mix from 0 to 1.
fn kept(unit: &mut Tape) -> Result<(), String> {
    let smallest = f64::from_bits(1);
    for which in 0..3 {
        for number in [-0.0, smallest, 1.0, f64::NAN] {
            let mut state = idle(unit);
            state.kept[which] = number;
            unfit(unit, state)?;
        }
    }
    for mix in [-smallest, 1.0f64.next_up(), f64::INFINITY, f64::NAN] {
        let mut state = waiting(unit);
        state.kept[2] = mix;
        unfit(unit, state)?;
    }
    for mix in [0.0, -0.0, smallest, 1.0] {
        let mut state = waiting(unit);
        state.kept = [f64::NAN, f64::MAX, mix];
        unit.made_from(state, What::Store(0.5))?;
    }
    Ok(())
}

fn unfit(unit: &mut Tape, state: State) -> Result<(), String> {
    for what in [What::Reset, What::Store(0.5), What::Read(READ, Tanh::Own)] {
        expect(unit.made_from(state, what), table::STATE)?;
    }
    Ok(())
}

fn idle(unit: &Tape) -> State {
    State {
        waiting: 0,
        kept: [0.0; 3],
        ..unit.state
    }
}

/// Between a read half and its store half any number of questions and refused calls: none of them counts.
fn between(unit: &mut Tape) -> Result<(), String> {
    for repeated in [1, 3] {
        unit.made(What::Read(READ, Tanh::Own))?;
        let value = unit.rest.ok_or("no read waits")?.saturated;
        for _ in 0..repeated {
            unit.made(What::Silent)?;
            for t in [READ, NO_FEEDBACK] {
                expect(unit.made(What::Read(t, Tanh::Own)), table::TURN)?;
            }
            for wrong in [f64::NAN, 1.0f64.next_up(), -1.0f64.next_up(), f64::INFINITY] {
                expect(unit.made(What::Store(wrong)), table::CURVE)?;
            }
            for (rate, coefficient, number) in [
                (7_999.0, 2.0, table::SAMPLE_RATE),
                (RATE, 2.0, table::COEFFICIENT),
                (9_000.0, COEFFICIENT, table::MEMORY),
            ] {
                let retune = What::Retune { rate, coefficient };
                expect(unit.made(retune), number)?;
            }
            too_little(unit, What::Store(value), table::MEMORY)?;
            too_little(unit, What::Reset, table::MEMORY)?;
            too_little(unit, What::Read(READ, Tanh::Own), table::TURN)?;
        }
        unit.made(What::Store(value))?;
        expect(unit.made(What::Store(value)), table::TURN)?;
        too_little(unit, What::Store(f64::NAN), table::TURN)?;
        too_little(unit, What::Read(NO_FEEDBACK, Tanh::Own), table::MEMORY)?;
        expect(
            unit.made(What::Read(NO_FEEDBACK, Tanh::Own)),
            table::CONTROL,
        )?;
    }
    Ok(())
}

/// A call that is lent one place less than the line has.
fn too_little(unit: &mut Tape, what: What, number: u32) -> Result<(), String> {
    let call = Call {
        state: unit.state,
        planted: None,
        lent: unit.length() as usize - 1,
        what,
    };
    expect(unit.directed(&call), number)
}

/// A NaN that somebody else wrote: the sum is a NaN, and so is what the host makes of it. The store half is refused, the read goes on
/// waiting, and only a clearing or another value ends that. (The Rust stores the NaN.)
fn no_number(unit: &mut Tape) -> Result<(), String> {
    for ends in [What::Store(0.5), What::Store(-0.0), What::Reset] {
        let length = unit.length();
        for back in 1..=3 {
            let at = (u64::from(unit.state.write_pos) + length - back) % length;
            unit.plant(at as usize, f64::NAN);
        }
        let near = Read {
            set: 15,
            ports: [0.5, 0.0, 0.5, 0.5],
        };
        let state = State {
            delay_primed: 0,
            smoothed_delay: 0.0,
            ..unit.state
        };
        unit.made_from(state, What::Read(near, Tanh::Own))?;
        let value = unit.rest.ok_or("no read waits")?.saturated;
        if !value.is_nan() {
            return Err("directed: a NaN was saturated to a number".into());
        }
        for _ in 0..2 {
            expect(unit.made(What::Store(value)), table::CURVE)?;
            expect(unit.made(What::Read(READ, Tanh::Own)), table::TURN)?;
        }
        unit.made(ends)?;
        unit.pair(unit.state, READ, Tanh::Of([1.0, 0.25]))?;
    }
    Ok(())
}

/// A clearing drops a read that waits.
fn dropped(unit: &mut Tape) -> Result<(), String> {
    for again in [false, true] {
        let retune = What::Retune {
            rate: RATE,
            coefficient: COEFFICIENT,
        };
        for clearing in [What::Reset, retune] {
            if again {
                unit.fill(1);
            }
            unit.made(What::Read(READ, Tanh::Own))?;
            unit.made(clearing)?;
            expect(unit.made(What::Store(0.5)), table::TURN)?;
            unit.pair(unit.state, READ, Tanh::Own)?;
        }
    }
    Ok(())
}

/// A unit of which no place is counted is silent unless a read waits, of zeros too.
fn quiet(unit: &mut Tape) -> Result<(), String> {
    unit.made(What::Reset)?;
    let zeros = Read {
        set: 15,
        ports: [0.0, 0.25, 1.25, 0.75],
    };
    for _ in 0..3 {
        unit.made(What::Silent)?;
        unit.made(What::Read(zeros, Tanh::Own))?;
        unit.made(What::Silent)?;
        unit.made(What::Store(0.0))?;
    }
    for state in [idle(unit), waiting(unit)] {
        for nonzero_places in [0, 1, as_count(unit.length())] {
            let state = State {
                nonzero_places,
                ..state
            };
            unit.made_from(state, What::Silent)?;
        }
    }
    Ok(())
}
