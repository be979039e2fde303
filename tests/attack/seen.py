"""Writes a program that makes many calls of the leaves and of the effects, unusual numbers and refused calls among them, and prints a sum over all
that they answer and leave: one number. A wrong program that prints another is seen to do something else, and so what it is to be proved of is false."""

# crates whose calls the program makes
CRATES = "float64 port common effect tremolo vibrato chorus flanger delay_line tape_delay phaser reverb".split()

COMMON = """// Made by tests/attack/seen.py.
#![tactic(auto)]

use chorus::Chorus;
use common::Line;
use delay_line::DelayLine;
use delay_line::Retune;
use effect::InMemory;
use effect::Ticked;
use effect::Unit;
use effect::WithoutMemory;
use flanger::Flanger;
use phaser::Phaser;
use port::Answer;
use port::Port;
use port::Refusal;
use reverb::Reverb;
use std::io;
use tape_delay::Settings;
use tape_delay::TapeDelay;
use tremolo::Tremolo;
use vibrato::Vibrato;

fn mix(h: u64, x: u64) -> u64 {
    let turned = (h >> 7) | ((h & 127) << 57);
    (turned ^ x).wrapping_add(0x9e37_79b9_7f4a_7c15)
}

// every NaN counts as one value
fn float(h: u64, x: f64) -> u64 {
    if x != x { mix(h, 1) } else { mix(h, f64::to_bits(x)) }
}

fn flag(h: u64, x: bool) -> u64 {
    if x { mix(h, 2) } else { mix(h, 3) }
}

fn special(k: u64) -> f64 {
    let i = (k % 40) as usize;
    if i == 0 {
        return 1.0 / 0.0;
    }
    if i == 1 {
        return -1.0 / 0.0;
    }
    if i == 2 {
        return 0.0 / 0.0;
    }
    let a: [f64; 40] = [0.0, 0.0, 0.0, 0.0, -0.0, 1.0, -1.0, 0.5, -0.5, 0.25, 0.33, 0.999999, 1.000001, 2.0, 2.5, 3.5, 8.0, 9.0, 1.0e-300, 32.0, 32.5, 60.0, 61.0, 0.001, 0.0009, 7999.0, 8000.0, 44100.0, 192000.0, 192001.0, 1500.0, -3.0, 4503599627370495.5, 4503599627370497.0, 9007199254740992.0, 18446744073709549568.0, 18446744073709551616.0, 100000000000000000000.0, -0.95, 0.97];
    a[i]
}

fn fraction(k: u64) -> f64 {
    (k * 37 % 1009) as f64 / 1009.0
}

fn port(k: u64) -> Port {
    if k % 7 == 0 {
        return Port::Unset;
    }
    if k % 29 == 0 {
        return Port::Set(special(k / 29));
    }
    Port::Set(fraction(k))
}

fn frequency(k: u64) -> f64 {
    if k % 31 == 0 { special(k / 31) } else { fraction(k) * 32.0 }
}

fn sine(k: u64) -> f64 {
    if k % 37 == 0 { special(k / 37) } else { fraction(k) * 2.0 - 1.0 }
}

fn audio(k: u64) -> Port {
    if k % 5 == 0 {
        return Port::Set(special(k / 5));
    }
    if k % 11 == 0 {
        return Port::Unset;
    }
    Port::Set(fraction(k) * 4.0 - 2.0)
}

fn places(h: u64, mem: &[f64]) -> u64 {
    let mut sum = h;
    for x in mem {
        sum = float(sum, *x);
    }
    sum
}

fn dirty(mem: &mut [f64]) {
    for (i, place) in mem.iter_mut().enumerate() {
        *place = special(i as u64);
    }
}

// the same of a long memory, in every seventh place, which takes less time
fn dirty_long(mem: &mut [f64]) {
    let mut i: usize = 0;
    while i < mem.len() {
        mem[i] = special(i as u64);
        i += 7;
    }
}

fn answered(h: u64, a: Answer) -> u64 {
    float(float(float(mix(h, a.number() as u64), a.first()), a.second()), a.third())
}

fn asked(h: u64, q: Result<bool, Refusal>) -> u64 {
    mix(mix(h, port::number_of(q) as u64), port::silent_flag(q) as u64)
}

fn cleared(h: u64, o: Result<(), Refusal>) -> u64 {
    mix(h, port::number_of(o) as u64)
}

// the places needed, 2^64 - 1 for a rate that is refused
fn needed(h: u64, n: Option<u64>) -> u64 {
    mix(h, n.unwrap_or(u64::MAX))
}

fn float64_calls() -> u64 {
    let mut h: u64 = 0;
    for i in 0..40 {
        let x = special(i);
        h = flag(flag(flag(flag(h, float64::is_nan(x)), float64::is_finite(x)), float64::is_plus_zero(x)), float64::in_unit(x));
        h = flag(flag(flag(h, float64::rate_fits(x)), float64::coefficient_fits(x)), float64::phase_fits(x));
        h = flag(flag(flag(h, float64::frequency_fits(x)), float64::sine_fits(x)), float64::allpass_fits(x));
        h = mix(mix(float(h, float64::abs(x)), float64::whole_part(x)), float64::round_half_away(x));
        if x >= 1.0 && x < 4503599627370496.0 {
            h = mix(h, float64::whole_part_small(x));
        }
        h = float(h, f64::from((i * 110127366) as u32));
        for j in 0..40 {
            let y = special(j);
            h = float(float(h, float64::at_least(x, y)), float64::at_most(x, y));
            for k in 0..40 {
                let z = special(k);
                h = float(flag(h, float64::in_range(x, y, z)), float64::clamp(x, y, z));
            }
        }
    }
    h
}

fn refusals(h: u64, r: Refusal) -> u64 {
    let n = u32::from(r) as u64;
    asked(answered(cleared(mix(h, n), Err(r)), Answer::Refused(r)), Err(r))
}

fn port_calls() -> u64 {
    let mut h = refusals(refusals(refusals(0, Refusal::SampleRate), Refusal::GlideCoefficient), Refusal::Memory);
    h = refusals(refusals(refusals(refusals(h, Refusal::State), Refusal::Control), Refusal::Curve), Refusal::Turn);
    h = asked(asked(cleared(h, Ok(())), Ok(true)), Ok(false));
    h = answered(answered(answered(h, Answer::One(2.0)), Answer::Two(2.0, 3.0)), Answer::Three(2.0, 3.0, 4.0));
    for i in 0..40 {
        let p = port::port_if(i % 2 == 0, special(i / 2));
        let x = if let Port::Set(x) = p { x } else { 77.0 };
        h = float(h, x);
    }
    h
}

fn common_calls() -> u64 {
    let mut h: u64 = 0;
    for i in 0..40 {
        let x = special(i);
        h = float(h, common::sanitize_audio(x));
        h = cleared(h, common::tick_causes(i % 2 == 0, i % 3 == 0));
        for j in 0..40 {
            h = float(float(h, common::blend(x, fraction(j), special(j))), common::advance_phase(x, special(j)));
            if j < i {
                h = mix(h, common::next_place(i as usize, j as usize) as u64);
            }
            let r = effect::check_rate((i != 0).then_some(i), j as usize);
            h = cleared(cleared(h, effect::check_memory(i, j as usize)), r);
            h = cleared(h, effect::check_state(i % 2 == 0, r));
            h = float(needed(h, common::line_length(x, special(j))), common::held_to_line(x, j as u32));
            h = needed(h, common::line_length(8000.0 + x, fraction(j) * 120.0));
            h = needed(h, common::line_length_whole(x, (j * 3) as u32));
            h = needed(h, common::line_length_whole(8000.0 + x, (j * 3 + 1) as u32));
        }
    }
    h
}

fn line_calls() -> u64 {
    let mut h: u64 = 0;
    let mut mem = [0.0f64; 1300];
    dirty(&mut mem);
    for w in 0..9 {
        for d in 0..57 {
            let distance = 1.0 + d as f64 * 0.125;
            let line = Line { places: &mem[3..12], write_pos: w };
            let heard = line.read(distance);
            h = mix(float(h, heard.sample), heard.age as u64);
        }
    }
    common::clear(&mut mem[5..1100]);
    h = places(h, &mem);
    let refused: Result<(), Refusal> = Err(Refusal::State);
    effect::clear(refused, &mut mem);
    h = places(h, &mem);
    effect::clear(Ok(900), &mut mem[7..900]);
    h = places(h, &mem);
    common::clear(&mut mem);
    for at in 0..1300 {
        mem[at] = special(at as u64);
        h = flag(flag(flag(h, common::all_zero(&mem)), common::all_zero(&mem[..512])), common::all_zero(&mem[1..1025]));
        h = mix(h, common::nonzero(mem[at]) as u64);
        mem[at] = -0.0;
    }
    h
}
"""

# the numbers of a phaser's chains
CHAINS = " ".join(f"allpass_{number}_{side}[{stage}]" for number in ("x1", "y1") for side in "lr" for stage in range(6))

# For each effect: its type, fields, the arguments of a start and of a retune (R a rate, X a number), the places at 8,000, and a tick's arguments
EFFECTS = [
    ("tremolo", "Tremolo", "lfo_phase sample_rate", "new(R)", "", 0, "audio(k), port(k + 1), port(k + 2), frequency(k), sine(k)"),
    ("vibrato", "Vibrato", "write_pos nonzero_places lfo_phase sample_rate", "new(R, mem)", "set_sample_rate(R, mem)", 170,
     "mem, audio(k), port(k + 1), port(k + 2), frequency(k), sine(k)"),
    ("chorus", "Chorus", "write_pos nonzero_places lfo_phases[0] lfo_phases[1] lfo_phases[2] sample_rate", "new(R, mem)", "set_sample_rate(R, mem)", 266,
     "mem, audio(k), port(k + 1), port(k + 2), frequency(k), [sine(k), sine(k + 1), sine(k + 2)]"),
    ("flanger", "Flanger", "write_pos nonzero_places lfo_phase sample_rate", "new(R, mem)", "set_sample_rate(R, mem)", 180,
     "mem, audio(k), port(k + 1), port(k + 2), port(k + 3), frequency(k), sine(k), sine(k + 1)"),
    ("delay_line", "DelayLine", "write_pos nonzero_places sample_rate max_delay_secs linear_time smoothed_delay delay_smooth_coef delay_primed",
     "with_max_delay(R, X, fraction(k + 5), k % 2 == 0, mem)", "set_sample_rate(retuning(R, X), mem)", 401,
     "mem, audio(k), port(k + 1), port(k + 2), port(k + 3), milliseconds(k)"),
    ("phaser", "Phaser", f"{CHAINS} lfo_phase sample_rate", "new(R)", "", 0,
     "audio(k), port(k + 1), port(k + 2), port(k + 3), frequency(k), sine(k), sine(k + 1)"),
]

# NAME crate, TYPE its type, LEFT sums its fields, START and RETUNE calls, TICK arguments, N the places, MEM and MEMS the memory where there is one
EFFECT = """
fn NAME_left(h: u64, s: TYPE) -> u64 {
    let mut sum = h;
LEFT
    sum
}

// a state with its field i put to another value
fn NAME_with(s: TYPE, i: u64, x: f64, n: u64) -> TYPE {
    let mut t = s;
WITH
    t
}

// a question, a tick, a reset and a retune of any state
fn NAME_each(h: u64, s: TYPE, mem: &mut [f64], k: u64) -> u64 {
    let mut sum = asked(h, s.silent());
    let t = s.tick(TICK);
    let a = t.answer;
    let next = t.state;
    sum = NAME_left(mix(answered(sum, a), t.age as u64), next);
    sum = places(asked(sum, next.silent()), mem);
    let c = s.reset(WRITE);
    let left = c.state;
    sum = places(NAME_left(cleared(sum, c.outcome), left), mem);
RETUNE
    sum
}

fn NAME_calls() -> u64 {
    let mut lent = [0.0f64; 1300];
    let mut h: u64 = 0;
    for k in 0..40 {
        for short in 0..3 {
            let end = SIZE;
            dirty(&mut lent);
            let mem = &mut lent[..end];
            let c = TYPE::STARTSPECIAL;
            let left = c.state;
            h = places(NAME_left(cleared(h, c.outcome), left), mem);
            h = NAME_each(h, left, mem, k);
        }
        h = needed(h, TYPE::NEEDED);
    }
    let mem = &mut lent[..N];
    for part in 0..2 {
        let k = part;
        let c = TYPE::STARTRUN;
        let mut s = c.state;
        for k in 1..900 {
            let t = s.tick(TICK);
            let a = t.answer;
            s = t.state;
            h = NAME_left(mix(answered(h, a), t.age as u64), s);
        }
        h = places(asked(h, s.silent()), mem);
AGAIN
        for i in 0..FIELDS {
            for v in 0..40 {
                h = NAME_each(h, NAME_with(s, i, special(v), v), mem, v * 7 + i + 1);
            }
        }
    }
    h
}
"""

# an accepted retune of a state that has moved on
AGAIN = """        let moved = s.CALL;
        h = places(NAME_left(cleared(h, moved.outcome), moved.state), mem);"""

RETUNE = """    dirty(mem);
    let r = s.CALL;
    let left = r.state;
    sum = places(NAME_left(cleared(sum, r.outcome), left), mem);"""

MILLISECONDS = """
fn retuning(rate: f64, coefficient: f64) -> Retune {
    Retune { rate, coefficient }
}

fn milliseconds(k: u64) -> f64 {
    if k % 13 == 0 { special(k / 13) } else { fraction(k) * 60.0 }
}
"""


SETTINGS = """
fn nan_if(x: f64, nan: bool) -> f64 {
    if nan { 0.0 / 0.0 } else { x }
}

// the delay's settings, one unusual and two, and every set of NaNs that a tick may get
fn settings_calls() -> u64 {
    let mut lent = [0.0f64; 401];
    let mut h: u64 = 0;
    for k in 0..40 {
        dirty(&mut lent);
        let mem = &mut lent[..];
        let c = DelayLine::with_max_delay(special(k), 0.05, special(k + 19), false, mem);
        h = places(delay_line_left(cleared(h, c.outcome), c.state), mem);
        let d = DelayLine::with_max_delay(8000.0, 0.05, special(k), false, mem);
        h = places(delay_line_left(cleared(h, d.outcome), d.state), mem);
        let e = DelayLine::with_max_delay(8000.0, 0.05, 0.5, k >= 16, mem);
        let s = e.state;
        let t = s.tick(mem, Port::Set(1.0), Port::Set(nan_if(0.01, k % 2 == 0)), Port::Set(nan_if(0.5, k / 2 % 2 == 0)), Port::Set(nan_if(0.5, k / 4 % 2 == 0)), nan_if(10.0, k / 8 % 2 == 0));
        h = places(delay_line_left(mix(answered(h, t.answer), t.age as u64), t.state), mem);
        let r = s.set_sample_rate(retuning(8000.0, special(k)), mem);
        h = places(delay_line_left(cleared(h, r.outcome), r.state), mem);
        h = needed(h, DelayLine::places_needed(8000.0, special(k)));
    }
    h
}
"""


REVERB = """
fn words(h: u64, a: &[u32]) -> u64 {
    let mut sum = h;
    for x in a {
        sum = mix(sum, *x as u64);
    }
    sum
}

fn tank(h: u64, mem: &[f64]) -> u64 {
    let mut sum = h;
    let mut i: usize = 0;
    while i < mem.len() {
        sum = float(sum, mem[i]);
        i += 61;
    }
    sum
}

fn reverb_left(h: u64, s: Reverb) -> u64 {
    let a = s.comb_pos_l;
    let b = s.comb_pos_r;
    let c = s.allpass_pos_l;
    let d = s.allpass_pos_r;
    let e = s.comb_filter_state_l;
    let f = s.comb_filter_state_r;
    let positions = words(words(words(words(h, &a), &b), &c), &d);
    float(mix(mix(places(places(positions, &e), &f), s.predelay_pos as u64), s.nonzero_places as u64), s.sample_rate)
}

// a state with one of its positions, its stores or its rate put to another value
fn reverb_with(s: Reverb, i: u64, p: u32, x: f64) -> Reverb {
    let mut t = s;
    let j = (i % 8) as usize;
    let q = (i % 4) as usize;
    if i < 8 {
        let mut a = s.comb_pos_l;
        a[j] = p;
        t.comb_pos_l = a;
    } else if i < 16 {
        let mut a = s.comb_pos_r;
        a[j] = p;
        t.comb_pos_r = a;
    } else if i < 24 {
        let mut a = s.comb_filter_state_l;
        a[j] = x;
        t.comb_filter_state_l = a;
    } else if i < 32 {
        let mut a = s.comb_filter_state_r;
        a[j] = x;
        t.comb_filter_state_r = a;
    } else if i < 36 {
        let mut a = s.allpass_pos_l;
        a[q] = p;
        t.allpass_pos_l = a;
    } else if i < 40 {
        let mut a = s.allpass_pos_r;
        a[q] = p;
        t.allpass_pos_r = a;
    } else if i == 40 {
        t.predelay_pos = p;
    } else if i == 41 {
        t.nonzero_places = p;
    } else {
        t.sample_rate = x;
    }
    t
}

fn reverb_each(h: u64, s: Reverb, mem: &mut [f64], k: u64) -> u64 {
    let mut sum = asked(h, s.silent());
    let t = s.tick(mem, audio(k), port(k + 1), port(k + 2), port(k + 3), port(k + 4));
    let a = t.answer;
    sum = tank(reverb_left(mix(answered(sum, a), t.age as u64), t.state), mem);
    let c = s.reset(mem);
    sum = tank(reverb_left(cleared(sum, c.outcome), c.state), mem);
    dirty_long(mem);
    let r = s.set_sample_rate(special(k), mem);
    tank(reverb_left(cleared(sum, r.outcome), r.state), mem)
}

// starts at unusual rates, in memory that is one place short, just enough and one place more
fn reverb_starts(lent: &mut [f64]) -> u64 {
    let mut h: u64 = 0;
    for k in 0..40 {
        for short in 0..3 {
            dirty_long(lent);
            let mem = &mut lent[..87135 + short];
            let c = Reverb::new(special(k), mem);
            h = tank(reverb_left(cleared(h, c.outcome), c.state), mem);
            h = reverb_each(h, c.state, mem, k);
        }
        h = needed(h, Reverb::places_needed(special(k)));
    }
    h
}

// one place that sounds, all over the tank, and a question; then one store that sounds, over a tank of zeros
fn reverb_questions(h: u64, mem: &mut [f64]) -> u64 {
    let c = Reverb::new(44100.0, mem);
    let s = c.state;
    let mut sum = h;
    let mut i: usize = 0;
    while i < mem.len() {
        mem[i] = 1.0;
        sum = asked(sum, s.silent());
        mem[i] = -0.0;
        i += 101;
    }
    for k in 0..16 {
        sum = asked(sum, reverb_with(s, 16 + k, 0, 1.0).silent());
    }
    sum
}

fn reverb_calls() -> u64 {
    let mut lent = [0.0f64; 87140];
    let mut h = reverb_starts(&mut lent);
    let mem = &mut lent[..87136];
    let c = Reverb::new(8000.0, mem);
    let mut s = c.state;
    for k in 1..700 {
        let t = s.tick(mem, audio(k), port(k + 1), port(k + 2), port(k + 3), port(k + 4));
        let a = t.answer;
        s = t.state;
        h = reverb_left(mix(answered(h, a), t.age as u64), s);
    }
    h = tank(h, mem);
    let at: [u32; 6] = [0, 50, 202, 300, 5000, 4294967295];
    for i in 0..43 {
        for v in 0..6 {
            h = reverb_each(h, reverb_with(s, i, at[v], special(v as u64 * 7 + i)), mem, v as u64 * 9 + i + 1);
        }
    }
    let r = s.set_sample_rate(44100.0, mem);
    h = tank(reverb_left(h, r.state), mem);
    h = reverb_questions(h, mem);
    // a state that passes, in memory that is one place short
    reverb_each(h, s, &mut lent[..87135], 27)
}
"""

# A tick is two calls, and the line has 96,001 places at 8,000
TAPE_FIELDS = "write_pos nonzero_places smoothed_delay delay_primed waiting kept.audio kept.read kept.mix sample_rate delay_smooth_coef"
TAPE = """
fn handing(rate: f64, coefficient: f64) -> Settings {
    Settings { rate, coefficient }
}

fn tape_left(h: u64, s: TapeDelay) -> u64 {
    let mut sum = h;
LEFT
    sum
}

// a state with its field i put to another value
fn tape_with(s: TapeDelay, i: u64, x: f64, n: u64) -> TapeDelay {
    let mut t = s;
WITH
    t
}

// a port that goes to more than 1, as a tape's time and feedback do
fn port_to(k: u64, most: f64) -> Port {
    if let Port::Set(x) = port(k) { Port::Set(x * most) } else { Port::Unset }
}

fn read(s: TapeDelay, mem: &[f64], k: u64) -> Ticked<TapeDelay> {
    s.read_half(mem, audio(k), port_to(k + 1, 15.0), port_to(k + 2, 2.0), port(k + 3))
}

// a clamp for the host's saturation
fn store(s: TapeDelay, mem: &mut [f64], k: u64, sum: f64) -> Ticked<TapeDelay> {
    let saturated = if k % 17 == 0 { special(k / 17) } else { float64::clamp(sum / 5.0, -1.0, 1.0) };
    s.store_half(mem, saturated)
}

fn half(h: u64, t: Ticked<TapeDelay>) -> u64 {
    tape_left(mix(answered(h, t.answer), t.age as u64), t.state)
}

// a question, each half twice, so that one is out of turn, a reset and a retune of any state
fn tape_each(h: u64, s: TapeDelay, mem: &mut [f64], k: u64) -> u64 {
    let mut sum = half(asked(h, s.silent()), store(s, mem, k, sine(k)));
    let a = read(s, mem, k);
    let heard = a.answer.first();
    let b = read(a.state, mem, k + 1);
    let waits = b.state;
    sum = asked(half(half(sum, a), b), waits.silent());
    let c = store(waits, mem, k + 2, heard);
    let d = store(c.state, mem, k + 3, heard);
    let left = d.state;
    sum = tank(asked(half(half(sum, c), d), left.silent()), mem);
    let e = waits.reset(mem);
    sum = tank(asked(tape_left(cleared(sum, e.outcome), e.state), e.state.silent()), mem);
    dirty_long(mem);
    let r = waits.set_sample_rate(handing(special(k), fraction(k)), mem);
    sum = tank(tape_left(cleared(sum, r.outcome), r.state), mem);
    dirty_long(mem);
    let q = s.set_sample_rate(handing(8000.0, special(k)), mem);
    tank(tape_left(cleared(sum, q.outcome), q.state), mem)
}

// starts with unusual settings, in memory that is one place short, just enough and one place more
fn tape_starts(lent: &mut [f64]) -> u64 {
    let mut h: u64 = 0;
    for k in 0..40 {
        for short in 0..3 {
            let mem = &mut lent[..96000 + short];
            dirty_long(mem);
            let c = TapeDelay::new(handing(special(k), special(k + 19)), mem);
            h = tank(tape_left(cleared(h, c.outcome), c.state), mem);
            let d = TapeDelay::new(handing(8000.0, special(k)), mem);
            h = tank(tape_left(cleared(h, d.outcome), d.state), mem);
            h = tape_each(h, d.state, mem, k);
        }
        h = needed(h, TapeDelay::places_needed(special(k)));
    }
    h
}

fn tape_calls() -> u64 {
    let mut lent = [0.0f64; 96005];
    let mut h = tape_starts(&mut lent);
    let mem = &mut lent[..96002];
    let c = TapeDelay::new(handing(8000.0, 0.75), mem);
    let mut s = c.state;
    dirty_long(mem);
    for k in 1..900 {
        let a = read(s, mem, k);
        let b = store(a.state, mem, k, a.answer.first());
        s = b.state;
        h = half(half(h, a), b);
        if s.waiting {
            let c = s.reset(mem);
            s = c.state;
            dirty_long(mem);
        }
    }
    h = tank(h, mem);
    let a = read(s, mem, 1);
    let waits = a.state;
    for i in 0..FIELDS {
        // few positions, and few of each flag
        let most = if i == 0 || i == 3 || i == 4 { 4 } else { 40 };
        for v in 0..most {
            dirty_long(mem);
            let before = if v % 2 == 0 { s } else { waits };
            h = tape_each(h, tape_with(before, i, special(v), v), mem, v * 7 + i + 1);
        }
    }
    h
}
"""


def field(name, i):
    """Two lines of code for a field: what it adds to the sum, and how it is put to another value."""
    kind = "mix" if name in ("write_pos", "nonzero_places") else "flag" if name in ("linear_time", "delay_primed", "waiting") else "float"
    value = {"mix": "(n * 11) as u32", "flag": "n % 2 == 0", "float": "x"}[kind]
    return f"    sum = {kind}(sum, s.{name}{' as u64' if kind == 'mix' else ''});", f"    if i == {i} {{\n        t.{name} = {value};\n    }}"


def effect(name, kind, fields, start, retune, n, tick):
    lines = [field(f, i) for i, f in enumerate(fields.split())]
    memory = "mem" in tick
    run = start.replace("R", "8000.0", 1).replace("X", "0.05")
    parts = {
        "AGAIN": AGAIN.replace("CALL", retune.replace("R", "8000.0", 1).replace("X", "0.5")) if retune else "",
        "RETUNE": RETUNE.replace("CALL", retune.replace("R", "special(k)", 1).replace("X", "fraction(k)")) if retune else "",
        "LEFT": "\n".join(a for a, _ in lines), "WITH": "\n".join(b for _, b in lines), "FIELDS": str(len(lines)),
        "STARTSPECIAL": start.replace("R", "special(k)", 1).replace("X", "special(k + 19)"), "STARTRUN": run,
        "NEEDED": "places_needed(special(k), special(k + 3))" if "X" in start else "places_needed(special(k))",
        "SIZE": f"{n} - 1 + short" if n else "0", "WRITE": "mem" if memory else "",
        "TICK": tick, "TYPE": kind, "NAME": name,
    }
    text = EFFECT
    for key, part in parts.items():
        text = text.replace(key, part)
    return text.replace("[..N]", f"[..{n + 7 if n else 0}]")


def tape():
    lines = [field(f, i) for i, f in enumerate(TAPE_FIELDS.split())]
    parts = {"LEFT": "\n".join(a for a, _ in lines), "WITH": "\n".join(b for _, b in lines), "FIELDS": str(len(lines))}
    text = TAPE
    for key, part in parts.items():
        text = text.replace(key, part)
    return text


def program():
    text = COMMON + MILLISECONDS + "".join(effect(*e) for e in EFFECTS) + SETTINGS + REVERB + tape()
    names = ["float64", "port", "common", "line"] + [e[0] for e in EFFECTS] + ["settings", "reverb", "tape"]
    body = ["let mut sum = 1;"] + [f"sum = mix(sum, {n}_calls());" for n in names] + ['println!(rt; "{sum}")?;', "Ok(())"]
    return text + "\nfn main(rt: HostRuntime) -> io::Result<()> {\n" + "".join(f"    {line}\n" for line in body) + "}\n"
