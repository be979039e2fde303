//! A tick's arguments, drawn, shown, held against the table, and handed to the Rust.

use crate::bits::{agree, shown, word};
use crate::random::Random;
use crate::table;
use libm::script::{asked, hand, SINES};
use quiver_oracle::{Effect, SPREAD};
use room_effects::{Tick, MOST, MOST_PORTS};
use std::f64::consts::TAU;

/// What an effect's tick takes beside audio and a frequency.
pub struct Form {
    pub controls: &'static [Control],
    pub curve: Curve,
    /// Of each sine that the Rust's tick asks for, the phase that it belongs to and what is added to that before the sine is taken.
    /// To each belongs one of our tick's curve numbers.
    pub sines: &'static [(usize, f64)],
}

/// What the curve numbers beside the frequency are: all of them lie in −1 to 1.
pub struct Curve {
    name: &'static str,
    /// Document 01's cause.
    refused: fn(f64) -> bool,
}

pub const SINE: Curve = Curve {
    name: "sine",
    refused: table::sine,
};
pub const COEFFICIENT: Curve = Curve {
    name: "coefficient",
    refused: table::allpass_coefficient,
};

pub struct Control {
    name: &'static str,
    draw: fn(&mut Random) -> f64,
    /// What it is clamped to.
    ends: [f64; 2],
}

impl Control {
    /// A control from 0 to 1.
    pub const fn unit(name: &'static str) -> Self {
        Self {
            name,
            draw: Random::control,
            ends: [0.0, 1.0],
        }
    }
}

pub const DEPTH: Control = Control::unit("depth");
pub const MIX: Control = Control::unit("mix");
pub const FEEDBACK: Control = Control {
    name: "feedback",
    draw: Random::feedback,
    ends: [-0.95, 0.95],
};
pub const STAGES: Control = Control {
    name: "stages",
    draw: Random::stages,
    ends: [0.0, 1.0],
};

/// Of a sine, that nothing is added to its phase: −0 leaves every float as it is.
pub const AS_IT_IS: f64 = -0.0;

/// The sines of a left and a right side. The Rust adds 0 to the left phase: its angle for −0 is +0.
pub const SIDES: &[(usize, f64)] = &[(0, 0.0), (0, SPREAD * 0.5)];

/// A tick of the Rust's effect, with ports set or unset.
pub type Ticks<R> = fn(&mut R, [Option<f64>; MOST_PORTS]) -> [f64; MOST];

impl Form {
    /// Audio and the controls.
    fn ports(&self) -> usize {
        1 + self.controls.len()
    }

    /// The mask with every port set.
    pub fn all_set(&self) -> u32 {
        (1 << self.ports()) - 1
    }

    /// The tick's own numbers.
    pub fn curves_of<'a>(&self, t: &'a Tick) -> &'a [f64] {
        &t.curves[..self.sines.len()]
    }

    /// The ports as document 01 has them, each a number or unset.
    pub fn ports_read(&self, t: &Tick) -> [Option<f64>; MOST_PORTS] {
        std::array::from_fn(|i| ((t.set & self.all_set()) >> i & 1 == 1).then_some(t.ports[i]))
    }

    /// Causes 5 and 6, in the order of a tick.
    pub fn causes(&self, t: &Tick) -> [(u32, bool); 2] {
        let [_audio, controls @ ..] = self.ports_read(t);
        let control = controls.into_iter().any(table::control);
        let mut curves = self.curves_of(t).iter().copied();
        let curve = table::frequency(t.frequency) || curves.any(self.curve.refused);
        [(table::CONTROL, control), (table::CURVE, curve)]
    }

    pub fn listed(&self, t: &Tick) -> String {
        let names = self.controls.iter().map(|control| control.name);
        let mut numbers: Vec<(&str, f64)> = vec![("audio", t.ports[0])];
        numbers.extend(names.zip(t.ports[1..].iter().copied()));
        numbers.push(("frequency", t.frequency));
        let curves = self.curves_of(t).iter();
        numbers.extend(curves.map(|curve| (self.curve.name, *curve)));
        format!("set {:#x}\n  {}", t.set, shown(&numbers))
    }

    /// Arguments that a tick accepts. Each port is unset one time in five, and its number is then any. The mask's other bits,
    /// which no one may read, are set now and then.
    pub fn draw(&self, random: &mut Random, audio: fn(&mut Random) -> f64) -> Tick {
        if random.one_in(16) {
            return self.draw_at_ends(random);
        }
        let set = if random.one_in(8) {
            random.bits() as u32 & !self.all_set()
        } else {
            0
        };
        let ports = self.drawn_ports(random, audio, |control, random| (control.draw)(random));
        let mut t = Tick {
            set,
            ports,
            frequency: random.frequency(),
            curves: self.drawn_curves(random, Random::curve),
        };
        for (i, value) in t.ports[..self.ports()].iter_mut().enumerate() {
            if random.one_in(5) {
                *value = random.any();
            } else {
                t.set |= 1 << i;
            }
        }
        t
    }

    /// Controls and curve numbers at the ends of their range: the audio is multiplied by exactly 0 or 1, which makes a NaN of an
    /// infinity, and a line is read at its nearest or farthest.
    fn draw_at_ends(&self, random: &mut Random) -> Tick {
        let ports = self.drawn_ports(random, Random::extreme, |control, random| {
            random.of(&control.ends)
        });
        Tick {
            set: self.all_set(),
            ports,
            frequency: random.of(&[0.0, 32.0]),
            curves: self.drawn_curves(random, |random| random.of(&[-1.0, 1.0])),
        }
    }

    fn drawn_ports(
        &self,
        random: &mut Random,
        audio: fn(&mut Random) -> f64,
        control: fn(&Control, &mut Random) -> f64,
    ) -> [f64; MOST_PORTS] {
        let mut ports = [0.0; MOST_PORTS];
        ports[0] = audio(random);
        for (port, each) in ports[1..].iter_mut().zip(self.controls) {
            *port = control(each, random);
        }
        ports
    }

    fn drawn_curves(&self, random: &mut Random, curve: fn(&mut Random) -> f64) -> [f64; MOST] {
        let mut curves = [0.0; MOST];
        curves[..self.sines.len()].fill_with(|| curve(random));
        curves
    }

    /// Some of the arguments wrong, several at once too, so that the order of the causes shows; now and then none.
    pub fn draw_wrong(&self, random: &mut Random) -> Tick {
        let mut t = self.draw(random, Random::audio);
        for control in &mut t.ports[1..self.ports()] {
            if random.one_in(4) {
                *control = random.wrong_control();
            }
        }
        if random.one_in(4) {
            t.frequency = random.wrong_frequency();
        }
        if random.one_in(4) {
            t.curves[random.below(self.sines.len() as u64) as usize] = random.wrong_curve();
        }
        t
    }

    /// The words of an accepted tick's arguments in a record: the mask, the ports, the frequency, the other curve numbers.
    pub fn words(&self, t: &Tick) -> Result<Vec<u64>, String> {
        if table::first(&self.causes(t)) != 0 {
            return Err("a tick that is refused is not to be recorded".into());
        }
        let mut words = vec![u64::from(t.set & self.all_set())];
        words.extend(t.ports[..self.ports()].iter().copied().map(word));
        words.push(word(t.frequency));
        words.extend(self.curves_of(t).iter().copied().map(word));
        Ok(words)
    }

    /// The Rust's tick, where the curve numbers are sines.
    pub fn in_rust<R: Effect>(&self, rust: &mut R, t: &Tick) -> Result<[f64; MOST], String> {
        self.with_sines(rust, t, self.curves_of(t), R::tick)
    }

    /// A tick of the Rust's with these sines. Those that it asks for must be those that a host would hand in.
    pub fn with_sines<R: Effect>(
        &self,
        rust: &mut R,
        t: &Tick,
        sines: &[f64],
        tick: Ticks<R>,
    ) -> Result<[f64; MOST], String> {
        let phases = rust.phases().to_vec();
        rust.plant_frequency(t.frequency);
        hand(&SINES, sines);
        let out = tick(rust, self.ports_read(t));
        let angles = asked(&SINES, self.sines.len());
        for ((phase, added), angle) in self.sines.iter().zip(angles) {
            agree("angle of a sine", (phases[*phase] + added) * TAU, angle)?;
        }
        Ok(out)
    }
}
