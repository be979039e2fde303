//! The reverb's row. It has no curve numbers: the two columns of the Rust are one.

use crate::inputs::Input;
use crate::{Effect, SAMPLE_RATE};
use quiver_oracle::reverb::Unit;
use room_effects::reverb::{start, tick, State, Tick, PORTS};

/// Document 01's tank.
const PLACES: usize = 87_136;

pub struct Reverb {
    rust: Unit,
    ours: State,
    memory: Vec<f64>,
}

/// The name is what callgrind looks for. Two samples go out as ours do, through an address.
#[no_mangle]
#[inline(never)]
extern "C" fn quiver_reverb_tick(
    unit: &mut Unit,
    audio: f64,
    size: f64,
    damping: f64,
    mix: f64,
    predelay: f64,
    out: &mut [f64; 2],
) {
    *out = unit.tick_plain([audio, size, damping, mix, predelay]);
}

/// The predelay is the input's last curve number, folded to 0 to 1.
#[inline(always)]
fn ports(input: &Input) -> [f64; PORTS] {
    let [audio, size, damping, mix] = input.ports;
    [audio, size, damping, mix, input.curves[2].abs()]
}

impl Effect<2> for Reverb {
    const NAME: &'static str = "reverb";

    fn start() -> Self {
        let (ours, memory) = started();
        Self {
            rust: Unit::new(SAMPLE_RATE),
            ours,
            memory,
        }
    }

    #[inline(always)]
    fn hand(&mut self, _input: &Input) {}

    #[inline(always)]
    fn rust(&mut self, input: &Input) -> [f64; 2] {
        let [audio, size, damping, mix, predelay] = ports(input);
        let mut out = [0.0; 2];
        quiver_reverb_tick(
            &mut self.rust,
            audio,
            size,
            damping,
            mix,
            predelay,
            &mut out,
        );
        out
    }

    #[inline(always)]
    fn ours(&mut self, input: &Input) -> [f64; 2] {
        let mut out = [0.0; 2];
        let t = Tick {
            set: 31,
            ports: ports(input),
        };
        tick(&mut self.ours, &mut self.memory, &t, &mut out);
        out
    }
}

/// A unit of ours in a tank of its own.
pub fn started() -> (State, Vec<f64>) {
    let mut memory = vec![0.0; PLACES];
    let mut ours = State::even(0, 0.0, 0.0);
    assert_eq!(start(&mut ours, &mut memory, SAMPLE_RATE), 0);
    (ours, memory)
}
