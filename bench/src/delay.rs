//! The delay's rows, one for each mode. The line has 2 s, the Rust's own maximum; the glide coefficient is the Rust's own too.

use crate::inputs::Input;
use crate::{Effect, SAMPLE_RATE};
use quiver_oracle::delay::{coefficient, Unit};
use room_effects::delay::{start, tick, Settings, State, Tick};

const MAXIMUM: f64 = 2.0;

/// What the time port carries in every tick of exponential mode: the memo's key. The milliseconds are planted, so any number does.
const TIME: f64 = 0.5;

pub struct Delay<const LINEAR: bool> {
    rust: Unit,
    ours: State,
    memory: Vec<f64>,
}

/// The name is what callgrind looks for.
#[no_mangle]
#[inline(never)]
extern "C" fn quiver_delay_tick(
    unit: &mut Unit,
    audio: f64,
    time: f64,
    feedback: f64,
    mix: f64,
) -> f64 {
    unit.tick_plain([audio, time, feedback, mix])
}

impl<const LINEAR: bool> Delay<LINEAR> {
    #[inline(always)]
    fn ports(input: &Input) -> [f64; 4] {
        let [audio, time, feedback, mix] = input.ports;
        [audio, if LINEAR { time } else { TIME }, feedback, mix]
    }
}

impl<const LINEAR: bool> Effect<1> for Delay<LINEAR> {
    const NAME: &'static str = if LINEAR { "linear_delay" } else { "delay" };

    fn start() -> Self {
        let settings = Settings {
            sample_rate: SAMPLE_RATE,
            delay_smooth_coef: coefficient(SAMPLE_RATE),
            max_delay_secs: MAXIMUM,
            linear_time: u32::from(LINEAR),
        };
        let (rust, ours, memory) = started(&settings);
        Self { rust, ours, memory }
    }

    #[inline(always)]
    fn hand(&mut self, input: &Input) {
        if !LINEAR {
            self.rust.plant_milliseconds(TIME, input.milliseconds);
        }
    }

    #[inline(always)]
    fn rust(&mut self, input: &Input) -> [f64; 1] {
        let [audio, time, feedback, mix] = Self::ports(input);
        [quiver_delay_tick(
            &mut self.rust,
            audio,
            time,
            feedback,
            mix,
        )]
    }

    #[inline(always)]
    fn ours(&mut self, input: &Input) -> [f64; 1] {
        let (mut out, mut age) = (0.0, 0);
        let t = Tick {
            set: 15,
            ports: Self::ports(input),
            milliseconds: input.milliseconds,
        };
        tick(&mut self.ours, &mut self.memory, &t, &mut out, &mut age);
        [out]
    }
}

/// A unit of each side, ours in memory of its own.
pub fn started(settings: &Settings) -> (Unit, State, Vec<f64>) {
    let rust = Unit::new(
        settings.sample_rate,
        settings.max_delay_secs,
        settings.delay_smooth_coef,
        settings.linear_time != 0,
    );
    let mut memory = vec![0.0; rust.line().len()];
    let mut ours = State {
        write_pos: 0,
        nonzero_places: 0,
        smoothed_delay: 0.0,
        delay_primed: 0,
        sample_rate: 0.0,
        delay_smooth_coef: 0.0,
        max_delay_secs: 0.0,
        linear_time: 0,
    };
    assert_eq!(start(&mut ours, &mut memory, settings), 0);
    (rust, ours, memory)
}
