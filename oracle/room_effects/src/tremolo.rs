//! The tremolo.

use crate::unlined::State;
use crate::{Tick, Unlined, MOST};

extern "C" {
    fn room_raw_tremolo_start(sample_rate: f64, out_phase: &mut f64, out_rate: &mut f64) -> u32;
    fn room_raw_tremolo_reset(phase: &mut f64, rate: f64) -> u32;
    fn room_raw_tremolo_tick(
        phase: &mut f64,
        rate: f64,
        set: u32,
        audio: f64,
        depth: f64,
        shape: f64,
        frequency: f64,
        sine: f64,
        out: &mut f64,
    ) -> u32;
    fn room_raw_tremolo_silent(phase: f64, rate: f64, out: &mut u32) -> u32;
}

pub struct Tremolo;

/// It stores nothing.
pub const STORES: usize = 0;

impl Unlined<STORES> for Tremolo {
    fn start(state: &mut State<STORES>, sample_rate: f64) -> u32 {
        unsafe { room_raw_tremolo_start(sample_rate, &mut state.lfo_phase, &mut state.sample_rate) }
    }

    fn reset(state: &mut State<STORES>) -> u32 {
        unsafe { room_raw_tremolo_reset(&mut state.lfo_phase, state.sample_rate) }
    }

    #[inline(always)]
    fn tick(state: &mut State<STORES>, t: &Tick, out: &mut [f64; MOST]) -> u32 {
        let [audio, depth, shape, _] = t.ports;
        let [sine, ..] = t.curves;
        unsafe {
            room_raw_tremolo_tick(
                &mut state.lfo_phase,
                state.sample_rate,
                t.set,
                audio,
                depth,
                shape,
                t.frequency,
                sine,
                &mut out[0],
            )
        }
    }

    fn silent(state: &State<STORES>, out: &mut u32) -> u32 {
        unsafe { room_raw_tremolo_silent(state.lfo_phase, state.sample_rate, out) }
    }
}
