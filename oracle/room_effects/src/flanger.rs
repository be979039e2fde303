//! The flanger.

use crate::{Lined, State, Tick};

extern "C" {
    fn room_raw_flanger_tick(
        pos: &mut u32,
        nonzero: &mut u32,
        phase: &mut f64,
        rate: f64,
        memory: *mut f64,
        places: u64,
        set: u32,
        audio: f64,
        depth: f64,
        feedback: f64,
        mix: f64,
        frequency: f64,
        sine0: f64,
        sine1: f64,
        out: &mut [f64; 3],
        age: &mut u32,
    ) -> u32;
    fn room_raw_flanger_silent(pos: u32, nonzero: u32, phase: f64, rate: f64, out: &mut u32)
        -> u32;
}

lined! {
    Flanger,
    room_raw_flanger_start,
    room_raw_flanger_retune,
    room_raw_flanger_reset,

    #[inline(always)]
    fn tick(
        state: &mut State,
        memory: &mut [f64],
        t: &Tick,
        out: &mut [f64; 3],
        age: &mut u32,
    ) -> u32 {
        let [audio, depth, feedback, mix] = t.ports;
        let [sine0, sine1, _] = t.curves;
        unsafe {
            room_raw_flanger_tick(
                &mut state.write_pos,
                &mut state.nonzero_places,
                &mut state.phases[0],
                state.sample_rate,
                memory.as_mut_ptr(),
                memory.len() as u64,
                t.set,
                audio,
                depth,
                feedback,
                mix,
                t.frequency,
                sine0,
                sine1,
                out,
                age,
            )
        }
    }

    fn silent(state: &State, out: &mut u32) -> u32 {
        unsafe {
            room_raw_flanger_silent(
                state.write_pos,
                state.nonzero_places,
                state.phases[0],
                state.sample_rate,
                out,
            )
        }
    }
}
