//! The chorus.

use crate::{Lined, State, Tick};

extern "C" {
    fn room_raw_chorus_tick(
        pos: &mut u32,
        nonzero: &mut u32,
        phases: &mut [f64; 3],
        rate: f64,
        memory: *mut f64,
        places: u64,
        set: u32,
        audio: f64,
        depth: f64,
        mix: f64,
        frequency: f64,
        sine0: f64,
        sine1: f64,
        sine2: f64,
        out: &mut [f64; 3],
        age: &mut u32,
    ) -> u32;
    fn room_raw_chorus_silent(
        pos: u32,
        nonzero: u32,
        phases: &[f64; 3],
        rate: f64,
        out: &mut u32,
    ) -> u32;
}

lined! {
    Chorus,
    room_raw_chorus_start,
    room_raw_chorus_retune,
    room_raw_chorus_reset,

    #[inline(always)]
    fn tick(
        state: &mut State,
        memory: &mut [f64],
        t: &Tick,
        out: &mut [f64; 3],
        age: &mut u32,
    ) -> u32 {
        let [audio, depth, mix, _] = t.ports;
        let [sine0, sine1, sine2] = t.curves;
        unsafe {
            room_raw_chorus_tick(
                &mut state.write_pos,
                &mut state.nonzero_places,
                &mut state.phases,
                state.sample_rate,
                memory.as_mut_ptr(),
                memory.len() as u64,
                t.set,
                audio,
                depth,
                mix,
                t.frequency,
                sine0,
                sine1,
                sine2,
                out,
                age,
            )
        }
    }

    fn silent(state: &State, out: &mut u32) -> u32 {
        unsafe {
            room_raw_chorus_silent(
                state.write_pos,
                state.nonzero_places,
                &state.phases,
                state.sample_rate,
                out,
            )
        }
    }
}
