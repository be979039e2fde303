//! The delay.

use crate::MOST_PORTS;

extern "C" {
    fn room_raw_delay_start(
        new_sample_rate: f64,
        new_max_delay_secs: f64,
        new_delay_smooth_coef: f64,
        new_linear_time: u32,
        memory: *mut f64,
        places: u64,
        write_pos: &mut u32,
        nonzero_places: &mut u32,
        smoothed_delay: &mut f64,
        sample_rate: &mut f64,
        delay_smooth_coef: &mut f64,
        max_delay_secs: &mut f64,
        delay_primed: &mut u32,
        linear_time: &mut u32,
    ) -> u32;
    fn room_raw_delay_retune(
        new_sample_rate: f64,
        new_delay_smooth_coef: f64,
        memory: *mut f64,
        places: u64,
        write_pos: &mut u32,
        nonzero_places: &mut u32,
        smoothed_delay: &mut f64,
        sample_rate: &mut f64,
        delay_smooth_coef: &mut f64,
        max_delay_secs: f64,
        delay_primed: &mut u32,
        linear_time: u32,
    ) -> u32;
    fn room_raw_delay_reset(
        memory: *mut f64,
        places: u64,
        write_pos: &mut u32,
        nonzero_places: &mut u32,
        smoothed_delay: &mut f64,
        sample_rate: f64,
        delay_smooth_coef: f64,
        max_delay_secs: f64,
        delay_primed: &mut u32,
        linear_time: u32,
    ) -> u32;
    fn room_raw_delay_tick(
        write_pos: &mut u32,
        nonzero_places: &mut u32,
        smoothed_delay: &mut f64,
        sample_rate: f64,
        delay_smooth_coef: f64,
        max_delay_secs: f64,
        delay_primed: &mut u32,
        linear_time: u32,
        memory: *mut f64,
        places: u64,
        set: u32,
        audio: f64,
        time: f64,
        feedback: f64,
        mix: f64,
        milliseconds: f64,
        out: &mut f64,
        age: &mut u32,
    ) -> u32;
    fn room_raw_delay_silent(
        write_pos: u32,
        nonzero_places: u32,
        smoothed_delay: f64,
        sample_rate: f64,
        delay_smooth_coef: f64,
        max_delay_secs: f64,
        delay_primed: u32,
        linear_time: u32,
        out: &mut u32,
    ) -> u32;
}

/// The fields of a delay's state. A flag is off where it is 0.
#[derive(Clone, Copy, Debug)]
pub struct State {
    pub write_pos: u32,
    /// How many places of the line are neither +0 nor −0.
    pub nonzero_places: u32,
    pub smoothed_delay: f64,
    pub sample_rate: f64,
    pub delay_smooth_coef: f64,
    pub max_delay_secs: f64,
    pub delay_primed: u32,
    pub linear_time: u32,
}

/// What a start is handed.
#[derive(Clone, Copy, Debug)]
pub struct Settings {
    pub sample_rate: f64,
    pub delay_smooth_coef: f64,
    pub max_delay_secs: f64,
    pub linear_time: u32,
}

/// A tick's arguments: which ports are set, their numbers (audio, time, feedback, mix), the curve number.
#[derive(Clone, Copy, Debug)]
pub struct Tick {
    pub set: u32,
    pub ports: [f64; MOST_PORTS],
    pub milliseconds: f64,
}

// Sound: each function gets numbers, places of its own to write and a slice's address with its length, and is proved to touch
// nothing else.

/// Writes the state; the number of the refusal, 0 for none.
pub fn start(state: &mut State, memory: &mut [f64], settings: &Settings) -> u32 {
    unsafe {
        room_raw_delay_start(
            settings.sample_rate,
            settings.max_delay_secs,
            settings.delay_smooth_coef,
            settings.linear_time,
            memory.as_mut_ptr(),
            memory.len() as u64,
            &mut state.write_pos,
            &mut state.nonzero_places,
            &mut state.smoothed_delay,
            &mut state.sample_rate,
            &mut state.delay_smooth_coef,
            &mut state.max_delay_secs,
            &mut state.delay_primed,
            &mut state.linear_time,
        )
    }
}

pub fn retune(
    state: &mut State,
    memory: &mut [f64],
    sample_rate: f64,
    delay_smooth_coef: f64,
) -> u32 {
    unsafe {
        room_raw_delay_retune(
            sample_rate,
            delay_smooth_coef,
            memory.as_mut_ptr(),
            memory.len() as u64,
            &mut state.write_pos,
            &mut state.nonzero_places,
            &mut state.smoothed_delay,
            &mut state.sample_rate,
            &mut state.delay_smooth_coef,
            state.max_delay_secs,
            &mut state.delay_primed,
            state.linear_time,
        )
    }
}

pub fn reset(state: &mut State, memory: &mut [f64]) -> u32 {
    unsafe {
        room_raw_delay_reset(
            memory.as_mut_ptr(),
            memory.len() as u64,
            &mut state.write_pos,
            &mut state.nonzero_places,
            &mut state.smoothed_delay,
            state.sample_rate,
            state.delay_smooth_coef,
            state.max_delay_secs,
            &mut state.delay_primed,
            state.linear_time,
        )
    }
}

#[inline(always)]
pub fn tick(state: &mut State, memory: &mut [f64], t: &Tick, out: &mut f64, age: &mut u32) -> u32 {
    let [audio, time, feedback, mix] = t.ports;
    unsafe {
        room_raw_delay_tick(
            &mut state.write_pos,
            &mut state.nonzero_places,
            &mut state.smoothed_delay,
            state.sample_rate,
            state.delay_smooth_coef,
            state.max_delay_secs,
            &mut state.delay_primed,
            state.linear_time,
            memory.as_mut_ptr(),
            memory.len() as u64,
            t.set,
            audio,
            time,
            feedback,
            mix,
            t.milliseconds,
            out,
            age,
        )
    }
}

pub fn silent(state: &State, out: &mut u32) -> u32 {
    unsafe {
        room_raw_delay_silent(
            state.write_pos,
            state.nonzero_places,
            state.smoothed_delay,
            state.sample_rate,
            state.delay_smooth_coef,
            state.max_delay_secs,
            state.delay_primed,
            state.linear_time,
            out,
        )
    }
}
