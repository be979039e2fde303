//! The tape delay.

use crate::MOST_PORTS;

extern "C" {
    fn room_raw_tape_delay_start(
        new_sample_rate: f64,
        new_delay_smooth_coef: f64,
        memory: *mut f64,
        places: u64,
        write_pos: &mut u32,
        nonzero_places: &mut u32,
        smoothed_delay: &mut f64,
        kept_audio: &mut f64,
        kept_read: &mut f64,
        kept_mix: &mut f64,
        sample_rate: &mut f64,
        delay_smooth_coef: &mut f64,
        delay_primed: &mut u32,
        waiting: &mut u32,
    ) -> u32;
    fn room_raw_tape_delay_retune(
        new_sample_rate: f64,
        new_delay_smooth_coef: f64,
        memory: *mut f64,
        places: u64,
        write_pos: &mut u32,
        nonzero_places: &mut u32,
        smoothed_delay: &mut f64,
        kept_audio: &mut f64,
        kept_read: &mut f64,
        kept_mix: &mut f64,
        sample_rate: &mut f64,
        delay_smooth_coef: &mut f64,
        delay_primed: &mut u32,
        waiting: &mut u32,
    ) -> u32;
    fn room_raw_tape_delay_reset(
        memory: *mut f64,
        places: u64,
        write_pos: &mut u32,
        nonzero_places: &mut u32,
        smoothed_delay: &mut f64,
        kept_audio: &mut f64,
        kept_read: &mut f64,
        kept_mix: &mut f64,
        sample_rate: f64,
        delay_smooth_coef: f64,
        delay_primed: &mut u32,
        waiting: &mut u32,
    ) -> u32;
    fn room_raw_tape_delay_read_half(
        write_pos: u32,
        nonzero_places: u32,
        smoothed_delay: &mut f64,
        kept_audio: &mut f64,
        kept_read: &mut f64,
        kept_mix: &mut f64,
        sample_rate: f64,
        delay_smooth_coef: f64,
        delay_primed: &mut u32,
        waiting: &mut u32,
        memory: *const f64,
        places: u64,
        set: u32,
        audio: f64,
        time: f64,
        feedback: f64,
        mix: f64,
        sum: &mut f64,
        age: &mut u32,
    ) -> u32;
    fn room_raw_tape_delay_store_half(
        write_pos: &mut u32,
        nonzero_places: &mut u32,
        smoothed_delay: f64,
        kept_audio: &mut f64,
        kept_read: &mut f64,
        kept_mix: &mut f64,
        sample_rate: f64,
        delay_smooth_coef: f64,
        delay_primed: u32,
        waiting: &mut u32,
        memory: *mut f64,
        places: u64,
        saturated: f64,
        out: &mut f64,
    ) -> u32;
    fn room_raw_tape_delay_silent(
        write_pos: u32,
        nonzero_places: u32,
        smoothed_delay: f64,
        kept_audio: f64,
        kept_read: f64,
        kept_mix: f64,
        sample_rate: f64,
        delay_smooth_coef: f64,
        delay_primed: u32,
        waiting: u32,
        out: &mut u32,
    ) -> u32;
}

/// The fields of a tape delay's state. A flag is off where it is 0.
#[derive(Clone, Copy, Debug)]
pub struct State {
    pub write_pos: u32,
    /// How many places of the line are neither +0 nor −0.
    pub nonzero_places: u32,
    pub smoothed_delay: f64,
    /// What a read half keeps for its store half: the audio, what was read, the mix.
    pub kept: [f64; 3],
    pub sample_rate: f64,
    pub delay_smooth_coef: f64,
    pub delay_primed: u32,
    pub waiting: u32,
}

/// The arguments of a read half: which ports are set, and their numbers (audio, time, feedback, mix).
#[derive(Clone, Copy, Debug)]
pub struct Read {
    pub set: u32,
    pub ports: [f64; MOST_PORTS],
}

// Sound: each function gets numbers, places of its own to write and a slice's address with its length, and is proved to touch
// nothing else; of a read half the slice is only read.

/// Writes the state; the number of the refusal, 0 for none.
pub fn start(
    state: &mut State,
    memory: &mut [f64],
    sample_rate: f64,
    delay_smooth_coef: f64,
) -> u32 {
    let [audio, read, mix] = &mut state.kept;
    unsafe {
        room_raw_tape_delay_start(
            sample_rate,
            delay_smooth_coef,
            memory.as_mut_ptr(),
            memory.len() as u64,
            &mut state.write_pos,
            &mut state.nonzero_places,
            &mut state.smoothed_delay,
            audio,
            read,
            mix,
            &mut state.sample_rate,
            &mut state.delay_smooth_coef,
            &mut state.delay_primed,
            &mut state.waiting,
        )
    }
}

pub fn retune(
    state: &mut State,
    memory: &mut [f64],
    sample_rate: f64,
    delay_smooth_coef: f64,
) -> u32 {
    let [audio, read, mix] = &mut state.kept;
    unsafe {
        room_raw_tape_delay_retune(
            sample_rate,
            delay_smooth_coef,
            memory.as_mut_ptr(),
            memory.len() as u64,
            &mut state.write_pos,
            &mut state.nonzero_places,
            &mut state.smoothed_delay,
            audio,
            read,
            mix,
            &mut state.sample_rate,
            &mut state.delay_smooth_coef,
            &mut state.delay_primed,
            &mut state.waiting,
        )
    }
}

pub fn reset(state: &mut State, memory: &mut [f64]) -> u32 {
    let [audio, read, mix] = &mut state.kept;
    unsafe {
        room_raw_tape_delay_reset(
            memory.as_mut_ptr(),
            memory.len() as u64,
            &mut state.write_pos,
            &mut state.nonzero_places,
            &mut state.smoothed_delay,
            audio,
            read,
            mix,
            state.sample_rate,
            state.delay_smooth_coef,
            &mut state.delay_primed,
            &mut state.waiting,
        )
    }
}

/// The first half of a tick: writes the sum, and the age as the other ticks do.
#[inline(always)]
pub fn read_half(state: &mut State, memory: &[f64], t: &Read, sum: &mut f64, age: &mut u32) -> u32 {
    let [audio, time, feedback, mix] = t.ports;
    let [kept_audio, kept_read, kept_mix] = &mut state.kept;
    unsafe {
        room_raw_tape_delay_read_half(
            state.write_pos,
            state.nonzero_places,
            &mut state.smoothed_delay,
            kept_audio,
            kept_read,
            kept_mix,
            state.sample_rate,
            state.delay_smooth_coef,
            &mut state.delay_primed,
            &mut state.waiting,
            memory.as_ptr(),
            memory.len() as u64,
            t.set,
            audio,
            time,
            feedback,
            mix,
            sum,
            age,
        )
    }
}

/// The second half: takes the saturated value, writes the sample.
#[inline(always)]
pub fn store_half(state: &mut State, memory: &mut [f64], saturated: f64, out: &mut f64) -> u32 {
    let [audio, read, mix] = &mut state.kept;
    unsafe {
        room_raw_tape_delay_store_half(
            &mut state.write_pos,
            &mut state.nonzero_places,
            state.smoothed_delay,
            audio,
            read,
            mix,
            state.sample_rate,
            state.delay_smooth_coef,
            state.delay_primed,
            &mut state.waiting,
            memory.as_mut_ptr(),
            memory.len() as u64,
            saturated,
            out,
        )
    }
}

pub fn silent(state: &State, out: &mut u32) -> u32 {
    let [audio, read, mix] = state.kept;
    unsafe {
        room_raw_tape_delay_silent(
            state.write_pos,
            state.nonzero_places,
            state.smoothed_delay,
            audio,
            read,
            mix,
            state.sample_rate,
            state.delay_smooth_coef,
            state.delay_primed,
            state.waiting,
            out,
        )
    }
}
