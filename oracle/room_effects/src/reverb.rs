//! The reverb.

/// Audio, size, damping, mix, predelay.
pub const PORTS: usize = 5;
pub const LINES: usize = 25;
pub const STORES: usize = 16;

extern "C" {
    fn room_raw_reverb_start(
        new_sample_rate: f64,
        memory: *mut f64,
        places: u64,
        comb_pos_l: &mut [u32; 8],
        comb_pos_r: &mut [u32; 8],
        allpass_pos_l: &mut [u32; 4],
        allpass_pos_r: &mut [u32; 4],
        predelay_pos: &mut u32,
        nonzero_places: &mut u32,
        comb_filter_state_l: &mut [f64; 8],
        comb_filter_state_r: &mut [f64; 8],
        sample_rate: &mut f64,
    ) -> u32;
    fn room_raw_reverb_retune(
        new_sample_rate: f64,
        memory: *mut f64,
        places: u64,
        comb_pos_l: &mut [u32; 8],
        comb_pos_r: &mut [u32; 8],
        allpass_pos_l: &mut [u32; 4],
        allpass_pos_r: &mut [u32; 4],
        predelay_pos: &mut u32,
        nonzero_places: &mut u32,
        comb_filter_state_l: &mut [f64; 8],
        comb_filter_state_r: &mut [f64; 8],
        sample_rate: &mut f64,
    ) -> u32;
    fn room_raw_reverb_reset(
        memory: *mut f64,
        places: u64,
        comb_pos_l: &mut [u32; 8],
        comb_pos_r: &mut [u32; 8],
        allpass_pos_l: &mut [u32; 4],
        allpass_pos_r: &mut [u32; 4],
        predelay_pos: &mut u32,
        nonzero_places: &mut u32,
        comb_filter_state_l: &mut [f64; 8],
        comb_filter_state_r: &mut [f64; 8],
        sample_rate: f64,
    ) -> u32;
    fn room_raw_reverb_tick(
        comb_pos_l: &mut [u32; 8],
        comb_pos_r: &mut [u32; 8],
        allpass_pos_l: &mut [u32; 4],
        allpass_pos_r: &mut [u32; 4],
        predelay_pos: &mut u32,
        nonzero_places: &mut u32,
        comb_filter_state_l: &mut [f64; 8],
        comb_filter_state_r: &mut [f64; 8],
        sample_rate: f64,
        memory: *mut f64,
        places: u64,
        set: u32,
        audio: f64,
        size: f64,
        damping: f64,
        mix: f64,
        predelay: f64,
        out: &mut [f64; 2],
    ) -> u32;
    fn room_raw_reverb_silent(
        comb_pos_l: &[u32; 8],
        comb_pos_r: &[u32; 8],
        allpass_pos_l: &[u32; 4],
        allpass_pos_r: &[u32; 4],
        predelay_pos: u32,
        nonzero_places: u32,
        comb_filter_state_l: &[f64; 8],
        comb_filter_state_r: &[f64; 8],
        sample_rate: f64,
        out: &mut u32,
    ) -> u32;
}

/// The fields of a reverb's state.
#[derive(Clone, Copy, Debug)]
pub struct State {
    pub comb_pos_l: [u32; 8],
    pub comb_pos_r: [u32; 8],
    pub allpass_pos_l: [u32; 4],
    pub allpass_pos_r: [u32; 4],
    pub predelay_pos: u32,
    /// How many places in use are neither +0 nor −0.
    pub nonzero_places: u32,
    pub comb_filter_state_l: [f64; 8],
    pub comb_filter_state_r: [f64; 8],
    pub sample_rate: f64,
}

impl State {
    /// Every position and every store the same, and no place counted.
    pub fn even(position: u32, store: f64, sample_rate: f64) -> Self {
        Self {
            comb_pos_l: [position; 8],
            comb_pos_r: [position; 8],
            allpass_pos_l: [position; 4],
            allpass_pos_r: [position; 4],
            predelay_pos: position,
            nonzero_places: 0,
            comb_filter_state_l: [store; 8],
            comb_filter_state_r: [store; 8],
            sample_rate,
        }
    }

    /// The positions in the order of the tank: combs left and right, all-passes left and right, predelay.
    pub fn positions(&self) -> [u32; LINES] {
        std::array::from_fn(|line| match line {
            0..8 => self.comb_pos_l[line],
            8..16 => self.comb_pos_r[line - 8],
            16..20 => self.allpass_pos_l[line - 16],
            20..24 => self.allpass_pos_r[line - 20],
            _ => self.predelay_pos,
        })
    }

    pub fn position_mut(&mut self, line: usize) -> &mut u32 {
        match line {
            0..8 => &mut self.comb_pos_l[line],
            8..16 => &mut self.comb_pos_r[line - 8],
            16..20 => &mut self.allpass_pos_l[line - 16],
            20..24 => &mut self.allpass_pos_r[line - 20],
            _ => &mut self.predelay_pos,
        }
    }

    /// The damping stores, left and right.
    pub fn stores(&self) -> [f64; STORES] {
        std::array::from_fn(|comb| match comb {
            0..8 => self.comb_filter_state_l[comb],
            _ => self.comb_filter_state_r[comb - 8],
        })
    }

    pub fn store_mut(&mut self, comb: usize) -> &mut f64 {
        match comb {
            0..8 => &mut self.comb_filter_state_l[comb],
            _ => &mut self.comb_filter_state_r[comb - 8],
        }
    }
}

/// A tick's arguments: which ports are set, and their numbers.
#[derive(Clone, Copy, Debug)]
pub struct Tick {
    pub set: u32,
    pub ports: [f64; PORTS],
}

// Sound: each function gets numbers, places of its own to write and a slice's address with its length, and is proved to touch
// nothing else.

/// Writes the state; the number of the refusal, 0 for none.
pub fn start(state: &mut State, memory: &mut [f64], sample_rate: f64) -> u32 {
    unsafe {
        room_raw_reverb_start(
            sample_rate,
            memory.as_mut_ptr(),
            memory.len() as u64,
            &mut state.comb_pos_l,
            &mut state.comb_pos_r,
            &mut state.allpass_pos_l,
            &mut state.allpass_pos_r,
            &mut state.predelay_pos,
            &mut state.nonzero_places,
            &mut state.comb_filter_state_l,
            &mut state.comb_filter_state_r,
            &mut state.sample_rate,
        )
    }
}

pub fn retune(state: &mut State, memory: &mut [f64], sample_rate: f64) -> u32 {
    unsafe {
        room_raw_reverb_retune(
            sample_rate,
            memory.as_mut_ptr(),
            memory.len() as u64,
            &mut state.comb_pos_l,
            &mut state.comb_pos_r,
            &mut state.allpass_pos_l,
            &mut state.allpass_pos_r,
            &mut state.predelay_pos,
            &mut state.nonzero_places,
            &mut state.comb_filter_state_l,
            &mut state.comb_filter_state_r,
            &mut state.sample_rate,
        )
    }
}

pub fn reset(state: &mut State, memory: &mut [f64]) -> u32 {
    unsafe {
        room_raw_reverb_reset(
            memory.as_mut_ptr(),
            memory.len() as u64,
            &mut state.comb_pos_l,
            &mut state.comb_pos_r,
            &mut state.allpass_pos_l,
            &mut state.allpass_pos_r,
            &mut state.predelay_pos,
            &mut state.nonzero_places,
            &mut state.comb_filter_state_l,
            &mut state.comb_filter_state_r,
            state.sample_rate,
        )
    }
}

#[inline(always)]
pub fn tick(state: &mut State, memory: &mut [f64], t: &Tick, out: &mut [f64; 2]) -> u32 {
    let [audio, size, damping, mix, predelay] = t.ports;
    unsafe {
        room_raw_reverb_tick(
            &mut state.comb_pos_l,
            &mut state.comb_pos_r,
            &mut state.allpass_pos_l,
            &mut state.allpass_pos_r,
            &mut state.predelay_pos,
            &mut state.nonzero_places,
            &mut state.comb_filter_state_l,
            &mut state.comb_filter_state_r,
            state.sample_rate,
            memory.as_mut_ptr(),
            memory.len() as u64,
            t.set,
            audio,
            size,
            damping,
            mix,
            predelay,
            out,
        )
    }
}

pub fn silent(state: &State, out: &mut u32) -> u32 {
    unsafe {
        room_raw_reverb_silent(
            &state.comb_pos_l,
            &state.comb_pos_r,
            &state.allpass_pos_l,
            &state.allpass_pos_r,
            state.predelay_pos,
            state.nonzero_places,
            &state.comb_filter_state_l,
            &state.comb_filter_state_r,
            state.sample_rate,
            out,
        )
    }
}
