//! The phaser.

use crate::unlined::State;
use crate::{Tick, Unlined, MOST};

/// All-passes in a chain.
pub const STAGES: usize = 6;

/// The last inputs of the all-passes, left and right, then their last outputs, left and right.
pub const STORES: usize = 4 * STAGES;

type Stages = [f64; STAGES];

extern "C" {
    fn room_raw_phaser_start(
        new_sample_rate: f64,
        allpass_x1_l: &mut Stages,
        allpass_x1_r: &mut Stages,
        allpass_y1_l: &mut Stages,
        allpass_y1_r: &mut Stages,
        lfo_phase: &mut f64,
        sample_rate: &mut f64,
    ) -> u32;
    fn room_raw_phaser_reset(
        allpass_x1_l: &mut Stages,
        allpass_x1_r: &mut Stages,
        allpass_y1_l: &mut Stages,
        allpass_y1_r: &mut Stages,
        lfo_phase: &mut f64,
        sample_rate: f64,
    ) -> u32;
    fn room_raw_phaser_tick(
        allpass_x1_l: &mut Stages,
        allpass_x1_r: &mut Stages,
        allpass_y1_l: &mut Stages,
        allpass_y1_r: &mut Stages,
        lfo_phase: &mut f64,
        sample_rate: f64,
        set: u32,
        audio: f64,
        feedback: f64,
        mix: f64,
        stages: f64,
        frequency: f64,
        coef_l: f64,
        coef_r: f64,
        out: &mut [f64; MOST],
    ) -> u32;
    fn room_raw_phaser_silent(
        allpass_x1_l: &Stages,
        allpass_x1_r: &Stages,
        allpass_y1_l: &Stages,
        allpass_y1_r: &Stages,
        lfo_phase: f64,
        sample_rate: f64,
        out: &mut u32,
    ) -> u32;
}

pub struct Phaser;

/// The stores in the parts in which the calls take them.
fn parts(stores: &[f64; STORES]) -> &[Stages; 4] {
    let (parts, _) = stores.as_chunks();
    parts.try_into().unwrap()
}

fn parts_mut(stores: &mut [f64; STORES]) -> &mut [Stages; 4] {
    let (parts, _) = stores.as_chunks_mut();
    parts.try_into().unwrap()
}

impl Unlined<STORES> for Phaser {
    fn start(state: &mut State<STORES>, sample_rate: f64) -> u32 {
        let [x1_l, x1_r, y1_l, y1_r] = parts_mut(&mut state.stores);
        let (phase, rate) = (&mut state.lfo_phase, &mut state.sample_rate);
        unsafe { room_raw_phaser_start(sample_rate, x1_l, x1_r, y1_l, y1_r, phase, rate) }
    }

    fn reset(state: &mut State<STORES>) -> u32 {
        let [x1_l, x1_r, y1_l, y1_r] = parts_mut(&mut state.stores);
        let (phase, rate) = (&mut state.lfo_phase, state.sample_rate);
        unsafe { room_raw_phaser_reset(x1_l, x1_r, y1_l, y1_r, phase, rate) }
    }

    #[inline(always)]
    fn tick(state: &mut State<STORES>, t: &Tick, out: &mut [f64; MOST]) -> u32 {
        let [x1_l, x1_r, y1_l, y1_r] = parts_mut(&mut state.stores);
        let [audio, feedback, mix, stages] = t.ports;
        let [coef_l, coef_r, _] = t.curves;
        unsafe {
            room_raw_phaser_tick(
                x1_l,
                x1_r,
                y1_l,
                y1_r,
                &mut state.lfo_phase,
                state.sample_rate,
                t.set,
                audio,
                feedback,
                mix,
                stages,
                t.frequency,
                coef_l,
                coef_r,
                out,
            )
        }
    }

    fn silent(state: &State<STORES>, out: &mut u32) -> u32 {
        let [x1_l, x1_r, y1_l, y1_r] = parts(&state.stores);
        let (phase, rate) = (state.lfo_phase, state.sample_rate);
        unsafe { room_raw_phaser_silent(x1_l, x1_r, y1_l, y1_r, phase, rate, out) }
    }
}
