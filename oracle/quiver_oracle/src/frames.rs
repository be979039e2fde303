//! Frames of our own, so that the reference, `tick_generic`, is what runs. Input ports count from 0, output ports from 10.

use crate::port::{InputFrame, OutputFrame, PortId};

const FIRST_OUTPUT: PortId = 10;

/// N input ports, each a number or unset: for comparing.
pub(crate) struct Ports<const N: usize>(pub [Option<f64>; N]);

impl<const N: usize> InputFrame for Ports<N> {
    #[inline(always)]
    fn get_or(&self, id: PortId, default: f64) -> f64 {
        self.0[id as usize].unwrap_or(default)
    }
}

/// N input ports, all set, nothing to test: the cheapest frame, for timing.
pub(crate) struct Plain<const N: usize>(pub [f64; N]);

impl<const N: usize> InputFrame for Plain<N> {
    #[inline(always)]
    fn get_or(&self, id: PortId, _default: f64) -> f64 {
        self.0[id as usize]
    }
}

/// M output ports. A tick that leaves one unset leaves the NaN of `blank` there.
pub(crate) struct Samples<const M: usize>(pub [f64; M]);

impl<const M: usize> Samples<M> {
    #[inline(always)]
    pub(crate) fn blank() -> Self {
        Self([f64::NAN; M])
    }
}

impl<const M: usize> OutputFrame for Samples<M> {
    #[inline(always)]
    fn set(&mut self, id: PortId, value: f64) {
        self.0[(id - FIRST_OUTPUT) as usize] = value;
    }
}
