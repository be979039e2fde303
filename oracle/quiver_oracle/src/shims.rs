//! What quiver's five files name of the rest of quiver. No tick of the ported effects runs any of it, and it panics if one does.

use crate::port::SignalKind;
use alloc::string::String;

pub type StdMap<K, V> = std::collections::HashMap<K, V>;

pub struct Verdict {
    pub warning: Option<String>,
}

impl SignalKind {
    pub fn is_compatible_with(&self, _to: &SignalKind) -> Verdict {
        unimplemented!("quiver's graph is left out")
    }
}

pub mod oversample {
    pub enum Oversample {
        Off,
    }

    pub struct Oversampler;

    impl Oversampler {
        pub fn new(_mode: Oversample) -> Self {
            Self
        }

        pub fn factor(&self) -> usize {
            unimplemented!("quiver's oversampler is left out")
        }

        pub fn process(&mut self, _input: f64, _shape: impl FnMut(f64) -> f64) -> f64 {
            unimplemented!("quiver's oversampler is left out")
        }

        pub fn reset(&mut self) {}
    }
}

pub mod rng {
    const LEFT_OUT: &str = "quiver's random numbers are left out";

    pub fn random() -> f64 {
        unimplemented!("{LEFT_OUT}")
    }

    pub fn random_bipolar() -> f64 {
        unimplemented!("{LEFT_OUT}")
    }

    pub fn derive_seed(_seed: u64, _stream: u64) -> u64 {
        unimplemented!("{LEFT_OUT}")
    }

    pub struct Rng;

    impl Rng {
        pub fn from_seed(_seed: u64) -> Self {
            unimplemented!("{LEFT_OUT}")
        }

        pub fn next_f64(&mut self) -> f64 {
            unimplemented!("{LEFT_OUT}")
        }

        pub fn next_f64_bipolar(&mut self) -> f64 {
            unimplemented!("{LEFT_OUT}")
        }
    }

    #[derive(Default)]
    pub struct ModuleRng;

    impl ModuleRng {
        pub fn new() -> Self {
            Self
        }

        pub fn seed(&mut self, _seed: u64) {}

        pub fn reset(&mut self) {}

        pub fn is_seeded(&self) -> bool {
            unimplemented!("{LEFT_OUT}")
        }

        pub fn next_f64(&mut self) -> f64 {
            unimplemented!("{LEFT_OUT}")
        }

        pub fn next_bipolar(&mut self) -> f64 {
            unimplemented!("{LEFT_OUT}")
        }
    }
}
