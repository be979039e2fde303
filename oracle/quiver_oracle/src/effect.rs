//! What the ways into the Rust's effects have in common.

/// What the rate port carries in every tick here: the memo's key. The frequency is planted, so any number does.
pub(crate) const RATE: f64 = 0.3;

/// No effect has more ports beside the rate, or answers more samples. Of a list this long, an effect's own come first.
pub const MOST_PORTS: usize = 4;
pub const MOST_SAMPLES: usize = 3;

/// A unit of an effect.
pub trait Effect: Sized {
    fn new(sample_rate: f64) -> Self;

    fn reset(&mut self);

    fn sample_rate(&self) -> f64;

    fn phases(&self) -> &[f64];

    fn phases_mut(&mut self) -> &mut [f64];

    /// The frequency of the ticks to come.
    fn plant_frequency(&mut self, frequency: f64);

    /// A tick with ports set or unset: audio and the controls. A sample that the tick leaves out is NaN.
    fn tick(&mut self, ports: [Option<f64>; MOST_PORTS]) -> [f64; MOST_SAMPLES];
}

/// A unit of an effect with lines, which one write position goes round.
pub trait Lined: Effect {
    fn set_sample_rate(&mut self, sample_rate: f64);

    fn write_pos(&self) -> usize;

    fn set_write_pos(&mut self, write_pos: usize);

    fn lines(&self) -> &[Vec<f64>];

    fn lines_mut(&mut self) -> &mut [Vec<f64>];
}

/// A unit of an effect without lines, which stores N numbers beside its phase.
pub trait Unlined<const N: usize>: Effect {
    fn stores(&self) -> [f64; N];

    fn set_stores(&mut self, stores: &[f64; N]);
}

/// `Effect` for a unit that wraps the Rust's effect. The effects differ in where their phases lie, and in `tick_ports`.
macro_rules! effect {
    ($unit:ident($effect:ident $(, $more:expr)?), $($phases:tt)*) => {
        impl $crate::effect::Effect for $unit {
            fn new(sample_rate: f64) -> Self {
                Self($effect::new(sample_rate) $(, $more)?)
            }

            fn reset(&mut self) {
                $crate::port::GraphModule::reset(&mut self.0);
            }

            fn sample_rate(&self) -> f64 {
                self.0.sample_rate
            }

            #[inline(always)]
            fn plant_frequency(&mut self, frequency: f64) {
                let memo = &mut self.0.rate_memo;
                $crate::modules::common::inside::plant(memo, [$crate::effect::RATE], frequency);
            }

            fn tick(&mut self, ports: [Option<f64>; $crate::MOST_PORTS]) -> [f64; $crate::MOST_SAMPLES] {
                self.tick_ports(ports)
            }

            $($phases)*
        }
    };
}
pub(crate) use effect;

/// The ticks of a unit whose reference is `tick_generic`, with audio and two controls.
macro_rules! ticks_by_frames {
    ($unit:ident, $samples:literal) => {
        impl $unit {
            #[inline(always)]
            fn tick_frame<const M: usize>(
                &mut self,
                inputs: &impl $crate::port::InputFrame,
            ) -> [f64; M] {
                let mut outputs = $crate::frames::Samples::blank();
                self.0.tick_generic(inputs, &mut outputs);
                outputs.0
            }

            fn tick_ports(
                &mut self,
                ports: [Option<f64>; $crate::MOST_PORTS],
            ) -> [f64; $crate::MOST_SAMPLES] {
                let [audio, first, second, _] = ports;
                let rate = Some($crate::effect::RATE);
                self.tick_frame(&$crate::frames::Ports([audio, rate, first, second]))
            }

            /// A tick with every port set, by the cheapest frame.
            #[inline(always)]
            pub fn tick_plain(&mut self, [audio, first, second]: [f64; 3]) -> [f64; $samples] {
                let rate = $crate::effect::RATE;
                self.tick_frame(&$crate::frames::Plain([audio, rate, first, second]))
            }
        }
    };
}
pub(crate) use ticks_by_frames;
