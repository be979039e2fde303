//! The ticks of the effects whose reference is `tick`: flanger and phaser. It reads its ports from quiver's own map and answers in
//! one, as quiver's graph keeps one for each module.

use crate::effect::Effect;
use crate::port::{GraphModule, PortId, PortValues};
use crate::{MOST_PORTS, MOST_SAMPLES};

/// What the spread comes to where its port is unset: the right sine is that of the phase plus half of it.
pub const SPREAD: f64 = 0.5;

const OUTPUTS: [PortId; MOST_SAMPLES] = [10, 11, 12];

/// Its slots are in the order of the ports, where a look-up finds them at once.
pub(crate) struct Map {
    pub inputs: PortValues,
    outputs: PortValues,
}

impl Map {
    /// With every port set: of the inputs, port 0 first, to these numbers.
    pub(crate) fn in_order(inputs: &[f64]) -> Self {
        let mut map = Self {
            inputs: PortValues::new(),
            outputs: PortValues::new(),
        };
        for (id, value) in (0..).zip(inputs) {
            map.inputs.set(id, *value);
        }
        OUTPUTS.into_iter().for_each(|id| map.outputs.set(id, 0.0));
        map
    }

    /// A tick of what the inputs carry. A sample that it leaves out is NaN.
    pub(crate) fn tick(&mut self, effect: &mut impl GraphModule) -> [f64; MOST_SAMPLES] {
        self.outputs.clear();
        effect.tick(&self.inputs, &mut self.outputs);
        OUTPUTS.map(|id| self.outputs.get_or(id, f64::NAN))
    }

    /// The same, but a sample is as it was if the tick leaves it out; slots are read as quiver's graph does it, with no look-up.
    #[inline(always)]
    pub(crate) fn tick_by_slots(&mut self, effect: &mut impl GraphModule) -> [f64; MOST_SAMPLES] {
        effect.tick(&self.inputs, &mut self.outputs);
        [0, 1, 2].map(|slot| self.outputs.value_at(slot).unwrap_or(f64::NAN))
    }
}

/// A unit of such an effect, ticked with every port set.
pub trait Mapped: Effect {
    /// The Rust's own tick. Slots are written with no look-up too; those of the tick itself are left, since nothing but its own
    /// map can be handed to it.
    fn tick_mapped(&mut self, values: [f64; MOST_PORTS]) -> [f64; MOST_SAMPLES];

    /// Its body by the cheapest frame, as the ticks of the other effects: see build.rs.
    fn tick_plain(&mut self, values: [f64; MOST_PORTS]) -> [f64; MOST_SAMPLES];
}

/// The ticks of a unit that keeps its map beside the Rust's effect. First come the ports of our tick, audio and the controls, each
/// with its number; then all ports in order, those of the host as what they come to where they are unset: here they never carry
/// anything else. All is written out and nothing looped over, so that each port is a store.
macro_rules! ticks_by_map {
    ($unit:ident, [$($value:ident: $id:literal),*], [$($port:expr),*]) => {
        impl $unit {
            fn map() -> $crate::map::Map {
                let [$($value),*] = [0.0; $crate::MOST_PORTS];
                $crate::map::Map::in_order(&[$($port),*])
            }

            /// The host's ports are unset.
            fn tick_ports(
                &mut self,
                [$($value),*]: [Option<f64>; $crate::MOST_PORTS],
            ) -> [f64; $crate::MOST_SAMPLES] {
                self.1.inputs.clear();
                $(if let Some(value) = $value {
                    self.1.inputs.set($id, value);
                })*
                self.1.tick(&mut self.0)
            }
        }

        impl $crate::Mapped for $unit {
            #[inline(always)]
            fn tick_mapped(
                &mut self,
                [$($value),*]: [f64; $crate::MOST_PORTS],
            ) -> [f64; $crate::MOST_SAMPLES] {
                $(self.1.inputs.set_at($id, $value);)*
                self.1.tick_by_slots(&mut self.0)
            }

            #[inline(always)]
            fn tick_plain(
                &mut self,
                [$($value),*]: [f64; $crate::MOST_PORTS],
            ) -> [f64; $crate::MOST_SAMPLES] {
                let mut outputs = $crate::frames::Samples::blank();
                self.0.tick_generic(&$crate::frames::Plain([$($port),*]), &mut outputs);
                outputs.0
            }
        }
    };
}
pub(crate) use ticks_by_map;
