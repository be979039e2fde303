//! What a clearing costs: our reset beside memset of the same memory. Of the delay with the longest line, 60 s at 192,000, and of the
//! reverb at 48,000. (What a question costs, which is answered without the memory, is in bench/grow.)

use crate::{delay, print_spreads, reverb, Spread};
use room_effects::delay::Settings;
use std::hint::black_box;
use std::time::Instant;

const ROUNDS: usize = 100;

pub fn time() {
    let settings = Settings {
        sample_rate: 192_000.0,
        delay_smooth_coef: 0.5,
        max_delay_secs: 60.0,
        linear_time: 0,
    };
    let (rust, state, memory) = delay::started(&settings);
    drop(rust);
    println!("us a call, a line of {} places", memory.len());
    row("delay", memory, 1, |memory| {
        let mut state = state;
        assert_eq!(room_effects::delay::reset(&mut state, memory), 0);
    });
    let (state, memory) = reverb::started();
    println!("us a call, a tank of {} places", memory.len());
    row("reverb", memory, 100, |memory| {
        let mut state = state;
        assert_eq!(room_effects::reverb::reset(&mut state, memory), 0);
    });
}

/// Each round makes so many calls of each kind.
fn row(name: &str, mut memory: Vec<f64>, calls: usize, reset: impl Fn(&mut [f64])) {
    let mut times = [const { Vec::new() }; 2];
    for round in 0..ROUNDS {
        // Each comes as often after the other as before it: what lies in the cache then is shared out alike.
        let order = if round % 2 == 0 { [0, 1] } else { [1, 0] };
        for which in order {
            let took = timed(&mut memory, calls, |memory| match which {
                0 => reset(memory),
                _ => unsafe { memory.as_mut_ptr().write_bytes(0, memory.len()) },
            });
            times[which].push(took);
        }
    }
    let [reset, memset] = times.map(Spread::of);
    print_spreads(
        &format!("{name} clear"),
        [
            ("reset", reset),
            ("memset", memset),
            ("ratio", reset.over(memset)),
        ],
    );
}

/// Microseconds a call.
fn timed(memory: &mut Vec<f64>, calls: usize, call: impl Fn(&mut [f64])) -> f64 {
    let start = Instant::now();
    for _ in 0..calls {
        call(black_box(&mut *memory));
    }
    let took = start.elapsed().as_secs_f64() * 1e6 / calls as f64;
    black_box(memory);
    took
}
