//! Sines and hyperbolic tangents for timing: successive calls get the next of the numbers that were set last. Taking one is one
//! load from memory, no more than an argument that the caller left in memory would cost, and nothing else.
//!
//! So no counter may run along. The assembler counts: it comes across the loads of a tick, unrolled, in the order in which they
//! run, and gives each the next place. A compiler that lays them out otherwise, or leaves them in a loop, hands a voice the wrong
//! sine; then the sides' sums differ, and the bench stops. For x86-64.

use core::arch::asm;
use core::cell::UnsafeCell;

/// No tick asks for more: the chorus has three voices.
const MOST: usize = 3;

struct Numbers(UnsafeCell<[f64; MOST]>);

// Sound: only one thread of the bench ticks.
unsafe impl Sync for Numbers {}

static NUMBERS: Numbers = Numbers(UnsafeCell::new([0.0; MOST]));

/// The numbers of the ticks to come, in the order in which a tick asks.
#[inline(always)]
pub fn set_numbers<const N: usize>(numbers: [f64; N]) {
    const { assert!(N <= MOST) }
    unsafe { NUMBERS.0.get().cast::<[f64; N]>().write(numbers) }
}

/// A called function that ticks starts with this: the next number is the first again. It leaves no instruction.
#[inline(always)]
pub fn first_number_next() {
    unsafe {
        asm!(
            ".set quiver_number, 0",
            options(nomem, nostack, preserves_flags)
        )
    }
}

/// A sine. Its angle is not worked out: our ticks have none.
#[inline(always)]
pub(crate) fn next_sine(_angle: f64) -> f64 {
    next_number()
}

/// A hyperbolic tangent. What it is of stands in a register first: our read half answers it, so the Rust must work it out too.
#[inline(always)]
pub(crate) fn next_tanh(x: f64) -> f64 {
    unsafe {
        asm!(
            "/* {x} */",
            x = in(xmm_reg) x,
            options(nomem, nostack, preserves_flags)
        )
    }
    next_number()
}

#[inline(always)]
fn next_number() -> f64 {
    let number: f64;
    unsafe {
        asm!(
            "movsd {number}, qword ptr [rip + {numbers} + quiver_number]",
            ".set quiver_number, quiver_number + 8",
            number = out(xmm_reg) number,
            numbers = sym NUMBERS,
            options(readonly, nostack, preserves_flags)
        )
    }
    number
}
