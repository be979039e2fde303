//! The whole part of a float, `float64::whole_part`, beside the Rust's `as usize`: patterns of every exponent field with both signs.

use crate::random::Random;

const SIGN: u64 = 1 << 63;
const FIELDS: u64 = 1 << 11;
/// The bits of a significand that are stored.
const STORED: u32 = 52;
const ALL_STORED: u64 = (1 << STORED) - 1;

/// Where the cases of the exponent field begin (1, 2^52, 2^64), and other numbers at which a conversion may go wrong.
const ENDS: [f64; 12] = [
    f64::MIN_POSITIVE,
    0.5,
    1.0,
    2.0,
    4_294_967_296.0,
    4_503_599_627_370_496.0,
    9_007_199_254_740_992.0,
    9_223_372_036_854_775_808.0,
    18_446_744_073_709_551_616.0,
    36_893_488_147_419_103_232.0,
    f64::MAX,
    f64::INFINITY,
];

/// Stored bits: none set, all, and of each place that one alone, all but it, and all below it; each once.
fn marked() -> Vec<u64> {
    let at = |place: u32| {
        let one = 1u64 << place;
        [one, ALL_STORED & !one, one - 1]
    };
    let mut bits: Vec<u64> = (0..STORED).flat_map(at).chain([ALL_STORED]).collect();
    bits.sort_unstable();
    bits.dedup();
    bits
}

fn agree(bits: u64) -> Result<(), String> {
    let x = f64::from_bits(bits);
    let (ours, rust) = (leaf_calls::whole_part(x), x as usize as u64);
    if ours == rust {
        return Ok(());
    }
    Err(format!(
        "the whole part of {bits:#018x} ({x:e}) is {ours}, and should be {rust}"
    ))
}

/// Compares at least so many patterns: the ends with the floats beside them, and of each field with each sign as many as of any
/// other, the marked ones first and then any.
pub fn run(patterns: u64, seed: u64) -> Result<String, String> {
    let mut random = Random::new(seed);
    let marked = marked();
    let heads: Vec<u64> = (0..2 * FIELDS).map(|head| head << STORED).collect();
    let each = patterns.div_ceil(heads.len() as u64);
    let drawn = each.saturating_sub(marked.len() as u64);
    let mut compared = 0;
    let mut compare = |bits| {
        compared += 1;
        agree(bits)
    };
    for end in ENDS.map(f64::to_bits) {
        for bits in [end - 1, end, end + 1] {
            compare(bits)?;
            compare(bits | SIGN)?;
        }
    }
    for head in heads {
        for bits in &marked {
            compare(head | bits)?;
        }
        for _ in 0..drawn {
            compare(head | random.bits() & ALL_STORED)?;
        }
    }
    Ok(format!("whole_part: {compared} patterns compared"))
}
