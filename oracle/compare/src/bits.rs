//! When two floats are equal here: their bits are, except that every NaN counts as one value. +0 and −0 differ.

const NAN: u64 = 0x7ff8_0000_0000_0000;

/// What a place that a call writes holds before it: nothing that a call would leave there.
pub const JUNK: f64 = 12_345.0;

/// The bits of `x`, of every NaN the same.
pub fn word(x: f64) -> u64 {
    if x.is_nan() {
        NAN
    } else {
        x.to_bits()
    }
}

pub fn equal(a: f64, b: f64) -> bool {
    word(a) == word(b)
}

/// Named floats for a message, in hex and, in brackets, as numbers.
pub fn shown(fields: &[(&str, f64)]) -> String {
    let each = |(name, x): &(&str, f64)| format!("{name} {:#018x} ({x:e})", x.to_bits());
    fields.iter().map(each).collect::<Vec<_>>().join("\n  ")
}

/// Ours and the Rust's must be equal; if not, a message.
pub fn agree(what: &str, ours: f64, rust: f64) -> Result<(), String> {
    if equal(ours, rust) {
        return Ok(());
    }
    Err(format!(
        "{what} differs:\n  {}",
        shown(&[("ours", ours), ("rust", rust)])
    ))
}

/// A place that no one may have written to: every bit as it was, a NaN's too.
pub fn untouched(what: &str, before: f64, after: f64) -> Result<(), String> {
    if before.to_bits() == after.to_bits() {
        return Ok(());
    }
    Err(format!(
        "{what} is not what it should be:\n  {}",
        shown(&[("should be", before), ("is", after)])
    ))
}

pub fn same_count(what: &str, ours: impl Into<u64>, rust: usize) -> Result<(), String> {
    let ours = ours.into();
    if ours == rust as u64 {
        return Ok(());
    }
    Err(format!("{what} is {ours}, and should be {rust}"))
}
