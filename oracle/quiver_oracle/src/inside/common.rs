//! Inside the Rust's common.rs: a memo's private fields.

use super::Memo;

/// Leave `value` in the memo as what it last worked out for `keys`: the next call with these keys gets it.
#[inline(always)]
pub(crate) fn plant<const N: usize, V: Copy>(memo: &mut Memo<N, V>, keys: [f64; N], value: V) {
    memo.keys = keys.map(f64::to_bits);
    memo.val = value;
    memo.valid = true;
}
