//! The exported functions of crates/leaf_calls, declared for Rust.

extern "C" {
    fn leaf_whole_part(x: f64) -> u64;
}

pub fn whole_part(x: f64) -> u64 {
    unsafe { leaf_whole_part(x) }
}
