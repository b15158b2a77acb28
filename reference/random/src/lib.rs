//! Random numbers, the same for a seed everywhere. Without dependencies and without the Rust sources, so that the
//! reference, the benchmark and the binding's tests can all use them.

mod inputs;
mod plain;

pub use inputs::Random;
pub use plain::Plain;

/// A word's upper bits as a number from 0 to below 1.
fn unit(word: u64) -> f64 {
    (word >> 11) as f64 / (1u64 << 53) as f64
}

/// The same as an f32.
fn unit_f32(word: u64) -> f32 {
    (word >> 40) as f32 / (1u64 << 24) as f32
}
