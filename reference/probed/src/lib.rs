//! The Rust with probes, for counting what a corpus reaches; built otherwise like `maybenot`.

include!("../../build/names.rs");

#[path = "../../maybenot/src/error.rs"]
mod error;
pub mod probe;
