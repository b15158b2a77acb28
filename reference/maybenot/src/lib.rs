//! The Rust of the framework, unchanged: this file and names.rs stand for the lib.rs that is not among the
//! sources, error.rs for the error.rs that is not.

include!("../../build/names.rs");

mod error;
