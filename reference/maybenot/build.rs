//! Compiles the Rust sources where they lie, unchanged.

include!("../build/sources.rs");

fn main() {
    write_modules(&sources());
}
