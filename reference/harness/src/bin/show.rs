//! show < INPUT: an input in words that a person reads, and the Rust's run of it with the state.

use std::io::Read;

fn main() {
    let mut bytes = Vec::new();
    std::io::stdin().read_to_end(&mut bytes).expect("standard input");
    print!("{}", harness::show::show(&bytes));
    print!("{}", String::from_utf8_lossy(&harness::run(&bytes, true)));
}
