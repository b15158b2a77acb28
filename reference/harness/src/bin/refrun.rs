//! refrun [--state]: reads linkrun's input and prints what linkrun must print, by the Rust.

use std::io::{Read, Write};

fn main() {
    let with_state = match std::env::args().nth(1).as_deref() {
        None => false,
        Some("--state") => true,
        Some(_) => {
            eprintln!("refrun [--state] < INPUT");
            std::process::exit(2);
        }
    };
    let mut bytes = Vec::new();
    std::io::stdin().read_to_end(&mut bytes).expect("standard input");
    std::io::stdout().write_all(&harness::run(&bytes, with_state)).expect("standard output");
}
