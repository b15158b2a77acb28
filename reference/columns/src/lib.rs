//! A number in its columns in plain Rust, from the paragraph of job 5 in document 02: a second writing, which
//! the library's is compared with. Without dependencies and without the Rust sources.
//!
//! A number that fits fills its columns with spaces and then its digits, and every other byte stays.
//! One that does not fit gets its last digits (docs/DECISIONS.md).

use std::io::Write;

/// Puts n in the lent columns.
pub fn put(mut columns: &mut [u8], n: u64) {
    let width = columns.len();
    let digits = n.to_string();
    match digits.len().checked_sub(width) {
        None | Some(0) => write!(columns, "{n:>width$}").expect("it fits"),
        Some(more) => columns.copy_from_slice(&digits.as_bytes()[more..]),
    }
}

/// Puts numbers at the start of the text, each in so many columns, where there is room for all. Answers
/// the bytes.
pub fn put_all(text: &mut [u8], width: usize, numbers: &[u64]) -> usize {
    let bytes = width as u128 * numbers.len() as u128;
    if bytes > text.len() as u128 || width == 0 {
        return 0;
    }
    for (columns, &n) in text.chunks_mut(width).zip(numbers) {
        put(columns, n);
    }
    bytes as usize
}
