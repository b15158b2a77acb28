//! Machine sheets in plain Rust, from the paragraph of job 1 in document 02: a second writing, which
//! the library's is compared with. Without dependencies and without the Rust sources.
//!
//! A line is the row kind (1 machine, 2 state, 3 transition) in 4 columns, then the row's words in 21
//! columns each, all decimal, right-justified with spaces before and no leading zeros, then a line feed.
//! Machine lines come first, then states, then transitions.

use std::io::Write;
use std::iter::zip;
use std::str::from_utf8;

/// Words of a row of each kind.
pub const WORDS: [usize; 3] = [6, 58, 2];
const KIND_COLUMNS: usize = 4;
const WORD_COLUMNS: usize = 21;

/// A table that is not whole rows.
pub const NOT_WHOLE_ROWS: u64 = 3;
/// A malformed or misplaced line.
pub const BAD_LINE: u64 = 22;
/// A lent table or the lent sheet is too small.
pub const TOO_SMALL: u64 = 23;

/// Writes the tables. Answers the refusal or 0, and the bytes written.
pub fn write(
    machines: &[u64],
    states: &[u64],
    transitions: &[u64],
    sheet: &mut [u8],
) -> (u64, u64) {
    let tables = [machines, states, transitions];
    if zip(tables, WORDS).any(|(table, words)| table.len() % words != 0) {
        return (NOT_WHOLE_ROWS, 0);
    }
    let bytes: u128 = zip(tables, WORDS).map(|(table, words)| lines_bytes(table, words)).sum();
    if bytes > sheet.len() as u128 {
        return (TOO_SMALL, 0);
    }
    write_lines(tables, sheet).expect("there is room");
    (0, bytes as u64)
}

/// Bytes of the lines of a table; as u128 no sum of them is too large.
fn lines_bytes(table: &[u64], words: usize) -> u128 {
    let line = KIND_COLUMNS + WORD_COLUMNS * words + 1;
    (table.len() / words) as u128 * line as u128
}

fn write_lines(tables: [&[u64]; 3], mut sheet: &mut [u8]) -> std::io::Result<()> {
    for (kind, (table, words)) in zip(1.., zip(tables, WORDS)) {
        for row in table.chunks(words) {
            write!(sheet, "{kind:>KIND_COLUMNS$}")?;
            for word in row {
                write!(sheet, "{word:>WORD_COLUMNS$}")?;
            }
            writeln!(sheet)?;
        }
    }
    Ok(())
}

/// Reads a sheet into the tables. Answers the refusal or 0, and the rows of each table.
pub fn read(
    sheet: &[u8],
    machines: &mut [u64],
    states: &mut [u64],
    transitions: &mut [u64],
) -> (u64, u64, u64, u64) {
    let Some(found) = read_lines(sheet) else {
        return (BAD_LINE, 0, 0, 0);
    };
    let tables = [machines, states, transitions];
    if zip(&found, &tables).any(|(found, table)| found.len() > table.len()) {
        return (TOO_SMALL, 0, 0, 0);
    }
    for (found, table) in zip(&found, tables) {
        table[..found.len()].copy_from_slice(found);
    }
    let rows = |k: usize| (found[k].len() / WORDS[k]) as u64;
    (0, rows(0), rows(1), rows(2))
}

/// The words of each kind of line, where the sheet has the form.
fn read_lines(sheet: &[u8]) -> Option<[Vec<u64>; 3]> {
    let mut found = [const { Vec::new() }; 3];
    let mut last = 0;
    for line in from_utf8(sheet).ok()?.split_inclusive('\n') {
        let (kind, columns) = line.strip_suffix('\n')?.split_at_checked(KIND_COLUMNS)?;
        let kind = number(kind)? as usize;
        if !(1..=3).contains(&kind) || kind < last {
            return None;
        }
        let words = WORDS[kind - 1];
        if columns.len() != WORD_COLUMNS * words {
            return None;
        }
        for k in 0..words {
            let column = columns.get(WORD_COLUMNS * k..WORD_COLUMNS * (k + 1))?;
            found[kind - 1].push(number(column)?);
        }
        last = kind;
    }
    Some(found)
}

/// The number in a column. `parse` takes a plus sign and leading zeros too, a column does not.
fn number(column: &str) -> Option<u64> {
    let digits = column.trim_start_matches(' ');
    if digits.starts_with('+') || (digits.starts_with('0') && digits != "0") {
        return None;
    }
    digits.parse().ok()
}
