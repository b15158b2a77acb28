//! Sheets: the library's writer and reader beside those in plain Rust (`reference/sheets`), on the same
//! tables and the same sheet, in turns.

use crate::clock::Clock;
use crate::{header, input, medians, BLOCKS};
use maybenot_link::sys::{self, Words};
use maybenot_link::Tables;
use std::hint::black_box;

const MACHINES: usize = 16;
const STATES: usize = 100;

/// Tables lent to a reader.
type Lent = [Vec<u64>; 3];
/// The refusal and the bytes.
type Written = (u64, u64);
/// The refusal and the rows of each table.
type Read = (u64, u64, u64, u64);

/// Who writes and reads.
struct Side {
    write: fn(Words<'_>, &mut [u8]) -> Written,
    read: fn(&[u8], &mut Lent) -> Read,
}

const OURS: Side = Side {
    write: |tables, sheet| {
        let answer = sys::sheet_write(tables, sheet);
        (answer.refusal, answer.bytes)
    },
    read: |sheet, [machines, states, transitions]| {
        let answer = sys::sheet_read(sheet, machines, states, transitions);
        (answer.refusal, answer.machines, answer.states, answer.transitions)
    },
};

const PLAIN: Side = Side {
    write: |tables, sheet| sheets::write(tables.machines, tables.states, tables.transitions, sheet),
    read: |sheet, [machines, states, transitions]| {
        sheets::read(sheet, machines, states, transitions)
    },
};

/// Nanoseconds to write the tables.
fn time_write(side: &Side, tables: Words<'_>, sheet: &mut [u8]) -> f64 {
    let start = Clock::start();
    let answer = (side.write)(black_box(tables), black_box(sheet));
    let time = start.nanoseconds();
    assert_eq!(answer, (0, sheet.len() as u64));
    time
}

/// Nanoseconds to read the sheet.
fn time_read(side: &Side, sheet: &[u8], lent: &mut Lent) -> f64 {
    let start = Clock::start();
    let answer = (side.read)(black_box(sheet), black_box(lent));
    let time = start.nanoseconds();
    assert_eq!(answer.0, 0);
    time
}

/// The sheet of these tables. Both sides have written it and read it back.
fn sheet_of(tables: Words<'_>) -> Vec<u8> {
    let all = [tables.machines, tables.states, tables.transitions];
    let rows = [0, 1, 2].map(|k| all[k].len() / sheets::WORDS[k]);
    let [ours, plain] = [OURS, PLAIN].map(|side| {
        let mut sheet = vec![0; 131 * rows[0] + 1223 * rows[1] + 47 * rows[2]];
        assert_eq!((side.write)(tables, &mut sheet), (0, sheet.len() as u64));
        let mut lent = all.map(|table| vec![u64::MAX; table.len()]);
        let [m, s, t] = rows.map(|rows| rows as u64);
        assert_eq!((side.read)(&sheet, &mut lent), (0, m, s, t));
        assert!(lent == all, "the tables come back");
        sheet
    });
    assert!(ours == plain, "both sheets are the same");
    ours
}

/// Nanoseconds to write and to read, each by plain Rust and by ours.
fn times(tables: Words<'_>, sheet: &[u8]) -> [[f64; 2]; 2] {
    let all = [tables.machines, tables.states, tables.transitions];
    let mut sheets = [sheet.to_vec(), sheet.to_vec()];
    let mut lent = [all.map(<[u64]>::to_vec), all.map(<[u64]>::to_vec)];
    let ([plain_sheet, ours_sheet], [plain_lent, ours_lent]) = (&mut sheets, &mut lent);
    let [plain_write, ours_write, plain_read, ours_read] = medians(
        BLOCKS,
        [
            &mut || time_write(&PLAIN, tables, plain_sheet),
            &mut || time_write(&OURS, tables, ours_sheet),
            &mut || time_read(&PLAIN, sheet, plain_lent),
            &mut || time_read(&OURS, sheet, ours_lent),
        ],
    );
    [[plain_write, ours_write], [plain_read, ours_read]]
}

pub fn compare() {
    let tables = Tables::new(&input::machines(MACHINES, STATES)).expect("valid machines");
    let tables = tables.words();
    let words = tables.machines.len() + tables.states.len() + tables.transitions.len();
    let sheet = sheet_of(tables);
    println!("## Sheets\n");
    println!("{MACHINES} machines x {STATES} states: {words} words, {} bytes.\n", sheet.len());
    header(&["", "plain Rust ns", "ours ns", "ratio", "plain Rust ns a word", "ours ns a word"]);
    for (call, [plain, ours]) in ["write", "read"].into_iter().zip(times(tables, &sheet)) {
        let each = |time: f64| time / words as f64;
        print!("| {call} | {plain:.0} | {ours:.0} | {:.2} |", ours / plain);
        println!(" {:.1} | {:.1} |", each(plain), each(ours));
    }
    println!();
}
