//! Sheets: a good one is read and written back as it is, any other is refused, and what was not read or
//! written stays.

mod common;

use common::{any_dist, machines, pads, Random};
use maybenot_link::sys::{
    self, SheetBytes, SheetRows, Words, MACHINE_LINE, MACHINE_WORDS, STATE_LINE, STATE_WORDS,
    TRANSITION_LINE, TRANSITION_WORDS,
};
use maybenot_link::{Refusal, Tables};

const MARK: u64 = 0xaaaa_aaaa_aaaa_aaaa;
const WIDTHS: [usize; 3] = [MACHINE_WORDS, STATE_WORDS, TRANSITION_WORDS];
const LINES: [usize; 3] = [MACHINE_LINE, STATE_LINE, TRANSITION_LINE];
/// Machines, states, transitions.
type Three = [Vec<u64>; 3];

// ---- reading and writing

/// The reader's answer, and the tables as it leaves them. What lies behind the lent room must stay.
#[track_caller]
fn read_into(sheet: &[u8], room: [usize; 3]) -> (SheetRows, Three) {
    let mut tables = room.map(|len| vec![MARK; len + STATE_WORDS]);
    let [machines, states, transitions] = &mut tables;
    let rows = sys::sheet_read(
        sheet,
        &mut machines[..room[0]],
        &mut states[..room[1]],
        &mut transitions[..room[2]],
    );
    for (table, len) in tables.iter_mut().zip(room) {
        assert_eq!(table.split_off(len), [MARK; STATE_WORDS]);
    }
    (rows, tables)
}

/// Room for a sheet of this length, whatever its lines.
fn room_for(sheet: &[u8]) -> [usize; 3] {
    [0, 1, 2].map(|k| sheet.len() / LINES[k] * WIDTHS[k])
}

/// The refusal, with which nothing may have been written and all counts are 0.
#[track_caller]
fn refused(sheet: &[u8], room: [usize; 3]) -> u64 {
    let (rows, tables) = read_into(sheet, room);
    let refusal = rows.refusal;
    assert_eq!(rows, SheetRows { refusal, machines: 0, states: 0, transitions: 0 });
    assert!(tables.iter().flatten().all(|word| *word == MARK));
    refusal
}

/// The tables of a good sheet; the words behind what was read must stay.
#[track_caller]
fn read(sheet: &[u8]) -> Three {
    let (rows, mut tables) = read_into(sheet, room_for(sheet));
    assert_eq!(rows.refusal, 0);
    let counts = [rows.machines, rows.states, rows.transitions];
    for (k, table) in tables.iter_mut().enumerate() {
        let behind = table.split_off(counts[k] as usize * WIDTHS[k]);
        assert!(behind.iter().all(|word| *word == MARK));
    }
    tables
}

fn words(tables: &Three) -> Words<'_> {
    Words { machines: &tables[0], states: &tables[1], transitions: &tables[2] }
}

#[track_caller]
fn written(tables: &Three) -> Vec<u8> {
    let mut sheet = vec![0; words(tables).sheet_len()];
    let written = sys::sheet_write(words(tables), &mut sheet);
    assert_eq!(written, SheetBytes { refusal: 0, bytes: sheet.len() as u64 });
    sheet
}

/// Refused as 22, whatever the room, or else the sheet of the tables that are read.
#[track_caller]
fn accepted(sheet: &[u8]) -> bool {
    if read_into(sheet, room_for(sheet)).0.refusal == 0 {
        assert_eq!(written(&read(sheet)), sheet);
        return true;
    }
    assert_eq!(refused(sheet, room_for(sheet)), 22);
    assert_eq!(refused(sheet, [0; 3]), 22);
    false
}

// ---- sheets by `format!`

fn line(kind: usize, cells: &[String]) -> String {
    let cells: String = cells.iter().map(|cell| format!("{cell:>21}")).collect();
    format!("{kind:>4}{cells}\n")
}

fn printed(tables: &Three) -> String {
    let lines = |k: usize| tables[k].chunks(WIDTHS[k]).map(move |row| (k, row));
    let cells = |row: &[u64]| row.iter().map(u64::to_string).collect::<Vec<_>>();
    [0, 1, 2].into_iter().flat_map(lines).map(|(k, row)| line(k + 1, &cells(row))).collect()
}

/// A word with any number of digits.
fn word(random: &mut Random) -> u64 {
    match random.below(4) {
        0 => random.word() >> random.below(64),
        1 => 10_u64.pow(random.below(20) as u32) - random.below(2) as u64,
        2 => u64::MAX - random.below(3) as u64,
        _ => random.below(12) as u64,
    }
}

fn any_tables(random: &mut Random, rows: [usize; 3]) -> Three {
    [0, 1, 2].map(|k| (0..rows[k] * WIDTHS[k]).map(|_| word(random)).collect())
}

fn any_sheet(seed: u64, rows: [usize; 3]) -> Vec<u8> {
    written(&any_tables(&mut Random::new(seed), rows))
}

/// The sheet of a line of this kind, with one cell as it is given.
fn with_cell(kind: usize, at: usize, cell: &str) -> Vec<u8> {
    let mut cells: Vec<String> = (0..WIDTHS[kind]).map(|k| (7 * k).to_string()).collect();
    cells[at] = cell.into();
    line(kind + 1, &cells).into()
}

// ---- tests

#[test]
fn written_as_printed_and_read_back() {
    let mut random = Random::new(61);
    for _ in 0..300 {
        let rows = [0; 3].map(|_| random.below(4));
        let tables = any_tables(&mut random, rows);
        let sheet = written(&tables);
        assert_eq!(String::from_utf8(sheet.clone()).unwrap(), printed(&tables));
        assert_eq!(read(&sheet), tables);
    }
    // more machines than an opening takes, and many rows
    let tables = any_tables(&mut random, [40, 300, 2000]);
    assert_eq!(read(&written(&tables)), tables);
}

#[test]
fn the_empty_sheet_has_no_rows() {
    let none = [vec![], vec![], vec![]];
    assert_eq!(read(b""), none);
    assert_eq!(written(&none), b"");
    let (rows, tables) = read_into(b"", [7, 59, 3]);
    assert_eq!(rows, SheetRows { refusal: 0, machines: 0, states: 0, transitions: 0 });
    assert!(tables.iter().flatten().all(|word| *word == MARK));
}

/// Any byte of a sheet as another one: no sheet, or the sheet of other tables.
#[test]
fn every_byte_is_judged() {
    let good = any_sheet(62, [2, 1, 3]);
    let mut seen = [0, 0];
    for at in 0..good.len() {
        let digit = b'0' + good[at].wrapping_sub(b'0' - 1) % 10;
        for byte in [b' ', b'0', b'9', digit, b'\n', b'\r', b'\t', b'+', b'-', b'/', b':', 0, 255] {
            let mut sheet = good.clone();
            sheet[at] = byte;
            let other = byte != good[at];
            seen[usize::from(accepted(&sheet) && other)] += 1;
        }
    }
    assert!(seen[0] > 9000 && seen[1] > 500, "{seen:?}");
}

/// A byte that is left out, one that is put in, and two that change places.
#[test]
fn no_byte_is_missing_or_too_many() {
    let good = any_sheet(63, [1, 1, 2]);
    for at in 0..good.len() {
        let mut sheet = good.clone();
        let left_out = sheet.remove(at);
        assert!(!accepted(&sheet), "without byte {at}");
        for byte in [left_out, b' ', b'0', b'1', b'\n', b'\r'] {
            let mut sheet = good.clone();
            sheet.insert(at, byte);
            assert!(!accepted(&sheet), "{byte} before byte {at}");
        }
        let mut sheet = good.clone();
        sheet.swap(at, (at + 1) % good.len());
        accepted(&sheet);
    }
    for byte in *b" 0\n\r\0" {
        assert!(!accepted(&[&good[..], &[byte]].concat()));
    }
}

#[test]
fn only_whole_lines_are_a_sheet() {
    let good = any_sheet(64, [2, 2, 3]);
    let ends: Vec<usize> = (0..=good.len()).filter(|n| *n == 0 || good[n - 1] == b'\n').collect();
    assert_eq!(ends.len(), 8);
    for len in 0..=good.len() {
        assert_eq!(accepted(&good[..len]), ends.contains(&len), "cut at {len}");
        assert_eq!(accepted(&good[len..]), ends.contains(&len), "from {len} on");
    }
}

/// Sheets with none to four lines, in any order of kinds.
#[test]
fn lines_stand_in_the_order_of_kinds() {
    let mut random = Random::new(65);
    let one = [[1, 0, 0], [0, 1, 0], [0, 0, 1]];
    for code in 0..3_usize.pow(4) * 5 {
        let (code, len) = (code / 5, code % 5);
        let kinds: Vec<usize> = (0..len).map(|k| code / 3_usize.pow(k as u32) % 3).collect();
        let lines = kinds.iter().map(|k| written(&any_tables(&mut random, one[*k])));
        let sheet = lines.collect::<Vec<_>>().concat();
        assert_eq!(accepted(&sheet), kinds.is_sorted(), "{kinds:?}");
        if kinds.is_sorted() {
            let rows = |kind| kinds.iter().filter(|k| **k == kind).count();
            let tables = read(&sheet);
            for k in 0..3 {
                assert_eq!(tables[k].len(), rows(k) * WIDTHS[k]);
            }
        }
    }
}

#[test]
fn kinds_are_1_to_3_with_the_words_of_their_rows() {
    let cells = vec!["5".to_string(); STATE_WORDS + 1];
    for kind in (0..=12).chain([21, 111, 257, 1001]) {
        for words in 0..=STATE_WORDS + 1 {
            let good = (1..=3).contains(&kind) && WIDTHS[kind - 1] == words;
            assert_eq!(accepted(line(kind, &cells[..words]).as_bytes()), good, "{kind}, {words}");
        }
    }
    for (k, line) in LINES.iter().enumerate() {
        let good = any_sheet(66, [0, 1, 2].map(|other| usize::from(other == k)));
        assert_eq!(good.len(), *line);
        let digit = char::from(b'1' + k as u8);
        for kind in ["   ", "  0", " 00", "000", "  +", "\t  ", "  \n"] {
            let sheet = [format!("{kind}{digit}").as_bytes(), &good[4..]].concat();
            assert_eq!(accepted(&sheet), kind == "   ");
        }
        for kind in ["    ", "   +", "   a", "   \n", "   \0", "   :", "   /"] {
            assert!(!accepted(&[kind.as_bytes(), &good[4..]].concat()));
        }
        for at in 0..3 {
            let mut kind = [b' '; 4];
            kind[at] = digit as u8;
            assert!(!accepted(&[&kind[..], &good[4..]].concat()));
        }
    }
}

const NUMBERS: &str = "0 1 9 10 9999999999999999999 10000000000000000000 18446744073709551609 \
    18446744073709551610 18446744073709551614 18446744073709551615";
/// Above u64's largest; some are a small number where the sum wraps.
const TOO_LARGE: &str = "18446744073709551616 18446744073709551617 18446744073709551620 \
    18446744073709551625 18446744073709551700 19000000000000000000 20000000000000000000 \
    36893488147419103232 99999999999999999999 100000000000000000000 184467440737095516150 \
    184467440737095516160 368934881474191032320 999999999999999999999";
/// Apart by bars.
const NO_NUMBERS: &str = "|00|01|007|+1|-1|-0|+|-|a|0x1|1e3|1.|.1|1_0|1,0|1 |0 |1 2|1  2|0 0|0 1|\
    1\t|\t1|\t|\n|1\n|\n1|\r|1\r|\0|1\0|\u{b}1|\u{7f}|000000000000000000000|000000000000000000001|\
    1                    |0                   1";

/// Every cell of every kind of line, with numbers and with what only looks like one.
#[test]
fn a_cell_is_a_number_as_it_is_written() {
    for kind in 0..3 {
        for at in 0..WIDTHS[kind] {
            for cell in NUMBERS.split(' ') {
                let sheet = with_cell(kind, at, cell);
                assert!(accepted(&sheet), "{cell:?}");
                assert_eq!(read(&sheet)[kind][at].to_string(), cell);
            }
            for cell in TOO_LARGE.split(' ').chain(NO_NUMBERS.split('|')) {
                let sheet = with_cell(kind, at, cell);
                assert_eq!(sheet.len(), LINES[kind]);
                assert!(!accepted(&sheet), "{cell:?}");
            }
        }
    }
}

#[test]
fn lines_end_in_one_line_feed() {
    let good = String::from_utf8(any_sheet(67, [2, 2, 2])).unwrap();
    assert!(accepted(good.as_bytes()));
    let changed = [
        good.replace('\n', "\r\n"),
        good.replace('\n', "\r"),
        good.replace('\n', "\n\n"),
        good.replace('\n', " \n"),
        good.replace('\n', "  "),
        good.replace('\n', ""),
        good.replacen('\n', "\r\n", 1),
        good.trim_end().to_string(),
        format!("{}\r\n", good.trim_end()),
        format!("{good}\n"),
        format!("{good} "),
        format!("{good}\0"),
        format!("\n{good}"),
        format!("\u{feff}{good}"),
        format!("# tables\n{good}"),
    ];
    for sheet in changed {
        assert!(!accepted(sheet.as_bytes()), "{sheet:?}");
    }
    for text in ["\n", " ", "1", "   1\n", "   1", "machines"] {
        assert!(!accepted(text.as_bytes()), "{text:?}");
    }
}

/// Room that is a word short, exact, and longer, for each table in turn.
#[test]
fn tables_need_room_for_their_rows() {
    let mut random = Random::new(68);
    for _ in 0..30 {
        let rows = [0; 3].map(|_| 1 + random.below(3));
        let tables = any_tables(&mut random, rows);
        let sheet = written(&tables);
        let exact = [0, 1, 2].map(|k| tables[k].len());
        assert_eq!(read_into(&sheet, exact).1, tables);
        for k in 0..3 {
            for short in [1, 2, WIDTHS[k], exact[k]] {
                let mut room = exact;
                room[k] -= short;
                assert_eq!(refused(&sheet, room), 23);
                // the other tables' room does not help, and form comes first
                let mut room = exact.map(|len| len + 100);
                room[k] = exact[k] - short;
                assert_eq!(refused(&sheet, room), 23);
                assert_eq!(refused(&sheet[..sheet.len() - 1], room), 22);
            }
            for long in [1, WIDTHS[k] - 1, WIDTHS[k], 1000] {
                let mut room = exact;
                room[k] += long;
                let (rows, mut found) = read_into(&sheet, room);
                assert_eq!(rows.refusal, 0);
                assert_eq!(found[k].split_off(exact[k]), vec![MARK; long]);
                assert_eq!(found, tables);
            }
        }
        assert_eq!(refused(&sheet, [0; 3]), 23);
    }
    // a table without lines needs none
    for k in 0..3 {
        let rows = [0, 1, 2].map(|other| usize::from(other != k));
        let tables = any_tables(&mut random, rows);
        assert_eq!(read_into(&written(&tables), [0, 1, 2].map(|k| tables[k].len())).1, tables);
    }
}

/// The writer's refusal of a sheet of so many bytes, which it must leave, and what lies behind it.
#[track_caller]
fn unwritten(tables: Words<'_>, room: usize) -> u64 {
    let mut sheet = vec![0xaa; room + STATE_LINE];
    let SheetBytes { refusal, bytes } = sys::sheet_write(tables, &mut sheet[..room]);
    assert_ne!(refusal, 0);
    assert_eq!(bytes, 0);
    assert!(sheet.iter().all(|byte| *byte == 0xaa));
    refusal
}

#[test]
fn tables_that_are_not_whole_rows_are_not_written() {
    let mut random = Random::new(69);
    let tables = any_tables(&mut random, [2, 2, 2]);
    let room = words(&tables).sheet_len();
    for k in 0..3 {
        for len in 0..=tables[k].len() {
            let mut cut = tables.clone();
            cut[k].truncate(len);
            let whole = len % WIDTHS[k] == 0;
            for room in [0, words(&cut).sheet_len() - 1, words(&cut).sheet_len(), room + 9] {
                let mut sheet = vec![0; room];
                let written = sys::sheet_write(words(&cut), &mut sheet);
                match (whole, room >= words(&cut).sheet_len()) {
                    (true, true) => assert_eq!(written.refusal, 0),
                    (true, false) => assert_eq!(unwritten(words(&cut), room), 23),
                    (false, _) => assert_eq!(unwritten(words(&cut), room), 3),
                }
            }
        }
    }
}

#[test]
fn sheets_need_room_for_their_lines() {
    let mut random = Random::new(70);
    for _ in 0..60 {
        let mut rows = [0; 3].map(|_| random.below(3));
        rows[random.below(3)] += 1;
        let tables = any_tables(&mut random, rows);
        let good = printed(&tables);
        for room in [0, 1, good.len() / 2, good.len() - 1] {
            assert_eq!(unwritten(words(&tables), room), 23);
        }
        for more in [0, 1, 46, 47, 3000] {
            let mut sheet = vec![0xaa; good.len() + more];
            let written = sys::sheet_write(words(&tables), &mut sheet);
            assert_eq!(written, SheetBytes { refusal: 0, bytes: good.len() as u64 });
            assert_eq!(sheet.split_off(good.len()), vec![0xaa; more]);
            assert_eq!(sheet, good.as_bytes());
        }
    }
}

/// Random bytes, and random changes of a good sheet.
#[test]
fn what_is_accepted_is_what_is_written() {
    let mut random = Random::new(71);
    let good = any_sheet(72, [1, 1, 1]);
    let alphabet = b"  0123456789\n\r\t+-a\0\xff";
    let mut seen = [0, 0];
    for _ in 0..3000 {
        let mut sheet = good.clone();
        for _ in 0..1 + random.below(3) {
            let at = random.below(sheet.len());
            sheet[at] = alphabet[random.below(alphabet.len())];
        }
        seen[usize::from(accepted(&sheet))] += 1;
        let noise = (0..random.below(300)).map(|_| alphabet[random.below(alphabet.len())]);
        accepted(&noise.collect::<Vec<_>>());
    }
    assert!(seen[0] > 500 && seen[1] > 200, "{seen:?}");
}

// ---- `Tables`

fn same_words(one: &Tables, other: &Tables) {
    let (one, other) = (one.words(), other.words());
    assert_eq!(one.machines, other.machines);
    assert_eq!(one.states, other.states);
    assert_eq!(one.transitions, other.transitions);
}

#[test]
fn tables_go_through_a_sheet() {
    let mut random = Random::new(73);
    for _ in 0..100 {
        let (count, states) = (random.below(5), 1 + random.below(5));
        let tables = Tables::new(&machines(&mut random, count, states, &mut any_dist)).unwrap();
        let sheet = tables.to_sheet();
        assert_eq!(sheet.len(), tables.words().sheet_len());
        let read = Tables::from_sheet(&sheet).unwrap();
        same_words(&read, &tables);
        assert_eq!(read.to_sheet(), sheet);
        same_words(&Tables::from_sheet(sheet.into_bytes()).unwrap(), &tables);
    }
    assert_eq!(Tables::from_sheet("").unwrap().num_machines(), 0);
    assert_eq!(Tables::new(&[]).unwrap().to_sheet(), "");
}

#[test]
fn tables_of_a_sheet_are_judged() {
    let refusal = |sheet: &str| Tables::from_sheet(sheet).unwrap_err().refusal;
    let sheet = Tables::new(&[pads()]).unwrap().to_sheet();
    assert_eq!(refusal(&sheet[1..]), Refusal::SheetForm);
    assert_eq!(refusal(&sheet.replace('\n', "\r\n")), Refusal::SheetForm);
    assert_eq!(refusal(&sheet[..MACHINE_LINE]), Refusal::StatesBeyondTable);
    let lines: Vec<&str> = sheet.split_inclusive('\n').collect();
    assert_eq!(refusal(&lines[..2].concat()), Refusal::TransitionsBeyondTable);
    let many = [lines[0].repeat(17), lines[1..].concat()].concat();
    assert_eq!(refusal(&many), Refusal::TableSize);
    let bad = [sheet.as_bytes(), &[0xff]].concat();
    assert_eq!(Tables::from_sheet(bad).unwrap_err(), Refusal::SheetForm);

    // machines that nobody has judged are written all the same
    let unchecked = Tables::unchecked(&vec![pads(); 17]);
    assert_eq!(refusal(&unchecked.to_sheet()), Refusal::TableSize);
}
