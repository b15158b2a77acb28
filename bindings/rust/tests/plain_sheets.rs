//! Sheets by the archive and by plain Rust (`reference/sheets`), on generated tables and damaged sheets:
//! the same answer, and the same in every word and byte that was lent or lies beside it.

use maybenot_link::sys::{self, Words};
use random::Random;
use sheets::WORDS;

/// Bytes of a line of each kind.
const LINES: [usize; 3] = [131, 1223, 47];
/// Words or bytes before and after each lent part.
const BESIDE: usize = 3;

/// A part that is lent, and what lies beside it.
#[derive(Clone, Debug, PartialEq)]
struct Lent<T>(Vec<T>);

impl<T> Lent<T> {
    /// Of some length, no two neighbours alike.
    fn new(len: usize, mark: impl Fn(usize) -> T) -> Lent<T> {
        Lent((0..len + 2 * BESIDE).map(mark).collect())
    }

    fn part(&mut self) -> &mut [T] {
        let end = self.0.len() - BESIDE;
        &mut self.0[BESIDE..end]
    }
}

fn lent_words(len: usize) -> Lent<u64> {
    Lent::new(len, |k| 0x5555_5555_5555_5555 ^ k as u64)
}

fn lent_bytes(len: usize) -> Lent<u8> {
    Lent::new(len, |k| 0xa0 ^ (k as u8 & 0x0f))
}

/// A word of any length in decimal.
fn word(random: &mut Random) -> u64 {
    match random.below(6) {
        0 => random.one_of(&[0, 1, 1 << 53, 1 << 63, u64::MAX - 1, u64::MAX]),
        1 => 10u64.pow(random.below(20) as u32) - 1 + random.below(3) as u64,
        2 => random.below(20) as u64,
        3 => random.within(0.0, 1e6).to_bits(),
        _ => random.word() >> random.below(64),
    }
}

/// Tables of whole rows.
fn tables(random: &mut Random) -> [Vec<u64>; 3] {
    let rows = [random.small(3), random.small(2), random.small(4)];
    [0, 1, 2].map(|k| (0..WORDS[k] * rows[k]).map(|_| word(random)).collect())
}

/// A part of a row more in one table.
fn make_odd(random: &mut Random, tables: &mut [Vec<u64>; 3]) {
    let k = random.below(3);
    let more = 1 + random.below(WORDS[k] - 1);
    tables[k].extend((0..more).map(|_| word(random)));
}

/// Bytes of the sheet of these tables.
fn needed(tables: &[Vec<u64>; 3]) -> usize {
    (0..3).map(|k| tables[k].len() / WORDS[k] * LINES[k]).sum()
}

/// From nothing over one too few and just enough to too much.
fn room(random: &mut Random, needed: usize) -> usize {
    match random.below(8) {
        0 => needed.saturating_sub(1),
        1 => random.below(needed + 1),
        2 | 3 => needed + 1 + random.below(70),
        _ => needed,
    }
}

/// How often each refusal was answered.
#[derive(Default)]
struct Met([usize; 24]);

impl Met {
    fn often(&self, refusals: &[usize]) {
        for refusal in refusals {
            assert!(self.0[*refusal] > 1000, "{refusal}: {:?}", self.0);
        }
        let all: usize = refusals.iter().map(|refusal| self.0[*refusal]).sum();
        assert_eq!(all, self.0.iter().sum(), "no other refusals: {:?}", self.0);
    }
}

/// Writes by both, and answers what both said.
fn write(tables: &[Vec<u64>; 3], room: usize) -> (u64, u64, Lent<u8>) {
    let [machines, states, transitions] = tables;
    let (mut ours, mut plain) = (lent_bytes(room), lent_bytes(room));
    let answer = sys::sheet_write(Words { machines, states, transitions }, ours.part());
    let expected = sheets::write(machines, states, transitions, plain.part());
    assert_eq!((answer.refusal, answer.bytes), expected, "{tables:?}, room {room}");
    assert_eq!(ours, plain, "{tables:?}, room {room}");
    (answer.refusal, answer.bytes, ours)
}

/// The whole sheet of whole tables.
fn sheet_of(tables: &[Vec<u64>; 3]) -> Vec<u8> {
    let (refusal, bytes, mut sheet) = write(tables, needed(tables));
    assert_eq!(refusal, 0);
    sheet.part()[..bytes as usize].to_vec()
}

/// Reads by both, and answers the refusal and the tables that were read.
fn read(sheet: &[u8], room: [usize; 3]) -> (u64, [Vec<u64>; 3]) {
    let (mut ours, mut plain) = (room.map(lent_words), room.map(lent_words));
    let [machines, states, transitions] = ours.each_mut().map(Lent::part);
    let answer = sys::sheet_read(sheet, machines, states, transitions);
    let answer = (answer.refusal, answer.machines, answer.states, answer.transitions);
    let [machines, states, transitions] = plain.each_mut().map(Lent::part);
    let expected = sheets::read(sheet, machines, states, transitions);
    let shown = String::from_utf8_lossy(sheet);
    assert_eq!(answer, expected, "{shown}, room {room:?}");
    assert_eq!(ours, plain, "{shown}, room {room:?}");
    let rows = [answer.1, answer.2, answer.3];
    (answer.0, [0, 1, 2].map(|k| ours[k].part()[..WORDS[k] * rows[k] as usize].to_vec()))
}

/// What may stand where something else should.
fn byte(random: &mut Random) -> u8 {
    match random.below(4) {
        0 => random.word() as u8,
        1 => b' ',
        2 => b'0' + random.below(10) as u8,
        _ => random.one_of(b"\n\r\t\0+-.,_/:ex\x0b\x0c\x80\xff"),
    }
}

fn damage_bytes(random: &mut Random, sheet: &mut Vec<u8>) {
    let (at, byte) = (random.below(sheet.len() + 1), byte(random));
    match random.below(6) {
        0 => sheet.insert(at, byte),
        1 => sheet.truncate(at),
        2 => sheet.push(byte),
        3 => drop(sheet.pop()),
        _ if at == sheet.len() => {}
        4 => drop(sheet.remove(at)),
        _ => sheet[at] = byte,
    }
}

/// Lines that come twice, go, or stand elsewhere, and line ends that are none.
fn damage_lines(random: &mut Random, sheet: &mut Vec<u8>) {
    let end = |byte: &u8| *byte == b'\n';
    let mut lines: Vec<Vec<u8>> = sheet.split_inclusive(end).map(<[u8]>::to_vec).collect();
    if lines.is_empty() {
        return;
    }
    let (at, to) = (random.below(lines.len()), random.below(lines.len()));
    let line = lines[at].clone();
    match random.below(8) {
        0 => lines.swap(at, to),
        1 | 2 => lines.insert(at, line),
        3 => lines.insert(to, line),
        4 => drop(lines.remove(at)),
        5 => {
            lines.remove(at);
            lines.insert(to, line);
        }
        6 => lines.insert(to, b"\n".to_vec()),
        _ => {
            lines[at].pop();
            let end: &[u8] = random.one_of(&[b"", b"\r\n", b"\r", b" \n", b"\0", b"\n\n"]);
            lines[at].extend(end);
        }
    }
    *sheet = lines.concat();
}

/// Texts for a number's columns; the first eight are numbers.
const NUMBERS: &str = "0|7|10|9999999999999999999|10000000000000000000|18446744073709551609|\
    18446744073709551610|18446744073709551615|18446744073709551616|18446744073709551620|\
    18446744073709551700|20000000000000000000|99999999999999999999|100000000000000000000|\
    184467440737095516150|999999999999999999999|000000000000000000007||00|07|+5|-5|-0|1 2|5 |\t5|\
    5\r|1_0|0x1f|\u{ff15}";
/// Texts for a kind's; the first three are kinds.
const KINDS: &str = "1|2|3|0|4||01|003|+1|-1|11|1 |1 2|\t2|3\r|1001";

/// Another text in the columns of a kind or a number.
fn damage_column(random: &mut Random, sheet: &mut Vec<u8>) {
    let is_start = |at: &usize| *at == 0 || sheet[*at - 1] == b'\n';
    let starts: Vec<usize> = (0..sheet.len()).filter(is_start).collect();
    if starts.is_empty() {
        return;
    }
    let start = random.one_of(&starts);
    let len = sheet[start..].iter().take_while(|byte| **byte != b'\n').count();
    let (column, width, texts) = if random.often(25) {
        (0, 4, KINDS)
    } else {
        (4 + 21 * random.below(len / 21 + 1), 21, NUMBERS)
    };
    let text = random.one_of(&texts.split('|').collect::<Vec<_>>());
    // a text that is not as wide as its columns shifts the rest
    let text = match random.below(10) {
        0 => text.to_string(),
        1 => format!("{text:<width$}"),
        _ => format!("{text:>width$}"),
    };
    let (from, to) = (start + column.min(len), start + (column + width).min(len));
    sheet.splice(from..to, text.into_bytes());
}

/// Damages a sheet, which at times leaves it the form.
fn damage(random: &mut Random, sheet: &mut Vec<u8>) {
    match random.below(20) {
        0..=5 => damage_bytes(random, sheet),
        6..=11 => damage_lines(random, sheet),
        12..=18 => damage_column(random, sheet),
        _ => *sheet = (0..random.below(200)).map(|_| byte(random)).collect(),
    }
}

#[test]
fn written_sheets_are_the_plain_ones() {
    let mut random = Random::new(31);
    let mut met = Met::default();
    for _ in 0..8000 {
        let mut tables = tables(&mut random);
        if random.often(25) {
            make_odd(&mut random, &mut tables);
        }
        let room = room(&mut random, needed(&tables));
        let (refusal, ..) = write(&tables, room);
        met.0[refusal as usize] += 1;
    }
    met.often(&[0, 3, 23]);
}

#[test]
fn sheets_are_read_as_the_plain_ones() {
    let mut random = Random::new(32);
    let (mut met, mut changed) = (Met::default(), 0);
    for _ in 0..12_000 {
        let written = tables(&mut random);
        let mut sheet = sheet_of(&written);
        if random.often(70) {
            (0..=random.small(2)).for_each(|_| damage(&mut random, &mut sheet));
        }
        // a damaged sheet may hold a row more than was written
        let more = usize::from(random.often(50));
        let room = [0, 1, 2].map(|k| room(&mut random, written[k].len() + more * WORDS[k]));
        let (refusal, found) = read(&sheet, room);
        met.0[refusal as usize] += 1;
        if refusal == 0 {
            assert_eq!(sheet_of(&found), sheet, "an accepted sheet is the one that is written");
            changed += usize::from(found != written);
        }
    }
    met.often(&[0, 22, 23]);
    assert!(changed > 500, "{changed} sheets with other tables than were written");
}
