//! The paragraph of job 1, sentence by sentence, and the readings of it.

use sheets::{BAD_LINE, NOT_WHOLE_ROWS, TOO_SMALL, WORDS, read, write};

/// A byte and a word that no call writes here.
const BYTE: u8 = 0xa5;
const WORD: u64 = 0x5555_5555_5555_5555;

type Tables = [Vec<u64>; 3];

/// Rows that count up from 1.
fn tables(machines: usize, states: usize, transitions: usize) -> Tables {
    let mut next = 0;
    let mut rows = |count: usize| {
        let word = |_| {
            next += 1;
            next
        };
        (0..count).map(word).collect()
    };
    [rows(WORDS[0] * machines), rows(WORDS[1] * states), rows(WORDS[2] * transitions)]
}

fn written([machines, states, transitions]: &Tables) -> String {
    let mut sheet = vec![BYTE; 100_000];
    let (refusal, bytes) = write(machines, states, transitions, &mut sheet);
    assert_eq!(refusal, 0);
    assert!(sheet[bytes as usize..].iter().all(|byte| *byte == BYTE));
    sheet.truncate(bytes as usize);
    String::from_utf8(sheet).unwrap()
}

/// The refusal, after a look at what it promises: zeros, and memory as before.
fn refused(sheet: &[u8]) -> u64 {
    let mut room = [WORD; 1000];
    let (machines, rest) = room.split_at_mut(100);
    let (states, transitions) = rest.split_at_mut(600);
    let (refusal, m, s, t) = read(sheet, machines, states, transitions);
    if refusal != 0 {
        assert_eq!((m, s, t), (0, 0, 0));
        assert_eq!(room, [WORD; 1000]);
    }
    refusal
}

#[test]
fn a_line_is_the_kind_in_4_columns_and_the_words_in_21_each() {
    let machine = [0, 1, 10, 4_607_182_418_800_017_408, 99, u64::MAX];
    let sheet = written(&[machine.to_vec(), vec![], vec![12, 345]]);
    let lines = [
        concat!(
            "   1",
            "                    0",
            "                    1",
            "                   10",
            "  4607182418800017408",
            "                   99",
            " 18446744073709551615"
        ),
        "   3                   12                  345",
    ];
    assert_eq!(sheet, format!("{}\n{}\n", lines[0], lines[1]));
}

#[test]
fn lines_are_131_and_1223_and_47_bytes_machines_first_then_states_then_transitions() {
    let sheet = written(&tables(2, 1, 2));
    let lines: Vec<(usize, &str)> =
        sheet.split_inclusive('\n').map(|line| (line.len(), &line[..4])).collect();
    let expected = [(131, "   1"), (131, "   1"), (1223, "   2"), (47, "   3"), (47, "   3")];
    assert_eq!(lines, expected);
}

#[test]
fn a_written_sheet_reads_back_and_what_lies_past_the_end_stays() {
    for (m, s, t) in [(0, 0, 0), (1, 0, 0), (0, 1, 0), (0, 0, 1), (3, 2, 7), (20, 0, 5)] {
        let tables = tables(m, s, t);
        let sheet = written(&tables);
        for more in [0, 1, 61] {
            let mut lent = tables.clone().map(|table| vec![WORD; table.len() + more]);
            let [machines, states, transitions] = &mut lent;
            let answer = read(sheet.as_bytes(), machines, states, transitions);
            assert_eq!(answer, (0, m as u64, s as u64, t as u64));
            for (lent, table) in lent.iter().zip(&tables) {
                assert_eq!(lent[..table.len()], table[..]);
                assert_eq!(lent[table.len()..], vec![WORD; more]);
            }
        }
    }
}

#[test]
fn the_empty_sheet_has_no_rows() {
    assert_eq!(read(b"", &mut [], &mut [], &mut []), (0, 0, 0, 0));
    assert_eq!(write(&[], &[], &[], &mut []), (0, 0));
}

#[test]
fn the_writer_gives_3_before_anything_else() {
    for k in 0..3 {
        let mut odd = tables(1, 1, 1);
        odd[k].push(1);
        let [machines, states, transitions] = &odd;
        for room in [0, 10, 5000] {
            let mut sheet = vec![BYTE; room];
            let answer = write(machines, states, transitions, &mut sheet);
            assert_eq!(answer, (NOT_WHOLE_ROWS, 0));
            assert_eq!(sheet, vec![BYTE; room]);
        }
    }
}

#[test]
fn the_writer_gives_23_for_a_sheet_that_is_too_small() {
    let [machines, states, transitions] = &tables(1, 1, 1);
    let mut sheet = vec![BYTE; 131 + 1223 + 47 - 1];
    assert_eq!(write(machines, states, transitions, &mut sheet), (TOO_SMALL, 0));
    assert!(sheet.iter().all(|byte| *byte == BYTE));
}

#[test]
fn the_reader_gives_23_for_each_table_that_is_too_small_and_only_once_the_form_has_passed() {
    let sheet = written(&tables(1, 1, 1));
    let bad = format!("{sheet}x");
    for k in 0..3 {
        let mut lent = WORDS.map(|words| vec![WORD; words]);
        lent[k].pop();
        let before = lent.clone();
        let [machines, states, transitions] = &mut lent;
        let answer = read(sheet.as_bytes(), machines, states, transitions);
        assert_eq!(answer, (TOO_SMALL, 0, 0, 0));
        let answer = read(bad.as_bytes(), machines, states, transitions);
        assert_eq!(answer, (BAD_LINE, 0, 0, 0));
        assert_eq!(lent, before);
    }
}

#[test]
fn a_misplaced_line_is_22() {
    let [machine, state, transition] =
        [tables(1, 0, 0), tables(0, 1, 0), tables(0, 0, 1)].map(|tables| written(&tables));
    let (m, s, t) = (machine.as_str(), state.as_str(), transition.as_str());
    for good in [vec![m, s, t], vec![m, m, t, t], vec![s, t], vec![t], vec![m, s, s]] {
        assert_eq!(refused(good.concat().as_bytes()), 0);
    }
    for bad in [vec![s, m], vec![t, m], vec![t, s], vec![m, s, m], vec![m, t, s, t]] {
        assert_eq!(refused(bad.concat().as_bytes()), BAD_LINE);
    }
}

#[test]
fn a_malformed_line_is_22() {
    let line = |kind: &str, first: &str| format!("{kind:>4}{first:>21}{:>21}\n", 7);
    let good = line("3", "5");
    assert_eq!(refused(good.as_bytes()), 0);
    assert_eq!(refused(line("3", "18446744073709551615").as_bytes()), 0);
    for kind in ["", "0", "1", "2", "4", "03", "+3", "33", "3 ", "\t3", "-3", "x"] {
        assert_eq!(refused(line(kind, "5").as_bytes()), BAD_LINE, "{kind:?}");
    }
    let words = [
        "",
        "05",
        "00",
        "+5",
        "-5",
        "5 ",
        "5 6",
        "\t5",
        "5\r",
        "5\n",
        "5.0",
        "0x5",
        "5\u{a0}",
        "18446744073709551616",
        "99999999999999999999",
        "100000000000000000000",
        "018446744073709551615",
    ];
    for word in words {
        assert_eq!(refused(line("3", word).as_bytes()), BAD_LINE, "{word:?}");
    }
    for end in ["", "\r\n", "\n\n", " \n", "\n "] {
        assert_eq!(refused(good.replace('\n', end).as_bytes()), BAD_LINE, "{end:?}");
    }
    for len in 1..good.len() {
        assert_eq!(refused(&good.as_bytes()[..len]), BAD_LINE, "cut to {len}");
    }
    for at in 0..good.len() {
        let mut bytes = good.as_bytes().to_vec();
        bytes[at] = 0xff;
        assert_eq!(refused(&bytes), BAD_LINE, "0xff at {at}");
    }
}
