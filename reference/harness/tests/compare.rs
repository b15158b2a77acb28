//! Comparing a program: the reference itself does not differ, a wrong one is found and cut down.

use harness::compare::{Kind, Program, Tally, first_difference};
use harness::generate::{family_of, input};
use harness::shrink::shrink;
use harness::stream::Stream;

fn command(words: &[&str]) -> Vec<String> {
    words.iter().map(|word| word.to_string()).collect()
}

fn prints(command: &[String]) -> Program<'_> {
    Program { command, kind: Kind::Prints }
}

fn judges(command: &[String]) -> Program<'_> {
    Program { command, kind: Kind::Judges }
}

#[test]
fn the_reference_does_not_differ_from_itself() {
    let itself = command(&[env!("CARGO_BIN_EXE_refrun")]);
    let (found, tally) = first_difference(&prints(&itself), 130, 2, |k| input(family_of(k), k));
    let calls = (0..130).map(|k| harness::answers(&input(family_of(k), k), false).len() as u64);
    assert_eq!((found, tally), (None, Tally { inputs: 130, calls: calls.sum(), left_out: 0 }));
}

/// A program that prints more than linkrun is wrong on every input, so the smallest one is left.
#[test]
fn a_program_that_differs_is_found_and_the_input_cut_down() {
    let more = command(&[env!("CARGO_BIN_EXE_refrun"), "--state"]);
    let wrong = prints(&more);
    let (found, _) = first_difference(&wrong, 100, 2, |k| input("valid", k));
    assert_eq!(found, Some(0));
    let small = shrink(&input("valid", 0), 1000, &mut |bytes| wrong.differs(bytes));
    assert_eq!(small, [0; 72]);
}

/// A judge that says that one case of two calls agrees, whatever it reads.
const AGREES: &str = "cat > /dev/null; \
    printf 'cases 1\\ncalls 2\\ndamaged calls 3\\nagreed 5\\ndiffered 0\\n'";

#[test]
fn a_judge_has_to_notice_damaged_answers() {
    let blind = command(&["sh", "-c", AGREES]);
    assert!(!judges(&blind).differs(&harness::cases::case("worked")));
    assert_eq!(judges(&blind).unnoticed(), Some("a refusal"));
}

/// A judge agrees by its words alone: by the counts of what it was handed, and nothing beside them.
#[test]
fn a_judge_that_says_anything_else_differs() {
    for other in [
        "cat > /dev/null",
        &AGREES.replace("cases 1", "cases 0"),
        &AGREES.replace("calls 2", "calls 1"),
        &AGREES.replace("agreed 5", "agreed 4"),
        &AGREES.replace("differed 0", "differed 1"),
        &AGREES.replace("cases 1", "case 1 call 1 differs at 9\\ncases 1"),
    ] {
        let says = command(&["sh", "-c", other]);
        assert!(judges(&says).differs(&harness::cases::case("worked")), "{other}");
        assert_eq!(judges(&says).unnoticed(), None);
        let (found, _) = first_difference(&judges(&says), 30, 2, |k| input("valid", k));
        assert_eq!(found, Some(0));
    }
}

#[test]
fn cutting_down_keeps_what_an_input_shows() {
    let mut shows = |bytes: &[u8]| harness::answers(bytes, false).iter().any(|a| a.rows.len() > 1);
    let large = (0..).map(|seed| input("large", seed)).find(|bytes| shows(bytes)).unwrap();
    let small = shrink(&large, 5000, &mut shows);
    assert!(shows(&small));
    let stream = Stream::parse(&small).unwrap();
    assert_eq!((stream.machines.len(), stream.calls.len()), (2, 1));
    assert!(small.len() < 2000);
}
