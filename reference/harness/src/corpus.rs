//! The recorded corpus: cases one after the other, all in little-endian words.
//!
//! A case: its kind (1: an input of linkrun); for kind 1 the number of the input's words and these
//! words; the number of calls made, the opening's among them; for each call the refusal, the number of
//! actions, the chance and value draws taken, the actions' rows of 6 words, the number of the state's
//! words and these words.

use crate::answer::Answer;
use crate::answers;
use crate::stream::{WORDS, words};

pub const LINKRUN: u64 = 1;

/// An input and the Rust's answers to it with states and draws. None for an input that the corpus has no place for:
/// one that is cut within a word, or too long.
pub fn answered(input: &[u8]) -> Option<(Vec<u64>, Vec<Answer>)> {
    let words = words(input).filter(|words| words.len() <= WORDS)?;
    Some((words, answers(input, true)))
}

/// A case of kind 1 from an input of whole words.
pub fn case(input: &[u64], answers: &[Answer]) -> Vec<u64> {
    let mut words = vec![LINKRUN, input.len() as u64];
    words.extend(input);
    words.push(answers.len() as u64);
    for a in answers {
        words.extend([a.refusal, a.rows.len() as u64, a.chances, a.values]);
        words.extend(a.rows.iter().flatten());
        words.push(a.state.len() as u64);
        words.extend(&a.state);
    }
    words
}

/// The inputs and answers of a file's cases.
pub fn cases(words: &[u64]) -> Vec<(Vec<u64>, Vec<Answer>)> {
    let mut rest = words.iter().copied();
    let mut cases = Vec::new();
    while let Some(kind) = rest.next() {
        assert_eq!(kind, LINKRUN, "a case of another kind");
        let mut next = || rest.next().expect("a whole case");
        let many = |next: &mut dyn FnMut() -> u64, count: u64| {
            (0..count).map(|_| next()).collect::<Vec<u64>>()
        };
        let length = next();
        let input = many(&mut next, length);
        let calls = next();
        let answers = (0..calls)
            .map(|_| {
                let (refusal, rows, chances, values) = (next(), next(), next(), next());
                let rows = (0..rows).map(|_| std::array::from_fn(|_| next())).collect();
                let length = next();
                Answer { refusal, rows, chances, values, state: many(&mut next, length) }
            })
            .collect();
        cases.push((input, answers));
    }
    cases
}
