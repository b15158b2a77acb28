//! What a call answers, and how linkrun prints it.

use std::io::Write;

/// Words of the state before the machines, and of each machine.
pub const FRAMEWORK_WORDS: usize = 11;
pub const MACHINE_WORDS: usize = 9;

#[derive(Clone, Debug, PartialEq)]
pub struct Answer {
    /// 0, or the refusal's number.
    pub refusal: u64,
    /// Machine, kind, flags, timer, timeout, duration.
    pub rows: Vec<[u64; 6]>,
    pub chances: u64,
    pub values: u64,
    /// The framework after the call, a word for each field.
    pub state: Vec<u64>,
}

impl Answer {
    /// A refused call, and the framework that it leaves.
    pub fn refused(refusal: u64, state: Vec<u64>) -> Answer {
        Answer { refusal, rows: Vec::new(), chances: 0, values: 0, state }
    }

    /// A refused opening: a framework with no machines, all zero.
    pub fn closed(refusal: u64) -> Answer {
        Answer::refused(refusal, vec![0; FRAMEWORK_WORDS])
    }
}

/// The printed run, with a line of the state after each call if asked for.
pub fn print(answers: &[Answer], with_state: bool) -> Vec<u8> {
    let mut text = Vec::new();
    for (call, answer) in answers.iter().enumerate() {
        writeln!(text, "{call:>6}{:>4}{:>4}", answer.refusal, answer.rows.len()).unwrap();
        for [machine, kind, flags, timer, timeout, duration] in &answer.rows {
            writeln!(text, "{machine:>4}{kind:>4}{flags:>4}{timer:>4}{timeout:>12}{duration:>12}")
                .unwrap();
        }
        if with_state {
            let words: String = answer.state.iter().map(|w| format!(" {w}")).collect();
            writeln!(text, "state{words} {} {}", answer.chances, answer.values).unwrap();
        }
    }
    text
}
