//! Runs of the unchanged Rust: what linkrun must print, the framework's state, inputs to try, and
//! comparing a program with it.

pub mod answer;
pub mod cases;
pub mod compare;
pub mod corpus;
pub mod engine;
pub mod generate;
pub mod show;
pub mod shrink;
pub mod stream;
pub mod tape;

/// The answers to a whole input, with the state after each call if asked for.
pub fn answers(bytes: &[u8], with_state: bool) -> Vec<answer::Answer> {
    let mut answers = Vec::new();
    engine::each_answer(bytes, with_state, |answer| answers.push(answer));
    answers
}

/// What linkrun must print for an input, with a line of the state after each call if asked for.
pub fn run(bytes: &[u8], with_state: bool) -> Vec<u8> {
    answer::print(&answers(bytes, with_state), with_state)
}
