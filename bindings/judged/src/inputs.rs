//! The generated inputs of `harness`, and words for them.

use harness::generate::{FAMILIES, input};
use harness::stream::Stream;
use random::Random;

const UNIFORM: u64 = 1;
pub const OUTSIDE: u64 = 2;

/// An input of a whole stream; those of the last family are broken ones.
pub fn stream(seed: u64) -> Stream {
    let families = &FAMILIES[..FAMILIES.len() - 1];
    let (family, _) = families[(seed % families.len() as u64) as usize];
    Stream::parse(&input(family, seed)).expect("a whole stream")
}

/// From a double to the next, for which half of all words are tried in vain, or some other range.
fn range(random: &mut Random) -> [f64; 2] {
    if random.often(40) {
        let low =
            random.one_of(&[0.0, 1.0, 2.5, 7.0, -1.0, 1e15, 86_399_999_999.5, -1e300, 5e-324]);
        return [low, low.next_up()];
    }
    random.one_of(&[
        [0.0, 1.0],
        [0.0, 3.0],
        [0.5, 4.5],
        [-5.0, 5.0],
        [1e9, 1e12],
        [2.0, 2.0],
        [1.0, 2f64.powi(64)],
        [-f64::MAX / 2.0, f64::MAX / 2.0],
        [-1.0, 2f64.powi(53)],
        [1.0, 1.0 + 3.0 * f64::EPSILON],
    ])
}

/// Makes Uniforms of the used distributions that are drawn outside, and changes the ranges of some.
pub fn only_uniforms(random: &mut Random, stream: &mut Stream) {
    for state in &mut stream.states {
        for at in words::used(state) {
            if state[at] == OUTSIDE || state[at] == UNIFORM && random.often(30) {
                let [low, high] = range(random).map(f64::to_bits);
                state[at..at + 3].copy_from_slice(&[UNIFORM, low, high]);
            }
        }
    }
}

/// The number of chances below a probability, where that has any.
fn chances_below(probability: u64) -> Option<u64> {
    let probability = f32::from_bits(u32::try_from(probability).ok()?);
    (0.0..=1.0).contains(&probability).then(|| (probability * 2f32.powi(24)).ceil() as u64)
}

/// Makes some probabilities a little less, so that they are chances themselves, odd numbers of 2^-24 too.
pub fn exact_chances(random: &mut Random, stream: &mut Stream) {
    for transition in &mut stream.transitions {
        let below = chances_below(transition[1]).unwrap_or(0);
        if below > 8 && random.often(50) {
            let less = (below - 1 - random.below(4) as u64) as f32 / 2f32.powi(24);
            transition[1] = less.to_bits().into();
        }
    }
}

/// A word whose chance is beside the probability of a transition.
fn beside(random: &mut Random, stream: &Stream) -> Option<u64> {
    let transition = stream.transitions.get(random.below(stream.transitions.len().max(1)))?;
    let chance = (chances_below(transition[1])? + random.below(3) as u64).saturating_sub(2);
    Some(chance << 40 | random.word() >> 24)
}

/// A distribution that becomes drawn outside: any of a state that a machine has.
pub fn draw_outside(random: &mut Random, stream: &mut Stream) {
    let machine = random.one_of(&stream.machines);
    let state = machine[4] as usize + random.below(machine[5] as usize);
    stream.states[state][random.one_of(&[3, 8, 13, 20, 27])] = OUTSIDE;
}

/// Enough words for a batch, with the ends of every range and of the transitions' chances among them.
pub fn words(random: &mut Random, stream: &Stream, events: usize) -> Vec<u64> {
    let machines = stream.machines.len();
    let most = 12 * (events * (machines + 1) + machines + 2);
    let word = |random: &mut Random| match random.below(12) {
        0 => u64::MAX - random.below(1 << 12) as u64,
        1 => random.below(1 << 12) as u64,
        2 => (1u64 << 63).wrapping_add(random.below(5) as u64 * 1024).wrapping_sub(2048),
        3..6 => beside(random, stream).unwrap_or(0),
        _ => random.word(),
    };
    (0..most).map(|_| word(random)).collect()
}
