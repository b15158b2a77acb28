//! Draws from raw words in plain Rust, from the paragraph of job 4 in document 02: a second writing, which
//! the library's is compared with. Without dependencies and without the Rust sources.

/// Words of a row of the machine table and of the state table.
const MACHINE: usize = 6;
const STATE: usize = 58;

/// Where the parts of a state row begin.
const TIMEOUT: usize = 3;
const DURATION: usize = 8;
const LIMIT: usize = 13;
const COUNTERS: [usize; 2] = [18, 25];

/// The kind of a distribution that is drawn outside.
const OUTSIDE: u64 = 2;

/// A chance draw: the top 24 bits of a word divided by 2^24.
pub fn chance(word: u64) -> f32 {
    (word >> 40) as f32 / 2f32.powi(24)
}

/// What a word gives for a Uniform: low + (high - low) × u, with u the top 53 bits divided by 2^53, each
/// operation rounded. It serves where it is below high.
pub fn try_uniform(low: f64, high: f64, word: u64) -> f64 {
    let u = (word >> 11) as f64 / 2f64.powi(53);
    low + (high - low) * u
}

/// One tape of words, read from the front.
#[derive(Clone, Debug, Default)]
pub struct Tape {
    words: Vec<u64>,
    taken: usize,
}

impl Tape {
    pub fn new(words: &[u64]) -> Tape {
        Tape { words: words.to_vec(), taken: 0 }
    }

    /// Puts more words behind the last one.
    pub fn extend(&mut self, words: &[u64]) {
        self.words.extend(words);
    }

    /// How many words were tried.
    pub fn taken(&self) -> usize {
        self.taken
    }

    fn word(&mut self) -> Option<u64> {
        let word = *self.words.get(self.taken)?;
        self.taken += 1;
        Some(word)
    }

    /// A chance draw; none at the tape's end (16).
    pub fn chance(&mut self) -> Option<f32> {
        Some(chance(self.word()?))
    }

    /// A value for a Uniform. Where the result is high or more, the next word is tried; none where no word
    /// serves before the tape's end (16).
    pub fn uniform(&mut self, low: f64, high: f64) -> Option<f64> {
        loop {
            let value = try_uniform(low, high, self.word()?);
            if value < high {
                return Some(value);
            }
        }
    }
}

/// Where the distributions of a state row begin that its action and its counters use, absent ones too. A
/// counter's is used even under copy.
pub fn used(state: &[u64]) -> Vec<usize> {
    let action: &[usize] = match state[0] {
        2 => &[TIMEOUT, LIMIT],
        3 => &[TIMEOUT, DURATION, LIMIT],
        4 => &[DURATION, LIMIT],
        _ => &[],
    };
    let counters = COUNTERS.into_iter().filter(|at| state[*at] != 0).map(|at| at + 2);
    action.iter().copied().chain(counters).collect()
}

/// Whether a used distribution of a state of these machines is drawn outside (24), in tables that pass
/// their checks.
pub fn draws_outside(machines: &[u64], states: &[u64]) -> bool {
    let outside = |state: &[u64]| used(state).iter().any(|at| state[*at] == OUTSIDE);
    machines.chunks_exact(MACHINE).any(|machine| {
        let rows = states.chunks_exact(STATE).skip(machine[4] as usize);
        rows.take(machine[5] as usize).any(outside)
    })
}

#[cfg(test)]
mod tests {
    use super::*;

    const TOP: u64 = 1 << 63;

    #[test]
    fn a_chance_is_the_top_24_bits() {
        let edge = 1 << 40;
        assert_eq!(chance(0), 0.0);
        assert_eq!(chance(edge - 1), 0.0);
        assert_eq!(chance(edge), 2f32.powi(-24));
        assert_eq!(chance(TOP), 0.5);
        assert_eq!(chance(u64::MAX), 1.0f32.next_down());
    }

    #[test]
    fn a_value_is_of_the_top_53_bits() {
        assert_eq!(try_uniform(0.0, 1.0, (1 << 11) - 1), 0.0);
        assert_eq!(try_uniform(0.0, 1.0, 1 << 11), 2f64.powi(-53));
        assert_eq!(try_uniform(0.0, 1.0, u64::MAX), 1.0f64.next_down());
        assert_eq!(try_uniform(10.0, 20.0, TOP), 15.0);
        assert_eq!(try_uniform(-3.0, 5.0, TOP + (TOP >> 1)), 3.0);
    }

    #[test]
    fn each_operation_is_rounded() {
        // 2^53 + 1 is no double: high - low is 2^53, and half of it less 1 is not the middle
        let (low, high) = (-1.0, 2f64.powi(53));
        assert_eq!(try_uniform(low, high, TOP), 2f64.powi(52) - 1.0);
        // the sum is rounded to high, which is not given
        assert_eq!(try_uniform(1.0, 1.0f64.next_up(), TOP + (1 << 11)), 1.0f64.next_up());
        assert_eq!(try_uniform(1.0, 1.0f64.next_up(), TOP), 1.0);
        // half of the smallest double is rounded to 0 before the sum
        assert_eq!(try_uniform(5e-324, 1e-323, TOP), 5e-324);
    }

    #[test]
    fn words_are_tried_until_one_serves() {
        let (low, high) = (1.0, 1.0f64.next_up());
        let mut tape = Tape::new(&[TOP, u64::MAX, u64::MAX, 0, u64::MAX]);
        assert_eq!((tape.chance(), tape.taken()), (Some(0.5), 1));
        assert_eq!((tape.uniform(low, high), tape.taken()), (Some(1.0), 4));
        assert_eq!(tape.uniform(low, high), None);
        assert_eq!(tape.chance(), None);
        tape.extend(&[u64::MAX, TOP, TOP]);
        assert_eq!((tape.uniform(low, high), tape.taken()), (Some(1.0), 7));
        assert_eq!((tape.uniform(2.0, 4.0), tape.taken()), (Some(3.0), 8));
    }

    /// A state row with this action and the kind 2 in every distribution.
    fn state(action: u64) -> [u64; STATE] {
        let mut state = [0; STATE];
        state[0] = action;
        for at in [TIMEOUT, DURATION, LIMIT, COUNTERS[0] + 2, COUNTERS[1] + 2] {
            state[at] = OUTSIDE;
        }
        state
    }

    #[test]
    fn used_fields_are_those_of_the_action_and_the_counters() {
        for (action, places) in
            [(0, &[][..]), (1, &[]), (2, &[3, 13]), (3, &[3, 8, 13]), (4, &[8, 13])]
        {
            assert_eq!(used(&state(action)), places);
        }
        let mut counters = state(0);
        (counters[25], counters[26]) = (3, 1);
        assert_eq!(used(&counters), [27]);
        counters[18] = 1;
        assert_eq!(used(&counters), [20, 27]);
    }

    #[test]
    fn states_of_the_machines_count() {
        let states = [state(0), state(1), state(2)].concat();
        let machines = |first, count| [0, 0, 0, 0, 0, 1, 0, 0, 0, 0, first, count];
        assert!(!draws_outside(&[], &states));
        assert!(!draws_outside(&machines(0, 2), &states));
        assert!(draws_outside(&machines(0, 3), &states));
        assert!(draws_outside(&machines(2, 1), &states));
    }
}
