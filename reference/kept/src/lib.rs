//! What the framework keeps beside the Rust's state, in plain Rust, from the paragraph of job 3 in
//! document 02: a second writing, which the library's is compared with. Without dependencies and without
//! the Rust sources.
//!
//! The number of ended machines: equal to the number of machines in `STATE_END` after every operation.

use std::iter::zip;

/// The current state of a machine that has ended.
pub const STATE_END: u64 = 4_294_967_295;
/// A machine count above this is read as this.
pub const MACHINES_MAX: u64 = 16;

/// The words of a framework that are judged here.
#[derive(Clone, Debug, PartialEq)]
pub struct Framework {
    /// The machine count.
    pub machines: u64,
    /// The number of ended machines.
    pub ended: u64,
    /// 0 none, 1 all machines, 2 + m all but machine m.
    pub signal_pending: u64,
    /// A place for each machine that there may be.
    pub current_states: [u64; MACHINES_MAX as usize],
}

impl Framework {
    /// The machine count, one above 16 read as 16.
    fn count(&self) -> u64 {
        self.machines.min(MACHINES_MAX)
    }

    /// The number of machines in `STATE_END`, which `ended` has to be.
    pub fn in_state_end(&self) -> u64 {
        let states = &self.current_states[..self.count() as usize];
        states.iter().filter(|state| **state == STATE_END).count() as u64
    }

    /// Whether all machines have ended, read from the number.
    pub fn all_machines_ended(&self) -> bool {
        self.ended == self.count()
    }

    /// Whether it fits tables whose machines have so many states; else it gets 18.
    pub fn fits(&self, num_states: &[u64]) -> bool {
        let of_machine = |(state, states): (&u64, &u64)| *state == STATE_END || state < states;
        self.machines == num_states.len() as u64
            && zip(&self.current_states, num_states).all(of_machine)
            && (self.signal_pending < 2 || self.signal_pending - 2 < self.machines)
            && self.ended == self.in_state_end()
    }
}

#[cfg(test)]
mod tests {
    use super::*;

    /// Of machines in these states, with the right number.
    fn framework(states: &[u64]) -> Framework {
        let mut current_states = [0; 16];
        current_states[..states.len()].copy_from_slice(states);
        let (machines, signal_pending) = (states.len() as u64, 0);
        let mut framework = Framework { machines, ended: 0, signal_pending, current_states };
        framework.ended = framework.in_state_end();
        framework
    }

    #[test]
    fn the_number_is_that_of_the_machines_in_state_end() {
        assert_eq!(framework(&[]).ended, 0);
        assert_eq!(framework(&[0, STATE_END - 1, STATE_END + 1, u64::MAX]).ended, 0);
        assert_eq!(framework(&[STATE_END, 3, STATE_END]).ended, 2);
        assert_eq!(framework(&[STATE_END; 16]).ended, 16);
    }

    #[test]
    fn places_behind_the_last_machine_are_not_counted() {
        let all = framework(&[STATE_END; 16]);
        for machines in 0..16 {
            assert_eq!(Framework { machines, ..all.clone() }.in_state_end(), machines);
        }
        for machines in [17, 1 << 32, u64::MAX] {
            assert_eq!(Framework { machines, ..all.clone() }.in_state_end(), 16);
        }
    }

    #[test]
    fn all_have_ended_exactly_where_the_number_equals_the_count() {
        for (ended, machines) in [(0, 0), (1, 1), (15, 15), (16, 16), (16, 17), (16, u64::MAX)] {
            let read = Framework { machines, ended, ..framework(&[]) };
            assert!(read.all_machines_ended(), "whatever the states");
        }
        for (ended, machines) in [(0, 1), (1, 0), (15, 16), (17, 17), (u64::MAX, u64::MAX)] {
            let read = Framework { machines, ended, ..framework(&[STATE_END; 16]) };
            assert!(!read.all_machines_ended(), "whatever the states");
        }
    }

    #[test]
    fn a_wrong_number_does_not_fit() {
        let num_states = [1, 2, 3];
        for states in [[0, 1, 2], [0, STATE_END, 2], [STATE_END; 3]] {
            let right = framework(&states);
            assert!(right.fits(&num_states));
            for ended in (0..=4).chain([16, STATE_END, u64::MAX]) {
                let fits = Framework { ended, ..right.clone() }.fits(&num_states);
                assert_eq!(fits, ended == right.ended);
            }
        }
    }

    #[test]
    fn another_count_another_state_and_an_unknown_machine_left_out_do_not_fit() {
        let good = framework(&[0, STATE_END]);
        for num_states in [&[1][..], &[1, 2, 1], &[]] {
            assert!(!good.fits(num_states));
        }
        assert!(!Framework { machines: 3, ..good.clone() }.fits(&[1, 2]));
        assert!(!framework(&[1, STATE_END]).fits(&[1, 2]));
        assert!(!framework(&[0, STATE_END - 1]).fits(&[1, 2]));
        for signal_pending in 0..6 {
            let fits = Framework { signal_pending, ..good.clone() }.fits(&[1, 2]);
            assert_eq!(fits, signal_pending < 4);
        }
        assert!(!Framework { signal_pending: u64::MAX, ..good }.fits(&[1, 2]));
    }
}
