//! The due list in plain Rust, from the paragraph of job 2 in document 02: a second writing, which the
//! library's is compared with. Without dependencies and without the Rust sources.
//!
//! The rows that a batch returned (machine, kind, flags, timer, timeout, duration), smallest timeout first,
//! lower machine first where equal; rows equal in both keep their order.

/// Words of a row.
pub const WORDS: usize = 6;
const MACHINE: usize = 0;
const KIND: usize = 1;
const TIMEOUT: usize = 4;

/// Rows that are not whole.
pub const NOT_WHOLE_ROWS: u64 = 3;
/// A kind other than 1 to 4.
pub const BAD_KIND: u64 = 14;
/// A buffer shorter than the rows.
pub const TOO_SHORT: u64 = 20;

/// Writes the due list of the rows to the buffer. Answers the refusal or 0, and the rows written.
pub fn due_list(rows: &[u64], out: &mut [u64]) -> (u64, u64) {
    let (list, []) = rows.as_chunks::<WORDS>() else {
        return (NOT_WHOLE_ROWS, 0);
    };
    if list.iter().any(|row| !(1..=4).contains(&row[KIND])) {
        return (BAD_KIND, 0);
    }
    let Some(out) = out.get_mut(..rows.len()) else {
        return (TOO_SHORT, 0);
    };
    out.copy_from_slice(rows);
    // sort_by_key is stable
    out.as_chunks_mut::<WORDS>().0.sort_by_key(|row| (row[TIMEOUT], row[MACHINE]));
    (0, list.len() as u64)
}

#[cfg(test)]
mod tests {
    use super::*;

    /// In a word of the buffer to which nothing was written.
    const BEFORE: u64 = 0x5555;

    /// The answer and the buffer after the call.
    fn call(rows: &[u64], room: usize) -> ((u64, u64), Vec<u64>) {
        let mut out = vec![BEFORE; room];
        let answer = due_list(rows, &mut out);
        (answer, out)
    }

    /// The list of whole rows, in a buffer of their length.
    fn list<const N: usize>(rows: [[u64; WORDS]; N]) -> [[u64; WORDS]; N] {
        let (answer, out) = call(rows.as_flattened(), WORDS * N);
        assert_eq!(answer, (0, N as u64));
        out.as_chunks().0.try_into().unwrap()
    }

    #[test]
    fn smallest_timeout_first() {
        let [late, soon, last] =
            [[0, 3, 0, 0, 7, 1], [1, 2, 0, 0, 2, 0], [2, 2, 0, 0, u64::MAX, 0]];
        assert_eq!(list([last, late, soon]), [soon, late, last]);
    }

    #[test]
    fn lower_machine_first_where_equal() {
        let [low, high, none] =
            [[15, 2, 0, 0, 7, 0], [16, 2, 0, 0, 7, 0], [u64::MAX, 2, 0, 0, 7, 0]];
        assert_eq!(list([none, high, low]), [low, high, none]);
    }

    #[test]
    fn cancel_and_update_timer_come_early() {
        let [padding, cancel, timer] = [[0, 2, 0, 0, 1, 0], [1, 1, 0, 2, 0, 0], [2, 4, 1, 0, 0, 9]];
        assert_eq!(list([padding, cancel, timer]), [cancel, timer, padding]);
    }

    #[test]
    fn rows_equal_in_both_keep_their_order() {
        let [a, b, c] = [[3, 4, 3, 0, 5, 9], [3, 1, 0, 2, 5, 0], [3, 2, 9, 9, 5, 4]];
        assert_eq!(list([a, b, c]), [a, b, c]);
        assert_eq!(list([c, a, c, b]), [c, a, c, b]);
    }

    #[test]
    fn words_after_the_last_row_stay() {
        let row = [1, 2, 0, 0, 5, 0];
        let (answer, out) = call(&row, 8);
        assert_eq!(answer, (0, 1));
        assert_eq!((&out[..6], &out[6..]), (&row[..], &[BEFORE; 2][..]));
        assert_eq!(call(&[], 2), ((0, 0), vec![BEFORE; 2]));
        assert_eq!(call(&[], 0), ((0, 0), vec![]));
    }

    #[test]
    fn refused_in_this_order_writing_nothing() {
        for kind in [0, 5, u64::MAX] {
            let rows = [[1, 2, 0, 0, 5, 0], [1, kind, 0, 0, 5, 0]];
            let rows = rows.as_flattened();
            for room in [0, 11, 12, 13] {
                let before = vec![BEFORE; room];
                assert_eq!(call(&rows[..11], room), ((NOT_WHOLE_ROWS, 0), before.clone()));
                assert_eq!(call(rows, room), ((BAD_KIND, 0), before));
            }
        }
        let row = [1, 2, 0, 0, 5, 0];
        for room in 0..6 {
            assert_eq!(call(&row, room), ((TOO_SHORT, 0), vec![BEFORE; room]));
        }
    }
}
