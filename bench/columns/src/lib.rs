//! The library's routine that puts numbers in columns, as its archive `libcolumns_link.a` has it.

mod linked {
    extern "C" {
        #[rustfmt::skip]
        pub fn columns_put(
            text: *mut u8,
            bytes: usize,
            width: usize,
            numbers: *const u64,
            count: usize,
        ) -> usize;
        pub fn columns_put_4(t: *mut u8, bytes: usize, n: *const u64, count: usize) -> usize;
        pub fn columns_put_12(t: *mut u8, bytes: usize, n: *const u64, count: usize) -> usize;
        pub fn columns_put_21(t: *mut u8, bytes: usize, n: *const u64, count: usize) -> usize;
        #[cfg(other)]
        pub fn other_columns_put_4(t: *mut u8, bytes: usize, n: *const u64, count: usize) -> usize;
        #[cfg(other)]
        pub fn other_columns_put_12(t: *mut u8, bytes: usize, n: *const u64, count: usize)
            -> usize;
        #[cfg(other)]
        pub fn other_columns_put_21(t: *mut u8, bytes: usize, n: *const u64, count: usize)
            -> usize;
    }
}

/// Puts numbers at the start of the text, one behind the other, and answers the bytes; 0 where there is no room.
pub type Put = fn(&mut [u8], &[u64]) -> usize;

/// In so many columns each.
pub fn put(text: &mut [u8], width: usize, numbers: &[u64]) -> usize {
    // SAFETY: both parts are lent with their lengths and do not overlap.
    unsafe {
        linked::columns_put(text.as_mut_ptr(), text.len(), width, numbers.as_ptr(), numbers.len())
    }
}

macro_rules! fixed {
    ($name:ident) => {
        |text, numbers| {
            // SAFETY: as in `put`.
            unsafe { linked::$name(text.as_mut_ptr(), text.len(), numbers.as_ptr(), numbers.len()) }
        }
    };
}

/// With a width that the compiler knew, as in the library and its programs.
pub const FIXED: [(usize, Put); 3] =
    [(4, fixed!(columns_put_4)), (12, fixed!(columns_put_12)), (21, fixed!(columns_put_21))];

/// The same of the other archive.
#[cfg(other)]
pub const OTHER: [Put; 3] =
    [fixed!(other_columns_put_4), fixed!(other_columns_put_12), fixed!(other_columns_put_21)];
