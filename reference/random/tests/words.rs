//! Both sequences are the published ones, so that a seed keeps its inputs.

use random::{Plain, Random};

#[test]
fn the_first_words_are_those_of_splitmix64_and_xorshift64star() {
    assert_eq!(Random::new(0).word(), 0xe220_a839_7b1d_cdaf);
    assert_eq!(Plain::new(0).word(), 5_180_492_295_206_395_165);
}
