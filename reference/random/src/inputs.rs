//! What generated inputs are made of (splitmix64): draws that often stand at an edge.

#[derive(Clone, Debug)]
pub struct Random(u64);

impl Random {
    pub fn new(seed: u64) -> Random {
        Random(seed)
    }

    pub fn word(&mut self) -> u64 {
        self.0 = self.0.wrapping_add(0x9e37_79b9_7f4a_7c15);
        let z = (self.0 ^ (self.0 >> 30)).wrapping_mul(0xbf58_476d_1ce4_e5b9);
        let z = (z ^ (z >> 27)).wrapping_mul(0x94d0_49bb_1331_11eb);
        z ^ (z >> 31)
    }

    /// A number below n (n above 0).
    pub fn below(&mut self, n: usize) -> usize {
        (self.word() % n as u64) as usize
    }

    /// True in `percent` of 100 cases.
    pub fn often(&mut self, percent: usize) -> bool {
        self.below(100) < percent
    }

    pub fn one_of<T: Copy>(&mut self, list: &[T]) -> T {
        list[self.below(list.len())]
    }

    /// A number from 0 on, half as likely with each step, at most `most`.
    pub fn small(&mut self, most: usize) -> usize {
        (self.word().trailing_zeros() as usize).min(most)
    }

    /// A chance draw in range, with the ends of the range among them.
    pub fn chance(&mut self) -> f32 {
        match self.below(10) {
            0 => self.one_of(&[0.0, -0.0, f32::MIN_POSITIVE]),
            1 => self.one_of(&[1.0 - f32::EPSILON / 2.0, 0.999_999]),
            2 => self.one_of(&[0.25, 0.5, 0.75]),
            _ => crate::unit_f32(self.word()),
        }
    }

    /// A value with low <= v < high.
    pub fn within(&mut self, low: f64, high: f64) -> f64 {
        let u = match self.below(5) {
            0 => return low,
            1 => return high.next_down().max(low),
            2 => self.one_of(&[0.25, 0.5, 0.75]),
            _ => crate::unit(self.word()),
        };
        let v = low + (high - low) * u;
        if (low..high).contains(&v) { v } else { low }
    }

    /// A value of a kind drawn outside: mostly small, with everything that rounding, cutting and
    /// capping tell apart.
    pub fn outside(&mut self) -> f64 {
        match self.below(12) {
            0 => self.one_of(&[f64::NAN, f64::INFINITY, f64::NEG_INFINITY, f64::MAX, f64::MIN]),
            1 => self.one_of(&[-0.0, 0.0, -1.0, -0.5, -3.0, -1e300, 5e-324, -5e-324]),
            2 => self.one_of(&[
                0.5,
                1.5,
                2.5,
                7.5,
                0.499_999_999_999_999_94,
                1.499_999_999_999_999_8,
            ]),
            3 => self.one_of(&[
                86_400_000_000.0,
                86_399_999_999.5,
                86_399_999_999.499_99,
                86_400_000_000.5,
                1e12,
                1e300,
            ]),
            4 => self.one_of(&[
                18_446_744_073_709_551_616.0,
                18_446_744_073_709_549_568.0,
                9_223_372_036_854_775_808.0,
                9_007_199_254_740_993.0,
                9_007_199_254_740_995.0,
                4_503_599_627_370_495.5,
                4_503_599_627_370_497.5,
            ]),
            5 => f64::from_bits(self.word()),
            6 | 7 => self.below(4) as f64,
            _ => self.below(2000) as f64 / 8.0,
        }
    }
}
