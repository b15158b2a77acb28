//! Even draws (xorshift64*), which the machines of the benchmark and of the binding's tests are made of: their inputs
//! stay what they are.

#[derive(Clone)]
pub struct Plain(u64);

impl Plain {
    pub fn new(seed: u64) -> Plain {
        Plain(seed.wrapping_mul(0x9e37_79b9_7f4a_7c15) | 1)
    }

    pub fn word(&mut self) -> u64 {
        self.0 ^= self.0 >> 12;
        self.0 ^= self.0 << 25;
        self.0 ^= self.0 >> 27;
        self.0.wrapping_mul(0x2545_f491_4f6c_dd1d)
    }

    /// A number below n (n above 0).
    pub fn below(&mut self, n: usize) -> usize {
        (self.word() >> 11) as usize % n
    }

    pub fn one_in(&mut self, n: usize) -> bool {
        self.below(n) == 0
    }

    /// From 0 to below 1.
    pub fn unit(&mut self) -> f64 {
        crate::unit(self.word())
    }

    /// A chance draw.
    pub fn chance(&mut self) -> f32 {
        crate::unit_f32(self.word())
    }
}
