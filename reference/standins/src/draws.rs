//! rand, rand_core and rand_distr: every draw is asked of the generator as a whole, never made of bits.

use std::fmt;
use std::ops::Range;

/// A source of draws in place of a source of bits.
pub trait RngCore {
    /// A chance draw, 0 <= c < 1.
    fn chance(&mut self) -> f32;
    /// A value draw for a Uniform, low <= v < high.
    fn uniform(&mut self, low: f64, high: f64) -> f64;
    /// A value draw for one of the other ten kinds, taken as it is.
    fn outside(&mut self) -> f64;
}

/// Types of which a range can be sampled, as in rand.
pub trait SampleUniform: Sized {
    fn sample_from<R: RngCore + ?Sized>(low: Self, high: Self, rng: &mut R) -> Self;
}

impl SampleUniform for f32 {
    fn sample_from<R: RngCore + ?Sized>(low: f32, high: f32, rng: &mut R) -> f32 {
        assert!(low == 0.0 && high == 1.0, "an f32 is drawn from 0 to 1 alone");
        rng.chance()
    }
}

impl SampleUniform for f64 {
    fn sample_from<R: RngCore + ?Sized>(low: f64, high: f64, rng: &mut R) -> f64 {
        rng.uniform(low, high)
    }
}

/// Ranges that can be sampled, as in rand.
pub trait SampleRange<T> {
    fn sample_single<R: RngCore + ?Sized>(self, rng: &mut R) -> T;
}

impl<T: SampleUniform + PartialOrd> SampleRange<T> for Range<T> {
    fn sample_single<R: RngCore + ?Sized>(self, rng: &mut R) -> T {
        T::sample_from(self.start, self.end, rng)
    }
}

pub trait Rng: RngCore {
    fn random_range<T, R>(&mut self, range: R) -> T
    where
        T: SampleUniform,
        R: SampleRange<T>,
    {
        range.sample_single(self)
    }
}

impl<R: RngCore + ?Sized> Rng for R {}

pub trait Distribution<T> {
    fn sample<R: RngCore + ?Sized>(&self, rng: &mut R) -> T;
}

/// The error of a constructor; none of them gives it.
#[derive(Debug)]
pub enum Never {}

impl fmt::Display for Never {
    fn fmt(&self, _: &mut fmt::Formatter<'_>) -> fmt::Result {
        match *self {}
    }
}

/// A kind drawn outside: its parameters are not looked at, its sample is the next value draw.
macro_rules! drawn_outside {
    ($($name:ident($($parameter:ident: $type:ty),*) -> $sample:ty;)*) => {$(
        pub struct $name;

        impl $name {
            pub fn new($($parameter: $type),*) -> Result<Self, Never> {
                let _ = ($($parameter,)*);
                Ok($name)
            }
        }

        impl Distribution<$sample> for $name {
            fn sample<R: RngCore + ?Sized>(&self, rng: &mut R) -> $sample {
                rng.outside() as $sample
            }
        }
    )*};
}

drawn_outside! {
    Normal(mean: f64, stdev: f64) -> f64;
    SkewNormal(location: f64, scale: f64, shape: f64) -> f64;
    LogNormal(mu: f64, sigma: f64) -> f64;
    Binomial(trials: u64, probability: f64) -> u64;
    Geometric(probability: f64) -> u64;
    Pareto(scale: f64, shape: f64) -> f64;
    Poisson(lambda: f64) -> f64;
    Weibull(scale: f64, shape: f64) -> f64;
    Gamma(shape: f64, scale: f64) -> f64;
    Beta(alpha: f64, beta: f64) -> f64;
}
