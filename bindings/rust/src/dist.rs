//! Distributions, named as in Maybenot's dist.rs.

use crate::machine::{Invalid, Place};
use crate::refusal::Refusal;
use std::fmt;

/// The type of a [`Dist`]. The library knows Uniform; a draw of any other type it takes as it is, so
/// the sender's [`Draws`](crate::Draws) samples these and gives their parameters a meaning: that of the
/// crate rand_distr, where it takes the defaults.
#[derive(Debug, Clone, Copy, PartialEq)]
pub enum DistType {
    /// Uniformly random [low, high). If low == high, constant, and no draw is taken.
    Uniform {
        /// The lower bound.
        low: f64,
        /// The upper bound, which is not drawn.
        high: f64,
    },
    /// Normal distribution.
    Normal {
        /// The mean.
        mean: f64,
        /// The standard deviation.
        stdev: f64,
    },
    /// SkewNormal distribution.
    SkewNormal {
        /// The location.
        location: f64,
        /// The scale.
        scale: f64,
        /// The shape; a Normal where it is 0.
        shape: f64,
    },
    /// LogNormal distribution.
    LogNormal {
        /// The mean of the draw's logarithm.
        mu: f64,
        /// The standard deviation of the draw's logarithm.
        sigma: f64,
    },
    /// Binomial distribution: the successes in some trials.
    Binomial {
        /// The number of trials.
        trials: u64,
        /// The probability of success.
        probability: f64,
    },
    /// Geometric distribution: the failures before the first success.
    Geometric {
        /// The probability of success.
        probability: f64,
    },
    /// Pareto distribution.
    Pareto {
        /// The scale, the least value drawn.
        scale: f64,
        /// The shape.
        shape: f64,
    },
    /// Poisson distribution.
    Poisson {
        /// The mean.
        lambda: f64,
    },
    /// Weibull distribution.
    Weibull {
        /// The scale.
        scale: f64,
        /// The shape.
        shape: f64,
    },
    /// Gamma distribution, of mean scale * shape.
    Gamma {
        /// The scale.
        scale: f64,
        /// The shape.
        shape: f64,
    },
    /// Beta distribution, of mean alpha / (alpha + beta).
    Beta {
        /// The shape alpha.
        alpha: f64,
        /// The shape beta.
        beta: f64,
    },
    /// Drawn outside by the sender, who alone knows the type: what tables of words say of all types
    /// but Uniform ([`Tables::from_words`](crate::Tables::from_words)). Its default draw is 0, so a
    /// sender with such tables overrides [`Draws::value`](crate::Draws::value).
    Outside,
}

impl DistType {
    /// Whether a sample takes a draw: all do but a Uniform with low == high.
    pub fn takes_draw(&self) -> bool {
        !matches!(self, DistType::Uniform { low, high } if low == high)
    }

    /// Whether the library takes this draw: for a Uniform low <= v < high, for other types any.
    pub fn takes(&self, drawn: f64) -> bool {
        match *self {
            DistType::Uniform { low, high } => (low..high).contains(&drawn),
            _ => true,
        }
    }

    /// The type's number and the bits of its parameters.
    fn key(&self) -> [u64; 4] {
        let of = |kind: u64, [a, b, c]: [f64; 3]| [kind, a.to_bits(), b.to_bits(), c.to_bits()];
        match *self {
            DistType::Uniform { low, high } => of(0, [low, high, 0.0]),
            DistType::Normal { mean, stdev } => of(1, [mean, stdev, 0.0]),
            DistType::SkewNormal { location, scale, shape } => of(2, [location, scale, shape]),
            DistType::LogNormal { mu, sigma } => of(3, [mu, sigma, 0.0]),
            DistType::Binomial { trials, probability } => [4, trials, probability.to_bits(), 0],
            DistType::Geometric { probability } => of(5, [probability, 0.0, 0.0]),
            DistType::Pareto { scale, shape } => of(6, [scale, shape, 0.0]),
            DistType::Poisson { lambda } => of(7, [lambda, 0.0, 0.0]),
            DistType::Weibull { scale, shape } => of(8, [scale, shape, 0.0]),
            DistType::Gamma { scale, shape } => of(9, [scale, shape, 0.0]),
            DistType::Beta { alpha, beta } => of(10, [alpha, beta, 0.0]),
            DistType::Outside => of(11, [0.0; 3]),
        }
    }
}

/// A number in a line of text: very large and very small ones with an exponent.
pub(crate) struct Short<T>(pub(crate) T);

impl<T: Copy + Into<f64> + fmt::Display + fmt::LowerExp> fmt::Display for Short<T> {
    fn fmt(&self, f: &mut fmt::Formatter<'_>) -> fmt::Result {
        let size = self.0.into().abs();
        if size == 0.0 || (1e-5..1e16).contains(&size) || !size.is_finite() {
            write!(f, "{}", self.0)
        } else {
            write!(f, "{:e}", self.0)
        }
    }
}

impl fmt::Display for DistType {
    fn fmt(&self, f: &mut fmt::Formatter<'_>) -> fmt::Result {
        let mut of = |name: &str, parameters: &[(&str, f64)]| {
            f.write_str(name)?;
            parameters.iter().try_for_each(|(name, value)| write!(f, " {name} {}", Short(*value)))
        };
        match *self {
            DistType::Uniform { low, high } => of("Uniform", &[("from", low), ("to", high)]),
            DistType::Normal { mean, stdev } => of("Normal", &[("mean", mean), ("stdev", stdev)]),
            DistType::SkewNormal { location, scale, shape } => {
                of("SkewNormal", &[("location", location), ("scale", scale), ("shape", shape)])
            }
            DistType::LogNormal { mu, sigma } => of("LogNormal", &[("mu", mu), ("sigma", sigma)]),
            DistType::Binomial { trials, probability } => {
                of(&format!("Binomial trials {trials}"), &[("probability", probability)])
            }
            DistType::Geometric { probability } => of("Geometric", &[("probability", probability)]),
            DistType::Pareto { scale, shape } => {
                of("Pareto", &[("scale", scale), ("shape", shape)])
            }
            DistType::Poisson { lambda } => of("Poisson", &[("lambda", lambda)]),
            DistType::Weibull { scale, shape } => {
                of("Weibull", &[("scale", scale), ("shape", shape)])
            }
            DistType::Gamma { scale, shape } => of("Gamma", &[("scale", scale), ("shape", shape)]),
            DistType::Beta { alpha, beta } => of("Beta", &[("alpha", alpha), ("beta", beta)]),
            DistType::Outside => f.write_str("Outside"),
        }
    }
}

/// A distribution, with what is added to a draw of it and where it is capped.
#[derive(Debug, Clone, Copy, PartialEq)]
pub struct Dist {
    /// The type of distribution.
    pub dist: DistType,
    /// The starting value that the drawn value is added to.
    pub start: f64,
    /// The maximum value of a sample, start included; no maximum where it is not above 0.
    pub max: f64,
}

impl Dist {
    /// Create a new [`Dist`].
    pub fn new(dist: DistType, start: f64, max: f64) -> Self {
        Dist { dist, start, max }
    }

    /// A distribution that always gives this value, and takes no draw.
    pub fn constant(value: f64) -> Self {
        Dist::new(DistType::Uniform { low: value, high: value }, 0.0, 0.0)
    }

    /// A Uniform distribution from low to high, with no start and no max.
    pub fn uniform(low: f64, high: f64) -> Self {
        Dist::new(DistType::Uniform { low, high }, 0.0, 0.0)
    }

    /// What a drawn value becomes: start is added, then it is brought between 0 and max. A sum that
    /// is not finite gives 0.
    pub fn adjust(&self, drawn: f64) -> f64 {
        let adjusted = drawn + self.start;
        if !adjusted.is_finite() {
            return 0.0;
        }
        let sample = adjusted.max(0.0);
        if self.max > 0.0 {
            sample.min(self.max)
        } else {
            sample
        }
    }

    /// Validate the bounds of a Uniform. The parameters of other types are the sender's matter.
    pub fn validate(&self) -> Result<(), Invalid> {
        let DistType::Uniform { low, high } = self.dist else {
            return Ok(());
        };
        let found = if !low.is_finite() || !high.is_finite() {
            "not finite"
        } else if low > high {
            "low above high"
        } else if (high - low).is_infinite() {
            "high - low is infinite"
        } else {
            return Ok(());
        };
        let found = format!("{}: {found}", self.dist);
        Err(Invalid { refusal: Refusal::UniformBounds, place: Place::default(), found })
    }

    /// All that tells this distribution from others, bit by bit.
    pub(crate) fn key(&self) -> [u64; 6] {
        let [kind, a, b, c] = self.dist.key();
        [kind, a, b, c, self.start.to_bits(), self.max.to_bits()]
    }
}

impl fmt::Display for Dist {
    fn fmt(&self, f: &mut fmt::Formatter<'_>) -> fmt::Result {
        write!(f, "{}, start {}, max {}", self.dist, Short(self.start), Short(self.max))
    }
}
