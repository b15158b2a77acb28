//! Draws worked out from words: what the defaults of [`Draws`](crate::Draws) do.
//!
//! The parameters mean what they mean in the crate rand_distr. Every function ends, whatever the words
//! are: where a method turns a try down, the number of tries is bounded.

use crate::dist::DistType;
use std::f64::consts::TAU;

/// The source, as a function that gives the next word.
type Words<'a> = dyn FnMut() -> u64 + 'a;

/// At most so many tries. A try is turned down in half of the cases at worst.
pub(crate) const TRIES: usize = 64;

/// Up to so many trials are drawn one by one.
const FEW_TRIALS: u64 = 32;

/// Up to so many expected events are drawn one by one, and then at most so many.
const FEW_EVENTS: f64 = 16.0;
const MOST_EVENTS: usize = 256;

/// From this shape on, less than one try in so many of a Gamma is turned down.
const LARGE_SHAPE: f64 = 1e10;

/// From this lambda on, a Poisson is drawn as a Normal.
const LARGE_LAMBDA: f64 = 1e15;

/// A chance draw: the top 24 bits of a word over 2^24.
pub(crate) fn chance(word: u64) -> f32 {
    (word >> 40) as f32 / (1u32 << 24) as f32
}

/// A draw of this type.
pub(crate) fn value(dist: &DistType, words: &mut Words<'_>) -> f64 {
    match *dist {
        DistType::Uniform { low, high } => uniform(low, high, words),
        DistType::Normal { mean, stdev } => mean + stdev * normal(words),
        DistType::SkewNormal { location, scale, shape } => {
            location + scale * skew_normal(shape, words)
        }
        DistType::LogNormal { mu, sigma } => (mu + sigma * normal(words)).exp(),
        DistType::Binomial { trials, probability } => binomial(trials, probability, words) as f64,
        DistType::Geometric { probability } => geometric(probability, words),
        DistType::Pareto { scale, shape } => scale * above_zero(words).powf(-1.0 / shape),
        DistType::Poisson { lambda } => poisson(lambda, words),
        DistType::Weibull { scale, shape } => scale * exponential(words).powf(1.0 / shape),
        DistType::Gamma { scale, shape } => scale * gamma(shape, words),
        DistType::Beta { alpha, beta } => self::beta(alpha, beta, words),
        DistType::Outside => 0.0,
    }
}

/// From 0 to below 1: the top 53 bits of a word over 2^53.
fn unit(words: &mut Words<'_>) -> f64 {
    (words() >> 11) as f64 / (1u64 << 53) as f64
}

/// From above 0 to 1.
fn above_zero(words: &mut Words<'_>) -> f64 {
    1.0 - unit(words)
}

/// The next word is tried where the result rounds up to high; low after too many.
fn uniform(low: f64, high: f64, words: &mut Words<'_>) -> f64 {
    if low == high {
        return low;
    }
    for _ in 0..TRIES {
        let drawn = low + (high - low) * unit(words);
        if low <= drawn && drawn < high {
            return drawn;
        }
    }
    low
}

/// Of mean 1.
fn exponential(words: &mut Words<'_>) -> f64 {
    -above_zero(words).ln()
}

/// Of mean 0 and variance 1, by Box and Muller.
fn normal(words: &mut Words<'_>) -> f64 {
    let radius = (2.0 * exponential(words)).sqrt();
    radius * (TAU * unit(words)).cos()
}

/// Of location 0 and scale 1.
fn skew_normal(shape: f64, words: &mut Words<'_>) -> f64 {
    let length = shape.hypot(1.0);
    shape / length * normal(words).abs() + normal(words) / length
}

/// Failures before the first success; as many as a u64 holds where success never comes.
fn geometric(probability: f64, words: &mut Words<'_>) -> f64 {
    let most = u64::MAX as f64;
    if probability <= 0.0 {
        return most;
    }
    if probability >= 1.0 {
        return 0.0;
    }
    (exponential(words) / -(-probability).ln_1p()).floor().min(most)
}

/// Of scale 1.
fn gamma(shape: f64, words: &mut Words<'_>) -> f64 {
    if shape < 1.0 {
        ln_of_gamma(shape, words).exp()
    } else {
        gamma_from_one(shape, words)
    }
}

/// The logarithm of a draw of a Gamma of scale 1, which is finite for shapes near 0 too.
fn ln_of_gamma(shape: f64, words: &mut Words<'_>) -> f64 {
    if shape < 1.0 {
        gamma_from_one(shape + 1.0, words).ln() - exponential(words) / shape
    } else {
        gamma_from_one(shape, words).ln()
    }
}

/// Of scale 1 and a shape of 1 or more, by Marsaglia and Tsang; the mean after too many tries.
fn gamma_from_one(shape: f64, words: &mut Words<'_>) -> f64 {
    let d = shape - 1.0 / 3.0;
    let c = 1.0 / (9.0 * d).sqrt();
    for _ in 0..TRIES {
        let x = normal(words);
        let v = (1.0 + c * x).powi(3);
        if v <= 0.0 {
            continue;
        }
        let bound = 0.5 * x * x + d * (1.0 - v + v.ln());
        if shape >= LARGE_SHAPE || -exponential(words) < bound {
            return d * v;
        }
    }
    shape
}

/// From two Gammas, by their logarithms.
fn beta(alpha: f64, beta: f64, words: &mut Words<'_>) -> f64 {
    let (first, second) = (ln_of_gamma(alpha, words), ln_of_gamma(beta, words));
    1.0 / (1.0 + (second - first).exp())
}

/// Successes in so many trials. A trial succeeds where its number, uniform from 0 to 1, is below the
/// probability. The number in the middle of all, in order, is a Beta: it tells that half of the trials
/// succeed, or that half of them fail, and the other half is drawn in the same way.
fn binomial(mut trials: u64, mut probability: f64, words: &mut Words<'_>) -> u64 {
    if probability >= 1.0 {
        return trials;
    }
    let mut successes = 0;
    while trials > FEW_TRIALS && probability > 0.0 {
        let middle = trials / 2 + 1;
        let number = beta(middle as f64, (trials - middle + 1) as f64, words);
        if number <= probability {
            successes += middle;
            trials -= middle;
            probability = (probability - number) / (1.0 - number);
        } else {
            trials = middle - 1;
            probability /= number;
        }
    }
    if probability > 0.0 {
        successes += (0..trials).filter(|_| unit(words) < probability).count() as u64;
    }
    successes
}

/// Events of rate 1 in a time of lambda, by Ahrens and Dieter: the time of one that lies at seven
/// eighths is a Gamma. Where it is past lambda, those before it are spread evenly over its time.
fn poisson(lambda: f64, words: &mut Words<'_>) -> f64 {
    if lambda >= LARGE_LAMBDA {
        return (lambda + lambda.sqrt() * normal(words)).round();
    }
    let (mut left, mut count) = (lambda, 0.0);
    for _ in 0..TRIES {
        if left <= FEW_EVENTS {
            break;
        }
        let events = (0.875 * left).floor();
        let time = gamma(events, words);
        if time > left {
            return count + binomial(events as u64 - 1, left / time, words) as f64;
        }
        count += events;
        left -= time;
    }
    count + few_events(left, words)
}

/// The events one by one; their mean after too many.
fn few_events(lambda: f64, words: &mut Words<'_>) -> f64 {
    let mut time = 0.0;
    for count in 0..MOST_EVENTS {
        time += exponential(words);
        if time >= lambda {
            return count as f64;
        }
    }
    lambda.floor()
}
