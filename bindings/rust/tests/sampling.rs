//! The default draws: their means and variances, their ranges, and that they end for every source.

mod common;

use common::{Random, Words};
use maybenot_link::dist::DistType;
use maybenot_link::Draws;
use std::f64::consts::PI;

/// The mean and the variance of so many draws.
fn moments(dist: &DistType, count: usize) -> (f64, f64) {
    let mut source = Words(Random::new(count as u64));
    let drawn: Vec<f64> = (0..count).map(|_| source.value(dist)).collect();
    let mean = drawn.iter().sum::<f64>() / count as f64;
    let square = drawn.iter().map(|v| (v - mean) * (v - mean)).sum::<f64>();
    (mean, square / (count - 1) as f64)
}

/// The mean is within 4 of its standard deviations, the variance within 6 percent.
#[track_caller]
fn near(dist: DistType, mean: f64, variance: f64) {
    let count = 20_000;
    let (found_mean, found_variance) = moments(&dist, count);
    let off = (found_mean - mean).abs() / (variance / count as f64).sqrt();
    assert!(off < 4.0, "{dist}: mean {found_mean}, not {mean}");
    let ratio = found_variance / variance;
    assert!((ratio - 1.0).abs() < 0.06, "{dist}: variance {found_variance}, not {variance}");
}

#[test]
fn uniforms() {
    for (low, high) in [(0.0, 1.0), (-3.0, 5.0), (1e6, 4e6), (-1e150, 1e150)] {
        let width: f64 = high - low;
        near(DistType::Uniform { low, high }, (low + high) / 2.0, width * width / 12.0);
    }
}

#[test]
fn normals() {
    for (mean, stdev) in [(0.0, 1.0), (-20.0, 0.5), (1e6, 300.0)] {
        near(DistType::Normal { mean, stdev }, mean, stdev * stdev);
    }
}

#[test]
fn skew_normals() {
    for (location, scale, shape) in [(0.0, 1.0, 0.0), (5.0, 2.0, 3.0), (-1.0, 10.0, -0.5)] {
        let delta: f64 = shape / f64::hypot(1.0, shape);
        let mean = location + scale * delta * (2.0 / PI).sqrt();
        let variance = scale * scale * (1.0 - 2.0 * delta * delta / PI);
        near(DistType::SkewNormal { location, scale, shape }, mean, variance);
    }
}

#[test]
fn log_normals() {
    for (mu, sigma) in [(0.0, 0.25), (3.0, 0.1), (-2.0, 0.4)] {
        let square: f64 = sigma * sigma;
        let mean = f64::exp(mu + square / 2.0);
        near(DistType::LogNormal { mu, sigma }, mean, square.exp_m1() * mean * mean);
    }
}

#[test]
fn binomials() {
    let cases = [
        (10, 0.3),
        (1000, 0.02),
        (33, 0.9),
        (1_000_000_000, 0.4),
        (1_000_000_000_000_000_000, 1e-17),
        (u64::MAX, 0.5),
    ];
    for (trials, probability) in cases {
        let mean = trials as f64 * probability;
        near(DistType::Binomial { trials, probability }, mean, mean * (1.0 - probability));
    }
}

#[test]
fn geometrics() {
    for probability in [0.5, 0.01, 0.7, 1e-9] {
        let failure = 1.0 - probability;
        let mean = failure / probability;
        near(DistType::Geometric { probability }, mean, mean / probability);
    }
}

#[test]
fn paretos() {
    for (scale, shape) in [(1.0, 12.0), (1000.0, 20.0), (0.001, 50.0)] {
        let mean: f64 = shape * scale / (shape - 1.0);
        near(DistType::Pareto { scale, shape }, mean, mean * mean / (shape * (shape - 2.0)));
    }
}

#[test]
fn poissons() {
    for lambda in [0.3, 3.0, 15.9, 40.0, 1e6, 1e12, 1e20] {
        near(DistType::Poisson { lambda }, lambda, lambda);
    }
}

#[test]
fn weibulls() {
    // with the Gamma function of 1 + 1 / shape and of 1 + 2 / shape
    let cases = [
        (1.0, 1.0, 1.0, 2.0),
        (500.0, 2.0, PI.sqrt() / 2.0, 1.0),
        (3.0, 4.0, 0.906_402_477_055_477, PI.sqrt() / 2.0),
    ];
    for (scale, shape, first, second) in cases {
        let variance = scale * scale * (second - first * first);
        near(DistType::Weibull { scale, shape }, scale * first, variance);
    }
}

#[test]
fn gammas() {
    for (scale, shape) in [(1.0, 1.0), (2.0, 0.4), (1000.0, 7.5), (0.1, 1e12)] {
        near(DistType::Gamma { scale, shape }, scale * shape, scale * scale * shape);
    }
}

#[test]
fn betas() {
    for (alpha, beta) in [(2.0, 3.0), (0.5, 0.5), (0.03, 0.07), (1e5, 3e5), (1e-4, 1e-4)] {
        let sum: f64 = alpha + beta;
        let variance = alpha * beta / (sum * sum * (sum + 1.0));
        near(DistType::Beta { alpha, beta }, alpha / sum, variance);
    }
}

/// Counts are whole numbers, and the odds of small ones are right.
#[test]
fn counts_are_whole() {
    let mut source = Words(Random::new(9));
    let (mut none, count) = ([0; 3], 20_000);
    let dists = [
        DistType::Poisson { lambda: 1.0 },
        DistType::Binomial { trials: 40, probability: 0.025 },
        DistType::Geometric { probability: 0.25 },
    ];
    for _ in 0..count {
        for (dist, none) in dists.iter().zip(&mut none) {
            let drawn = source.value(dist);
            assert!(drawn >= 0.0 && drawn.fract() == 0.0, "{dist}: {drawn}");
            *none += usize::from(drawn == 0.0);
        }
    }
    for (none, odds) in none.iter().zip([(-1.0_f64).exp(), 0.975_f64.powi(40), 0.25]) {
        let off =
            (*none as f64 - odds * count as f64) / (count as f64 * odds * (1.0 - odds)).sqrt();
        assert!(off.abs() < 4.0, "{none} of {count}, odds {odds}");
    }
}

/// Bounds between which few numbers lie, or very many.
const HARD: [(f64, f64); 9] = [
    (1.0, 1.0 + f64::EPSILON),
    (-1.0, -1.0 + f64::EPSILON / 2.0),
    (1e16, 1e16 + 2.0),
    (0.0, 5e-324),
    (-5e-324, 5e-324),
    (5e-324, 1.5e-323),
    (-1e308, 0.7e308),
    (-f64::MAX, 0.0),
    (0.0, f64::MAX),
];

#[test]
fn uniforms_stay_inside_hard_bounds() {
    let mut source = Words(Random::new(4));
    for (low, high) in HARD {
        let dist = DistType::Uniform { low, high };
        for _ in 0..5000 {
            let drawn = source.value(&dist);
            assert!(low <= drawn && drawn < high, "{dist}: {drawn:e}");
        }
    }
    let dist = DistType::Uniform { low: 5e-324, high: 1.5e-323 };
    let drawn: Vec<f64> = (0..100).map(|_| source.value(&dist)).collect();
    assert!(drawn.contains(&5e-324) && drawn.contains(&1e-323));
}

/// Hands out these words, then the last one for ever.
struct Listed(Vec<u64>);

impl Draws for Listed {
    fn word(&mut self) -> u64 {
        if self.0.len() > 1 {
            self.0.remove(0)
        } else {
            self.0[0]
        }
    }
}

#[test]
fn draws_follow_from_the_bits() {
    let word = 0x9abc_def0_1234_5678_u64;
    assert_eq!(Listed(vec![word]).chance(), 0x9a_bcde as f32 / 16_777_216.0);
    let unit = (word >> 11) as f64 / 9_007_199_254_740_992.0;
    let dist = DistType::Uniform { low: -3.0, high: 1e9 };
    assert_eq!(Listed(vec![word]).value(&dist), -3.0 + (1e9 + 3.0) * unit);
    // the first two words round up to high, the third does not
    let dist = DistType::Uniform { low: 1.0, high: 1.0 + f64::EPSILON };
    let mut source = Listed(vec![u64::MAX, 3 << 62, 1 << 62, 77]);
    assert_eq!(source.value(&dist), 1.0);
    assert_eq!(source.0, [77]);
    // low after 64 of them
    let mut source = Listed([vec![u64::MAX; 64], vec![77]].concat());
    assert_eq!(source.value(&dist), 1.0);
    assert_eq!(source.0, [77]);
}

/// Every type with these two parameters and trials.
fn every_type(a: f64, b: f64, trials: u64) -> [DistType; 11] {
    [
        DistType::Normal { mean: a, stdev: b },
        DistType::SkewNormal { location: a, scale: b, shape: a },
        DistType::LogNormal { mu: a, sigma: b },
        DistType::Binomial { trials, probability: a },
        DistType::Geometric { probability: a },
        DistType::Pareto { scale: a, shape: b },
        DistType::Poisson { lambda: a },
        DistType::Weibull { scale: a, shape: b },
        DistType::Gamma { scale: a, shape: b },
        DistType::Beta { alpha: a, beta: b },
        DistType::Outside,
    ]
}

#[test]
fn every_source_ends() {
    let numbers = [
        0.0,
        -0.0,
        1.0,
        0.5,
        -2.0,
        20.0,
        5e-324,
        1e-9,
        1e14,
        1e300,
        f64::MAX,
        f64::MIN,
        f64::INFINITY,
        f64::NEG_INFINITY,
        f64::NAN,
    ];
    let mut random = Words(Random::new(6));
    let mut constant = [0, 1, u64::MAX, 1 << 63].map(|word| Listed(vec![word]));
    let mut sources: Vec<&mut dyn Draws> = vec![&mut random];
    sources.extend(constant.iter_mut().map(|source| source as &mut dyn Draws));
    for source in &mut sources {
        for (a, b) in numbers.iter().flat_map(|a| numbers.map(|b| (*a, b))) {
            for trials in [0, 1, 1000, u64::MAX] {
                every_type(a, b, trials).iter().for_each(|dist| {
                    source.value(dist);
                });
            }
        }
        assert!((0.0..1.0).contains(&source.chance()));
        for (low, high) in HARD {
            assert!((low..high).contains(&source.value(&DistType::Uniform { low, high })));
        }
        assert_eq!(source.value(&DistType::Uniform { low: 7.0, high: 7.0 }), 7.0);
        assert_eq!(source.value(&DistType::Outside), 0.0);
    }
}

/// A reference to a source hands on what the source overrides.
#[test]
fn references_are_sources() {
    struct Own;
    impl Draws for Own {
        fn word(&mut self) -> u64 {
            5
        }
        fn chance(&mut self) -> f32 {
            0.75
        }
        fn value(&mut self, _: &DistType) -> f64 {
            8.5
        }
    }
    fn all(mut draws: impl Draws) -> (u64, f32, f64) {
        (draws.word(), draws.chance(), draws.value(&DistType::Outside))
    }
    assert_eq!(all(&mut Own), (5, 0.75, 8.5));
    assert_eq!(all(&mut &mut Own), (5, 0.75, 8.5));
}
