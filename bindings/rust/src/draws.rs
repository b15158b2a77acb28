//! The sender's side of the draws.

use crate::dist::{Dist, DistType};
use crate::refusal::{BadDraw, Refusal, Refused};
use crate::sampling;

/// Where the draws come from: the sender's own random numbers. The library draws none.
///
/// Tables in which every distribution is a Uniform need none of this: a function that gives random words
/// does there ([`Framework::trigger_events_words`](crate::Framework::trigger_events_words)).
///
/// A generator of random words is enough. The defaults work out every draw from words, and none of
/// these is ever refused, whatever the words are:
///
/// ```
/// use maybenot_link::{dist::DistType, Draws};
///
/// struct SplitMix(u64);
///
/// impl Draws for SplitMix {
///     fn word(&mut self) -> u64 {
///         self.0 = self.0.wrapping_add(0x9e37_79b9_7f4a_7c15);
///         let z = (self.0 ^ (self.0 >> 30)).wrapping_mul(0xbf58_476d_1ce4_e5b9);
///         let z = (z ^ (z >> 27)).wrapping_mul(0x94d0_49bb_1331_11eb);
///         z ^ (z >> 31)
///     }
/// }
///
/// let mut source = SplitMix(1);
/// assert!((0.0..1.0).contains(&source.chance()));
/// let timeout = DistType::Uniform { low: 10.0, high: 20.0 };
/// assert!((10.0..20.0).contains(&source.value(&timeout)));
/// ```
///
/// A sender with the crates rand and rand_distr, where Maybenot gets its draws from, overrides `value`,
/// and `chance` where it wants rand's own:
///
/// ```text
/// impl<R: rand::Rng> Draws for Sampler<R> {
///     fn word(&mut self) -> u64 {
///         self.0.next_u64()
///     }
///
///     fn value(&mut self, dist: &DistType) -> f64 {
///         match *dist {
///             DistType::Uniform { low, high } => self.0.random_range(low..high),
///             DistType::Normal { mean, stdev } => Normal::new(mean, stdev).unwrap().sample(&mut self.0),
///             ..
///         }
///     }
/// }
/// ```
pub trait Draws {
    /// The next random word: each of its 64 bits is 0 or 1 with the same probability.
    fn word(&mut self) -> u64;

    /// A draw for the choice of a transition, 0 <= c < 1. By default the top 24 bits of a word over
    /// 2^24.
    fn chance(&mut self) -> f32 {
        sampling::chance(self.word())
    }

    /// A draw of this distribution, before start and max: for a Uniform low <= v < high, for any other
    /// type whatever the sender draws for it. A NaN and an infinity become 0.
    ///
    /// By default a Uniform is low + (high - low) * u, with u the top 53 bits of a word over 2^53; where
    /// that rounds up to high the next word is tried, and low is taken after 64 of them. The other
    /// types are sampled from words with their parameters as in rand_distr, and
    /// [`Outside`](DistType::Outside) gives 0: whoever has tables with such distributions overrides
    /// this function.
    fn value(&mut self, dist: &DistType) -> f64 {
        sampling::value(dist, &mut || self.word())
    }

    /// Whether the library may work the draws out of the words itself, by the formulas of
    /// [`trigger_events_words`](crate::Framework::trigger_events_words), where the tables have only
    /// Uniforms. `chance` and `value` are then not asked. False by default; [`RawWords`] says true.
    fn raw(&self) -> bool {
        false
    }
}

/// A function that gives random words, as a source of draws: with tables that have only Uniforms the
/// library works the draws out, one call of it for a batch.
///
/// ```
/// use maybenot_link::{Draws, RawWords};
///
/// let mut next = 0u64;
/// let mut source = RawWords(|| {
///     next = next.wrapping_add(0x9e37_79b9_7f4a_7c15);
///     next
/// });
/// assert!(source.raw());
/// assert_eq!(source.word(), 0x9e37_79b9_7f4a_7c15);
/// ```
#[derive(Clone, Debug)]
pub struct RawWords<F>(pub F);

impl<F: FnMut() -> u64> Draws for RawWords<F> {
    fn word(&mut self) -> u64 {
        (self.0)()
    }

    fn raw(&self) -> bool {
        true
    }
}

impl<D: Draws + ?Sized> Draws for &mut D {
    fn word(&mut self) -> u64 {
        (**self).word()
    }

    fn chance(&mut self) -> f32 {
        (**self).chance()
    }

    fn value(&mut self, dist: &DistType) -> f64 {
        (**self).value(dist)
    }

    fn raw(&self) -> bool {
        (**self).raw()
    }
}

/// Whether the library takes this chance draw.
pub(crate) fn is_chance(drawn: f32) -> bool {
    (0.0..1.0).contains(&drawn)
}

/// The value, refused where the distribution does not take it.
pub(crate) fn checked(dist: &Dist, drawn: f64) -> Result<f64, Refused> {
    if dist.dist.takes(drawn) {
        Ok(drawn)
    } else {
        Err(BadDraw::Value { dist: *dist, drawn }.into())
    }
}

/// Draws that were taken ahead from a source, and that no call has used yet.
#[derive(Debug, Default)]
pub(crate) struct Store {
    pub(crate) chances: Vec<f32>,
    pub(crate) values: Vec<f64>,
    pub(crate) words: Tape,
}

/// Words that were taken ahead from a source, and that no call has used yet.
#[derive(Debug, Default)]
pub(crate) struct Tape(Vec<u64>);

impl Tape {
    pub(crate) fn len(&self) -> usize {
        self.0.len()
    }

    /// Makes a call with a word for each of so many draws, and again with twice as many where these are
    /// used up, until a source that does no better is given up. `call` gives the refusal or 0, the words
    /// used, and what is answered.
    pub(crate) fn lend<A>(
        &mut self,
        draws: usize,
        mut source: impl FnMut() -> u64,
        mut call: impl FnMut(&[u64]) -> (u64, u64, A),
    ) -> Result<A, Refused> {
        let mut wanted = draws;
        loop {
            while self.0.len() < wanted {
                self.0.push(source());
            }
            let (refusal, used, answer) = call(&self.0);
            match Refusal::from_number(refusal) {
                None => {
                    self.0.drain(..used as usize);
                    return Ok(answer);
                }
                Some(Refusal::DrawsUsedUp) if self.0.len() < sampling::TRIES * draws => {
                    wanted = 2 * self.0.len();
                }
                Some(Refusal::DrawsUsedUp) => {
                    self.0.clear();
                    return Err(Refusal::DrawsUsedUp.into());
                }
                Some(refusal) => return Err(refusal.into()),
            }
        }
    }
}

impl Store {
    /// Draws until there are so many chances.
    pub(crate) fn fill_chances(
        &mut self,
        most: usize,
        draws: &mut impl Draws,
    ) -> Result<(), Refused> {
        while self.chances.len() < most {
            let drawn = draws.chance();
            if !is_chance(drawn) {
                return Err(BadDraw::Chance { drawn }.into());
            }
            self.chances.push(drawn);
        }
        Ok(())
    }

    /// Draws until there are so many values of this distribution, the only one of the tables.
    pub(crate) fn fill_values(
        &mut self,
        most: usize,
        dist: &Dist,
        draws: &mut impl Draws,
    ) -> Result<(), Refused> {
        while self.values.len() < most {
            self.values.push(checked(dist, draws.value(&dist.dist))?);
        }
        Ok(())
    }
}
