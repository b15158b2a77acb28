//! Which inputs the corpus holds: those written by hand, and of each family the ones that bring most
//! names of the table for their size.

use crate::{Counts, add, counts_of};
use harness::generate::{FAMILIES, input};
use harness::stream::words;
use harness::{answers, corpus};

/// A chosen input: its name, its bytes, and what it reaches.
pub struct Chosen {
    pub name: String,
    pub bytes: Vec<u8>,
    pub counts: Counts,
    /// The words of its case in the corpus.
    pub size: usize,
}

/// The first seeds of each family are the candidates.
pub const SEEDS: u64 = 1000;
/// A name is wanted this often in a family's part, and in the corpus; a refusal in a part more often.
const IN_A_PART: u64 = 2;
const IN_ALL: u64 = 10;
const REFUSALS_IN_A_PART: u64 = 8;
/// A part has at most this many words, and a case.
const PART: usize = 5000;
const CASE: usize = 3500;

fn candidates(family: &str) -> Vec<Chosen> {
    let seeds = (0..SEEDS).map(|seed| (format!("{family}-{seed}"), input(family, seed)));
    // a case of the corpus has whole words
    let whole = seeds.filter_map(|(name, bytes)| Some((words(&bytes)?.len(), name, bytes)));
    let sized = whole.filter_map(|(length, name, bytes)| {
        let most = if family == "stream" { 400 } else { CASE };
        let size = |bytes: &[u8]| corpus::case(&[], &answers(bytes, true)).len() + length;
        let size = (length <= most).then(|| size(&bytes)).filter(|size| *size <= most)?;
        Some((size, name, bytes))
    });
    sized
        .map(|(size, name, bytes)| Chosen { counts: counts_of(&bytes), name, bytes, size })
        .collect()
}

fn seen(counts: &Counts, name: &str) -> u64 {
    counts.get(name).copied().unwrap_or(0)
}

/// The inputs of one family for its part, after those that the corpus has already.
fn family(name: &str, corpus: &mut Counts) -> Vec<Chosen> {
    let mut left = candidates(name);
    // in families of refused inputs only the refusals count
    let refused = matches!(name, "tapes" | "damaged" | "double" | "mutated" | "stream");
    let (mut part, mut size, mut chosen) = (Counts::new(), 0, Vec::new());
    loop {
        let wanted = |name: &&String| {
            let refusal = name.starts_with("refusal");
            let often = if refusal { REFUSALS_IN_A_PART } else { IN_A_PART };
            (refusal || !refused) && (seen(&part, name) < often || seen(corpus, name) < IN_ALL)
        };
        // what the part and the corpus have is worth less and less
        let had = |name: &String| (1 + seen(&part, name)) * (1 + seen(corpus, name));
        let worth = |c: &Chosen| {
            let names = c.counts.keys().filter(wanted);
            names.map(|name| 1_000_000_000 / had(name)).sum::<u64>() / c.size as u64
        };
        let fits = |c: &(usize, &Chosen)| size + c.1.size <= PART;
        let best = left.iter().enumerate().filter(fits).max_by_key(|(_, c)| worth(c));
        let Some((place, best)) = best.filter(|(_, c)| worth(c) > 0) else {
            return chosen;
        };
        add(&mut part, &best.counts);
        add(corpus, &best.counts);
        size += best.size;
        chosen.push(left.remove(place));
    }
}

/// The corpus: each part's name and what it holds.
pub fn corpus() -> Vec<(String, Vec<Chosen>)> {
    let cases = harness::cases::cases().into_iter().map(|(name, bytes)| {
        let size = bytes.len() / 8;
        Chosen { name: name.to_string(), counts: counts_of(&bytes), bytes, size }
    });
    let cases: Vec<Chosen> = cases.collect();
    let mut sum = Counts::new();
    cases.iter().for_each(|c| add(&mut sum, &c.counts));
    let mut parts = vec![("cases".to_string(), cases)];
    parts.extend(FAMILIES.iter().map(|(name, _)| (name.to_string(), family(name, &mut sum))));
    parts
}
