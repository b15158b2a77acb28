//! linkrun's input: little-endian words, taken apart and put together.

/// Words of a row.
pub const MACHINE: usize = 6;
pub const STATE: usize = 58;
pub const TRANSITION: usize = 2;

/// The most words that an input may have.
pub const WORDS: usize = 8192;

pub const END: u64 = 4_294_967_295;
pub const SIGNAL: u64 = 4_294_967_294;

/// Places of a state row.
pub const FLAGS: usize = 1;
pub const TIMER: usize = 2;
pub const TIMEOUT: usize = 3;
pub const DURATION: usize = 8;
pub const LIMIT: usize = 13;
pub const COUNTER_A: usize = 18;
pub const COUNTER_B: usize = 25;
pub const PAIRS: usize = 32;

#[derive(Clone, Debug, PartialEq)]
pub struct Call {
    pub time: u64,
    pub events: Vec<[u64; 2]>,
}

#[derive(Clone, Debug, Default, PartialEq)]
pub struct Stream {
    pub max_padding_frac: u64,
    pub max_blocking_frac: u64,
    pub time: u64,
    pub machines: Vec<[u64; MACHINE]>,
    pub states: Vec<[u64; STATE]>,
    pub transitions: Vec<[u64; TRANSITION]>,
    pub chances: Vec<u64>,
    pub values: Vec<u64>,
    pub calls: Vec<Call>,
}

struct Reader {
    words: Vec<u64>,
    at: usize,
}

impl Reader {
    fn word(&mut self) -> Option<u64> {
        let word = self.words.get(self.at).copied();
        self.at += 1;
        word
    }

    /// A number of rows, none where fewer words are left.
    fn rows<const N: usize>(&mut self, count: u64) -> Option<Vec<[u64; N]>> {
        let left = (self.words.len() - self.at) as u128;
        if count as u128 * N as u128 > left {
            return None;
        }
        let mut rows = Vec::with_capacity(count as usize);
        for _ in 0..count {
            rows.push(std::array::from_fn(|k| self.words[self.at + k]));
            self.at += N;
        }
        Some(rows)
    }
}

impl Stream {
    /// The input that the bytes are; none for a broken one (21).
    pub fn parse(bytes: &[u8]) -> Option<Stream> {
        let words = words(bytes)?;
        if words.len() > WORDS || words.len() < 9 {
            return None;
        }
        let mut r = Reader { words, at: 0 };
        let [max_padding_frac, max_blocking_frac, time] = [r.word()?, r.word()?, r.word()?];
        let counts: [u64; 6] = [r.word()?, r.word()?, r.word()?, r.word()?, r.word()?, r.word()?];
        let machines = r.rows(counts[0])?;
        let states = r.rows(counts[1])?;
        let transitions = r.rows(counts[2])?;
        let chances: Vec<u64> = r.rows::<1>(counts[3])?.into_iter().map(|[w]| w).collect();
        let values = r.rows::<1>(counts[4])?.into_iter().map(|[w]| w).collect();
        if chances.iter().any(|c| *c >= 1 << 32) {
            return None;
        }
        let mut calls = Vec::new();
        for _ in 0..counts[5] {
            let (time, count) = (r.word()?, r.word()?);
            calls.push(Call { time, events: r.rows(count)? });
        }
        if r.at != r.words.len() {
            return None;
        }
        Some(Stream {
            max_padding_frac,
            max_blocking_frac,
            time,
            machines,
            states,
            transitions,
            chances,
            values,
            calls,
        })
    }

    pub fn words(&self) -> Vec<u64> {
        let mut w = vec![self.max_padding_frac, self.max_blocking_frac, self.time];
        w.extend(
            [self.machines.len(), self.states.len(), self.transitions.len()].map(|n| n as u64),
        );
        w.extend([self.chances.len(), self.values.len(), self.calls.len()].map(|n| n as u64));
        w.extend(self.machines.iter().flatten());
        w.extend(self.states.iter().flatten());
        w.extend(self.transitions.iter().flatten());
        w.extend(self.chances.iter().chain(&self.values));
        for call in &self.calls {
            w.extend([call.time, call.events.len() as u64]);
            w.extend(call.events.iter().flatten());
        }
        w
    }

    pub fn bytes(&self) -> Vec<u8> {
        bytes(&self.words())
    }
}

/// The words that bytes are; none where the last one is cut.
pub fn words(bytes: &[u8]) -> Option<Vec<u64>> {
    let (words, rest) = bytes.as_chunks::<8>();
    rest.is_empty().then(|| words.iter().map(|w| u64::from_le_bytes(*w)).collect())
}

pub fn bytes(words: &[u64]) -> Vec<u8> {
    words.iter().flat_map(|w| w.to_le_bytes()).collect()
}
