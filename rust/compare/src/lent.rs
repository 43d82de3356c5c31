//! Working bytes and rows of results to lend, with random contents.

use images::Rng;

/// More bytes than needed are up to so many more.
const MOST_MORE: usize = 40;

/// Numbers that are no packed keys are up to so many in a row.
const MOST_NO_KEYS: usize = 4;

/// Packed keys, and the results that are lent for them.
pub struct Row {
    pub keys: Vec<u64>,
    pub results: Vec<u32>,
}

pub struct Lender {
    rng: Rng,
}

impl Lender {
    pub fn new(seed: u64) -> Lender {
        Lender { rng: Rng::new(seed) }
    }

    /// Fewer bytes than needed, as often as not one fewer; none where none are needed.
    pub fn too_few(&mut self, needed: usize) -> Option<Vec<u8>> {
        let most = needed.checked_sub(1)?;
        let len = if self.rng.flip() { most } else { self.rng.index(needed) };
        Some(self.filled(len))
    }

    /// As many bytes as needed, or as often more.
    pub fn enough(&mut self, needed: usize) -> Vec<u8> {
        let more = if self.rng.flip() { 0 } else { 1 + self.rng.index(MOST_MORE) };
        self.filled(needed + more)
    }

    /// The keys and a few numbers that are none, in a random order. One row in eight has fewer results
    /// than keys, where it has keys; the others have as many or more.
    pub fn row(&mut self, mut keys: Vec<u64>) -> Row {
        for _ in 0..self.rng.index(MOST_NO_KEYS + 1) {
            let number = self.no_key(&keys);
            keys.push(number);
        }
        self.rng.shuffle(&mut keys);
        let len = match self.rng.index(8) {
            0 if !keys.is_empty() => self.rng.index(keys.len()),
            1..=4 => keys.len() + 1 + self.rng.index(MOST_MORE),
            _ => keys.len(),
        };
        let results = (0..len).map(|_| self.rng.next_u64() as u32).collect();
        Row { keys, results }
    }

    /// A number of 2 to the 56 or more, with the bits of a key where there is one; a key with a wrong
    /// fork byte; or any number.
    fn no_key(&mut self, keys: &[u64]) -> u64 {
        let key = if keys.is_empty() { 0 } else { keys[self.rng.index(keys.len())] };
        match self.rng.index(4) {
            0 => 1 << 56,
            1 => key | 1 << (56 + self.rng.index(8)),
            2 => key ^ (1 + self.rng.index(254) as u64) << 16,
            _ => self.rng.next_u64(),
        }
    }

    fn filled(&mut self, len: usize) -> Vec<u8> {
        let mut bytes = vec![0; len];
        self.rng.fill(&mut bytes);
        bytes
    }
}
