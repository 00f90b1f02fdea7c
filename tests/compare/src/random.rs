//! Numbers that look random and come back with the same seed.

use second::text::Range;

/// A row of numbers that its seed and index decide.
#[derive(Clone, Debug)]
pub struct Rng(u64);

/// The step of the state from one number to the next.
const STEP: u64 = 0x9e37_79b9_7f4a_7c15;

fn mix(state: u64) -> u64 {
    let state = (state ^ (state >> 30)).wrapping_mul(0xbf58_476d_1ce4_e5b9);
    let state = (state ^ (state >> 27)).wrapping_mul(0x94d0_49bb_1331_11eb);
    state ^ (state >> 31)
}

impl Rng {
    /// The row of this index under this seed.
    pub fn new(seed: u64, index: u64) -> Self {
        let seed = mix(seed.wrapping_add(STEP));
        Rng(mix(seed ^ mix(index.wrapping_add(STEP).wrapping_mul(STEP))))
    }

    /// The next 64 bits.
    pub fn bits(&mut self) -> u64 {
        self.0 = self.0.wrapping_add(STEP);
        mix(self.0)
    }

    /// A number from 0 to below the bound; 0 if the bound is 0.
    pub fn below(&mut self, bound: usize) -> usize {
        (self.bits() % bound.max(1) as u64) as usize
    }

    /// A number from `low` to `high`, or `low` if there is none between.
    pub fn between(&mut self, low: i64, high: i64) -> i64 {
        let width = high.saturating_sub(low).max(0) as u64;
        low + (self.bits() % (width + 1)) as i64
    }

    /// Whether a thing that happens once in `times` happens now.
    pub fn once_in(&mut self, times: usize) -> bool {
        self.below(times) == 0
    }

    /// One of these.
    pub fn pick<T: Copy>(&mut self, from: &[T]) -> T {
        from[self.below(from.len())]
    }

    /// A number of the range.
    pub fn within(&mut self, range: Range) -> i64 {
        self.between(range.low, range.high)
    }

    /// A number of the range that likes its ends, zero and what lies beside.
    pub fn edge(&mut self, range: Range) -> i64 {
        let Range { low, high } = range;
        let likely = [low, high, low + 1, high - 1, 0, 1, -1, (low + high) / 2];
        let value = match self.below(5) {
            0 => self.within(range),
            1 => self.within(Range::new(-9, 9)),
            _ => self.pick(&likely),
        };
        value.clamp(low, high)
    }

    /// So many bytes.
    pub fn bytes(&mut self, count: usize) -> Vec<u8> {
        (0..count).map(|_| self.bits() as u8).collect()
    }

    /// So many of these bytes.
    pub fn bytes_of(&mut self, from: &[u8], count: usize) -> Vec<u8> {
        (0..count).map(|_| self.pick(from)).collect()
    }

    /// Brings a row into another order.
    pub fn shuffle<T>(&mut self, row: &mut [T]) {
        for last in (1..row.len()).rev() {
            row.swap(last, self.below(last + 1));
        }
    }
}

#[cfg(test)]
mod tests {
    use super::*;

    #[test]
    fn a_seed_and_an_index_decide_the_row() {
        let row = |seed, index| {
            let mut rng = Rng::new(seed, index);
            [rng.bits(), rng.bits(), rng.bits()]
        };
        assert_eq!(row(1, 2), row(1, 2));
        assert_ne!(row(1, 2), row(1, 3));
        assert_ne!(row(1, 2), row(2, 2));
        assert_ne!(row(1, 2), row(2, 1));
    }

    #[test]
    fn numbers_stay_within_their_ranges() {
        let mut rng = Rng::new(7, 0);
        for _ in 0..2000 {
            assert!((-3..=5).contains(&rng.between(-3, 5)));
            assert!((2..=4).contains(&rng.edge(Range::new(2, 4))));
            assert!(rng.below(3) < 3);
        }
        assert_eq!(rng.between(4, 4), 4);
        assert_eq!(rng.between(4, 3), 4);
        assert_eq!(rng.below(0), 0);
    }
}
