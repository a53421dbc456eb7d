//! A small deterministic generator (splitmix64): the same seed gives the same histories on every machine.

use std::cell::Cell;

/// Drawn from by shared reference, so that one draw can be an argument of another.
pub struct Random {
    state: Cell<u64>,
}

impl Random {
    pub fn new(seed: u64) -> Random {
        Random { state: Cell::new(seed) }
    }

    /// A generator of its own for each history, so that a single history can be run again.
    pub fn of_history(seed: u64, number: u64) -> Random {
        let mixed = Random::new(seed ^ number.wrapping_mul(0xA076_1D64_78BD_642F));
        Random::new(mixed.next())
    }

    pub fn next(&self) -> u64 {
        let mut mixed = self.state.get().wrapping_add(0x9E37_79B9_7F4A_7C15);
        self.state.set(mixed);
        mixed = (mixed ^ (mixed >> 30)).wrapping_mul(0xBF58_476D_1CE4_E5B9);
        mixed = (mixed ^ (mixed >> 27)).wrapping_mul(0x94D0_49BB_1331_11EB);
        mixed ^ (mixed >> 31)
    }

    /// A number below `bound`, which is not 0.
    pub fn below(&self, bound: usize) -> usize {
        (self.next() % bound as u64) as usize
    }

    pub fn chance(&self, percent: usize) -> bool {
        self.below(100) < percent
    }

    pub fn choose<T: Copy>(&self, items: &[T]) -> T {
        items[self.below(items.len())]
    }

    /// An index, each as likely as its weight says.
    pub fn weighted(&self, weights: &[usize]) -> usize {
        let mut left = self.below(weights.iter().sum());
        weights
            .iter()
            .position(|&weight| {
                let found = left < weight;
                left = left.wrapping_sub(weight);
                found
            })
            .expect("the weights' sum is above the number drawn")
    }

    pub fn fill(&self, bytes: &mut [u8]) {
        for part in bytes.chunks_mut(8) {
            let drawn = self.next().to_le_bytes();
            part.copy_from_slice(&drawn[..part.len()]);
        }
    }

    pub fn bytes(&self, length: usize) -> Vec<u8> {
        let mut bytes = vec![0; length];
        self.fill(&mut bytes);
        bytes
    }
}
