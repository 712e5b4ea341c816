//! Random pairs of programs and of lists, random batches and random records, the
//! same for the same seed.

mod batches;
mod changes;
mod entries;
mod explanations;
mod lists;
mod pairs;
mod programs;
mod refusals;
mod rewrites;
mod templates;
mod unwritten;
mod writes;

pub use batches::Batches;
pub use entries::Records;
pub use explanations::{Explanations, Masked};
pub use lists::{ListPairs, Parts};
pub use pairs::Pairs;
pub use unwritten::unwritten;
pub use writes::{Lent, Writes};

/// How often something is tried until it turns out as wanted. A few times are
/// enough; the bound is for a checker that is wrong, so that its tests end.
const ATTEMPTS: usize = 500;

/// A small generator (splitmix64) of numbers that look random.
pub struct Random {
    state: u64,
}

impl Random {
    pub fn new(seed: u64) -> Random {
        Random { state: seed }
    }

    pub fn draw(&mut self) -> u64 {
        self.state = self.state.wrapping_add(0x9E37_79B9_7F4A_7C15);
        let mut bits = self.state;
        bits = (bits ^ (bits >> 30)).wrapping_mul(0xBF58_476D_1CE4_E5B9);
        bits = (bits ^ (bits >> 27)).wrapping_mul(0x94D0_49BB_1331_11EB);
        bits ^ (bits >> 31)
    }

    /// A number from 0 up to and without `count`.
    pub fn below(&mut self, count: usize) -> usize {
        (self.draw() % count as u64) as usize
    }

    /// A number from `low` to `high`, both included.
    pub fn between(&mut self, low: i32, high: i32) -> i32 {
        low + self.below((high - low + 1) as usize) as i32
    }

    pub fn chance(&mut self, percent: usize) -> bool {
        self.below(100) < percent
    }

    pub fn pick<'a, T>(&mut self, from: &'a [T]) -> &'a T {
        &from[self.below(from.len())]
    }

    pub fn byte(&mut self) -> u8 {
        self.draw() as u8
    }

    pub fn bytes(&mut self, count: usize) -> Vec<u8> {
        (0..count).map(|_| self.byte()).collect()
    }

    /// The place of one of some weighted kinds.
    pub fn weighted(&mut self, weights: &[usize]) -> usize {
        let mut left = self.below(weights.iter().sum());
        for (kind, &weight) in weights.iter().enumerate() {
            if left < weight {
                return kind;
            }
            left -= weight;
        }
        unreachable!("what is left is below the sum of all weights")
    }
}
