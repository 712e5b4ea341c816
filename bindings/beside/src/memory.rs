//! Lent memory full of garbage, of any lengths.

use separate::random::Random;
use tengmua::{CELL_WORDS, LIST_WORDS, TERM_WORDS};

/// The words that question 25 asks of the left list, the right list, cells and terms.
pub const ENOUGH: [usize; 4] = [LIST_WORDS, LIST_WORDS, CELL_WORDS, TERM_WORDS];

/// More than any slice of the tests has.
const GARBAGE: usize = 1 << 17;

/// Where garbage is copied from: words of which no stretch is zeros.
pub struct Garbage(Vec<u32>);

impl Garbage {
    pub fn new(random: &mut Random) -> Garbage {
        Garbage((0..GARBAGE).map(|_| random.draw() as u32 | 1).collect())
    }

    /// Fills a slice with words that change from call to call.
    pub fn fill(&self, slice: &mut [u32], random: &mut Random) {
        let from = random.below(self.0.len() - slice.len());
        slice.copy_from_slice(&self.0[from..from + slice.len()]);
    }
}

/// Mostly the shortest lengths that are enough; some longer, some with one that is too short.
pub fn lengths(enough: &[usize], random: &mut Random) -> Vec<usize> {
    let mut lengths = enough.to_vec();
    let place = random.below(lengths.len());
    match random.below(100) {
        0..10 => lengths.iter_mut().for_each(|length| *length += random.below(2_000)),
        10..13 => {
            let least = lengths[place];
            lengths[place] = *random.pick(&[0, 1, 97, 98, least / 2, least - 1, least - 1]);
        }
        _ => {}
    }
    lengths
}

pub fn is_zero(slice: &[u32]) -> bool {
    slice.iter().fold(0, |bits, word| bits | word) == 0
}
