//! Random batches: pairs one after another, whole or cut anywhere, with false
//! lengths, or with other bytes behind them.

use super::{Pairs, Random};
use crate::limits::PROGRAM_BYTES;

/// A batch has no more pairs.
const MOST: usize = 12;

/// What is done to a batch, with how many of a hundred.
const KINDS: [(Kind, usize); 6] = [
    (Kind::Whole, 42),
    (Kind::CutBetween, 3),
    (Kind::CutInLengths, 12),
    (Kind::CutBehind, 15),
    (Kind::FalseLength, 20),
    (Kind::Junk, 8),
];

#[derive(Clone, Copy)]
enum Kind {
    Whole,
    CutBetween,
    CutInLengths,
    CutBehind,
    FalseLength,
    Junk,
}

/// A pair with the lengths that are stated, which may be false.
struct Stated {
    lengths: [u16; 2],
    bytes: Vec<u8>,
}

impl Stated {
    fn new(left: &[u8], right: &[u8]) -> Stated {
        let length = |program: &[u8]| u16::try_from(program.len()).unwrap_or(u16::MAX);
        Stated { lengths: [length(left), length(right)], bytes: [left, right].concat() }
    }

    fn write(&self, batch: &mut Vec<u8>) {
        batch.extend(self.lengths.map(u16::to_le_bytes).as_flattened());
        batch.extend(&self.bytes);
    }
}

/// An endless stream of batches.
pub struct Batches {
    random: Random,
    pairs: Pairs,
}

impl Iterator for Batches {
    type Item = Vec<u8>;

    fn next(&mut self) -> Option<Vec<u8>> {
        let weights = KINDS.map(|(_, weight)| weight);
        let (kind, _) = KINDS[self.random.weighted(&weights)];
        let least = usize::from(!matches!(kind, Kind::Whole));
        let count = least + self.random.below(MOST + 1 - least);
        let pairs = (0..count).map(|_| self.pair()).collect();
        Some(self.batch(kind, pairs))
    }
}

impl Batches {
    pub fn new(seed: u64) -> Batches {
        Batches { random: Random::new(!seed), pairs: Pairs::new(seed) }
    }

    /// What is badly framed is taken as one program.
    fn programs(&mut self) -> (Vec<u8>, Vec<u8>) {
        let input = self.pairs.next().unwrap_or_default();
        let split = input.split_first_chunk().and_then(|(length, rest)| {
            rest.split_at_checked(usize::from(u16::from_le_bytes(*length)))
        });
        let (left, right) = split.unwrap_or((&input, &[]));
        (left.to_vec(), right.to_vec())
    }

    /// Mostly a random pair; also such as have an empty program, or one of the
    /// greatest length or just beyond it.
    fn pair(&mut self) -> Stated {
        let (mut left, mut right) = self.programs();
        let padded = PROGRAM_BYTES + self.random.below(2);
        match self.random.below(150) {
            0..4 => left.clear(),
            4..8 => right.clear(),
            8..12 => (left, right) = (Vec::new(), Vec::new()),
            12 => left.resize(padded, 0),
            13 => right.resize(padded, 0),
            14 => {
                left.resize(PROGRAM_BYTES, 0);
                right.resize(PROGRAM_BYTES, 0);
            }
            _ => {}
        }
        Stated::new(&left, &right)
    }

    fn batch(&mut self, kind: Kind, mut pairs: Vec<Stated>) -> Vec<u8> {
        let chosen = self.random.below(pairs.len().max(1));
        if let Kind::FalseLength = kind {
            self.falsify(&mut pairs[chosen]);
        }
        let mut batch = Vec::new();
        pairs[..chosen].iter().for_each(|pair| pair.write(&mut batch));
        let kept = batch.len();
        pairs[chosen..].iter().for_each(|pair| pair.write(&mut batch));
        match kind {
            Kind::CutBetween => batch.truncate(kept),
            Kind::CutInLengths => batch.truncate(kept + 1 + self.random.below(3)),
            Kind::CutBehind => batch.truncate(kept + 4 + self.cut(pairs[chosen].bytes.len())),
            Kind::Junk => {
                let count = 1 + self.random.below(60);
                batch.extend(self.random.bytes(count));
            }
            Kind::Whole | Kind::FalseLength => {}
        }
        batch
    }

    /// How many of so many bytes are left: none, all but one, or any number.
    fn cut(&mut self, length: usize) -> usize {
        match self.random.below(4) {
            0 => 0,
            1 => length.saturating_sub(1),
            _ => self.random.below(length.max(1)),
        }
    }

    /// Other lengths on one side or on both.
    fn falsify(&mut self, pair: &mut Stated) {
        let sides = 1 + self.random.below(3);
        for (side, length) in pair.lengths.iter_mut().enumerate() {
            if sides >> side & 1 == 1 {
                let any = self.random.draw() as u16;
                let near = [length.wrapping_sub(1), length.wrapping_add(1)];
                let limits = [0, 16_384, 16_385, 65_535];
                let far = [16_386, 32_768, any];
                let kinds: [&[u16]; 3] = [&near, &limits, &far];
                let kind = self.random.weighted(&[3, 5, 2]);
                *length = *self.random.pick(kinds[kind]);
            }
        }
    }
}
