//! The store of terms: each different term once, under a number.
//!
//! Two terms are the same exactly if their numbers are, so values are compared
//! by number and an operator's arguments are numbers of terms stored before.
//! Which arguments may swap is the caller's to know: one that gives these in
//! one order has a number for each class of terms alike up to swaps.

use crate::limits::{TERMS, TERM_WORDS};

/// Kind and operator number, then up to four parts: array and cell of a start,
/// value of a literal, name of a constant, arguments of an operator. Unused
/// parts are 0; the tag says how many are used, so nothing is ambiguous.
pub type Term = [u32; 5];

/// A term and the number behind the next term of its bucket.
type Record = [u32; 6];
const LINK: usize = 5;
const BUCKETS: usize = TERM_WORDS - TERMS * 6;

const START: u32 = 1;
const LITERAL: u32 = 2;
const CONSTANT: u32 = 3;
/// Plus the operator's number.
const OPERATOR: u32 = 16;

/// The starting contents of a cell.
pub fn start(array: u32, cell: u32) -> Term {
    [START, array, cell, 0, 0]
}

pub fn literal(value: u32) -> Term {
    [LITERAL, value, 0, 0, 0]
}

pub fn constant(name: u32) -> Term {
    [CONSTANT, name, 0, 0, 0]
}

pub fn operator(number: u32, arguments: [u32; 4]) -> Term {
    let [a, b, c, d] = arguments;
    [OPERATOR + number, a, b, c, d]
}

/// Odd, so that no part loses bits.
const FACTORS: Term = [0x9E37_79B1, 0x85EB_CA6B, 0xC2B2_AE35, 0x27D4_EB2F, 0x1656_67B1];

/// Wraps at 2^32. Only speed depends on it.
fn mix(term: &Term) -> u32 {
    let mut mix = 0u32;
    for (part, factor) in term.iter().zip(FACTORS) {
        mix = mix.wrapping_add(part.wrapping_mul(factor));
    }
    mix ^= mix >> 15;
    mix.wrapping_mul(0x2C1B_3C6D)
}

/// Part for part.
fn same(record: &Record, term: &Term) -> bool {
    record.iter().zip(term).all(|(held, part)| held == part)
}

fn bucket(term: &Term) -> usize {
    (mix(term) >> (32 - BUCKETS.trailing_zeros())) as usize
}

pub struct Store<'a> {
    /// The number behind the first term of each bucket, 0 for none.
    heads: &'a mut [u32; BUCKETS],
    records: &'a mut [Record; TERMS],
    used: usize,
}

impl<'a> Store<'a> {
    /// An empty store over lent words, which must be all zeros and enough.
    pub fn over(words: &'a mut [u32]) -> Store<'a> {
        let (heads, rest) = words.split_first_chunk_mut().expect("length asked before");
        let records = rest.as_chunks_mut().0.first_chunk_mut().expect("length asked before");
        Store { heads, records, used: 0 }
    }

    /// The number of the term, or nothing if one more term would be too many.
    /// Inlined, so that a term is put together in registers.
    #[inline(always)]
    pub fn intern(&mut self, term: Term) -> Option<u32> {
        let head = &mut self.heads[bucket(&term)];
        let mut behind = *head;
        while behind != 0 {
            let record = &self.records[behind as usize - 1];
            if same(record, &term) {
                return Some(behind - 1);
            }
            behind = record[LINK];
        }
        let number = self.used as u32;
        let record = self.records.get_mut(self.used)?;
        record[..LINK].copy_from_slice(&term);
        record[LINK] = *head;
        self.used += 1;
        *head = number + 1;
        Some(number)
    }

    /// Is the stored term with this number the given one?
    pub fn is(&self, number: u32, term: Term) -> bool {
        same(&self.records[number as usize], &term)
    }

    pub fn len(&self) -> usize {
        self.used
    }

    pub fn is_empty(&self) -> bool {
        self.used == 0
    }

    /// Zeros what was used, which is less than all for a small pair.
    pub fn clear(&mut self) {
        for record in &mut self.records[..self.used] {
            let term = record.first_chunk().expect("a record begins with its term");
            self.heads[bucket(term)] = 0;
            *record = [0; 6];
        }
        self.used = 0;
    }
}

#[cfg(test)]
mod tests {
    use super::*;

    /// Of an odd number, modulo 2^32; each step doubles the bits that hold.
    fn inverse(odd: u32) -> u32 {
        (0..5).fold(odd, |guess, _| guess.wrapping_mul(2u32.wrapping_sub(odd.wrapping_mul(guess))))
    }

    #[test]
    fn every_term_has_one_number() {
        let mut words = vec![0; TERM_WORDS];
        let mut store = Store::over(&mut words);
        let terms = [start(0, 1), start(1, 0), literal(1), constant(1), operator(0, [1, 0, 0, 0])];
        let numbers: Vec<_> = terms.iter().map(|&term| store.intern(term)).collect();
        assert_eq!(numbers, [Some(0), Some(1), Some(2), Some(3), Some(4)]);
        let again: Vec<_> = terms.iter().map(|&term| store.intern(term)).collect();
        assert_eq!(again, numbers);
        assert_eq!(store.len(), 5);
    }

    #[test]
    fn argument_order_matters() {
        let mut words = vec![0; TERM_WORDS];
        let mut store = Store::over(&mut words);
        let (a, b) = (store.intern(literal(7)).unwrap(), store.intern(literal(8)).unwrap());
        let ab = store.intern(operator(0, [a, b, 0, 0]));
        let ba = store.intern(operator(0, [b, a, 0, 0]));
        assert_ne!(ab, ba);
    }

    #[test]
    fn equal_mixes_are_compared_in_full() {
        // Constant w collides with literal v if the tags' difference makes up
        // for that of v and w; the second factor is odd, so it has an inverse.
        let shift = FACTORS[0].wrapping_mul(inverse(FACTORS[1]));
        let pairs = [0, 1, 77, u32::MAX].map(|v| (literal(v), constant(v.wrapping_sub(shift))));
        for (one, other) in pairs {
            let mut words = vec![0; TERM_WORDS];
            let mut store = Store::over(&mut words);
            assert_eq!(mix(&one), mix(&other));
            assert_eq!((store.intern(one), store.intern(other)), (Some(0), Some(1)));
            assert_eq!((store.intern(one), store.intern(other)), (Some(0), Some(1)));
            store.clear();
            assert!(words.iter().all(|&word| word == 0));
        }
    }

    #[test]
    fn one_term_too_many_is_refused_and_known_terms_are_not() {
        let mut words = vec![0; TERM_WORDS];
        let mut store = Store::over(&mut words);
        for value in 0..TERMS as u32 {
            assert_eq!(store.intern(literal(value)), Some(value));
        }
        assert_eq!(store.intern(literal(TERMS as u32)), None);
        assert_eq!(store.intern(literal(17)), Some(17));
        store.clear();
        assert!(words.iter().all(|&word| word == 0));
    }
}
