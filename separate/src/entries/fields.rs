//! Single fields at a place, which may be any number.

use crate::reply::{Question, Refusal};

/// A value and the place past it, or a "no".
pub type Outcome<T> = Result<(T, usize), Refusal>;

/// Are there n bytes at this place?
pub fn has(s: &[u8], at: usize, n: usize) -> bool {
    at.checked_add(n).is_some_and(|end| end <= s.len())
}

/// A field of n bytes, the lowest first.
pub fn field(n: usize, s: &[u8], at: usize) -> Outcome<usize> {
    Question::WholeField.ask(has(s, at, n), at)?;
    let bytes = s[at..at + n].iter().rev();
    Ok((bytes.fold(0, |number, &byte| 256 * number + usize::from(byte)), at + n))
}

pub fn i8(s: &[u8], at: usize) -> Outcome<i8> {
    field(1, s, at).map(|(byte, next)| (byte as u8 as i8, next))
}

pub fn i16(s: &[u8], at: usize) -> Outcome<i16> {
    field(2, s, at).map(|(word, next)| (word as u16 as i16, next))
}

/// The number of one of n arrays or operators.
pub fn index(n: usize, s: &[u8], at: usize) -> Outcome<usize> {
    let (number, next) = field(1, s, at)?;
    Question::Declared.ask(number < n, at)?;
    Ok((number, next))
}

/// A loop's step.
pub fn step(s: &[u8], at: usize) -> Outcome<i16> {
    let (step, next) = i16(s, at)?;
    Question::Step.ask(step != 0, at)?;
    Ok((step, next))
}
