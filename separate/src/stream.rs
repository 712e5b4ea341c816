//! Streams of pairs: framed inputs, or lists as words. README.md has the
//! formats.

use std::io::{self, Write};

/// A slice of `length` words that begins with `words` and goes on with zeros.
#[derive(Clone, Debug, PartialEq, Eq)]
pub struct Stored {
    pub length: usize,
    pub words: Vec<u32>,
}

impl Stored {
    pub fn slice(&self) -> Vec<u32> {
        let mut words = self.words.clone();
        words.resize(self.length, 0);
        words
    }
}

#[derive(Clone, Debug, PartialEq, Eq)]
pub struct ListPair {
    pub mask: u16,
    pub left: Stored,
    pub right: Stored,
}

pub fn write_input(out: &mut impl Write, input: &[u8]) -> io::Result<()> {
    out.write_all(&(input.len() as u32).to_le_bytes())?;
    out.write_all(input)
}

pub fn write_lists(out: &mut impl Write, pair: &ListPair) -> io::Result<()> {
    out.write_all(&pair.mask.to_le_bytes())?;
    write_stored(out, &pair.left)?;
    write_stored(out, &pair.right)
}

fn write_stored(out: &mut impl Write, list: &Stored) -> io::Result<()> {
    out.write_all(&(list.length as u32).to_le_bytes())?;
    out.write_all(&(list.words.len() as u32).to_le_bytes())?;
    for word in &list.words {
        out.write_all(&word.to_le_bytes())?;
    }
    Ok(())
}

/// The framed inputs of a stream, one by one.
pub fn inputs(stream: &[u8]) -> impl Iterator<Item = Result<&[u8], Cut>> {
    let mut rest = Rest(stream);
    std::iter::from_fn(move || (!rest.0.is_empty()).then(|| rest.input()))
}

/// The list pairs of a stream, one by one.
pub fn lists(stream: &[u8]) -> impl Iterator<Item = Result<ListPair, Cut>> + '_ {
    let mut rest = Rest(stream);
    std::iter::from_fn(move || (!rest.0.is_empty()).then(|| rest.lists()))
}

/// The stream ends within a pair, or stores more words than a slice has.
#[derive(Clone, Copy, Debug, PartialEq, Eq)]
pub struct Cut;

struct Rest<'a>(&'a [u8]);

impl<'a> Rest<'a> {
    /// After a cut there is nothing left, so that the iterators end.
    fn take(&mut self, count: usize) -> Result<&'a [u8], Cut> {
        let split = self.0.split_at_checked(count);
        let (taken, rest) = split.unwrap_or((&[], &[]));
        self.0 = rest;
        split.map(|_| taken).ok_or(Cut)
    }

    fn word(&mut self) -> Result<u32, Cut> {
        let bytes = self.take(4)?;
        Ok(u32::from_le_bytes([bytes[0], bytes[1], bytes[2], bytes[3]]))
    }

    fn input(&mut self) -> Result<&'a [u8], Cut> {
        let length = self.word()?;
        self.take(length as usize)
    }

    fn lists(&mut self) -> Result<ListPair, Cut> {
        let mask = self.take(2)?;
        let mask = u16::from_le_bytes([mask[0], mask[1]]);
        Ok(ListPair { mask, left: self.stored()?, right: self.stored()? })
    }

    fn stored(&mut self) -> Result<Stored, Cut> {
        let length = self.word()? as usize;
        let count = self.word()? as usize;
        if count > length {
            self.0 = &[];
            return Err(Cut);
        }
        let bytes = self.take(4 * count)?;
        let words = bytes.as_chunks().0.iter().map(|&word| u32::from_le_bytes(word)).collect();
        Ok(Stored { length, words })
    }
}
