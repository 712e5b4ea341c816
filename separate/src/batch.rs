//! Many pairs in one input, and what they add up to (docs/FORMAT.md, "Many
//! pairs"): each pair is two 16-bit lengths, left and right, and the bytes.

use std::io::{self, Read, Write};

use crate::compare::ALL;
use crate::limits::PROGRAM_BYTES;
use crate::line::{line_of, line_of_totals};
use crate::reply::{Question, Reply, Side};
use crate::work::Work;

/// At most so many pairs are taken.
pub const PAIRS: usize = 65_535;

/// The bytes of both lengths.
const LENGTHS: usize = 4;

/// The left and the right program, or the refusal that ends the batch.
pub type Pair<'a> = Result<(&'a [u8], &'a [u8]), Reply>;

/// How many pairs had which kind of reply, and how many elements are equal.
#[derive(Clone, Copy, Debug, Default, PartialEq, Eq)]
pub struct Totals {
    pub pairs: u64,
    pub equal: u64,
    pub differs: u64,
    pub refused: u64,
    pub elements: u64,
}

impl Totals {
    /// A total that can't grow stays at the largest number.
    pub fn count(&mut self, reply: Reply) {
        let (kind, elements) = match reply {
            Reply::Equal { count } => (&mut self.equal, count as u64),
            Reply::Differs { .. } => (&mut self.differs, 0),
            Reply::Refused { .. } => (&mut self.refused, 0),
        };
        *kind = kind.saturating_add(1);
        self.pairs = self.pairs.saturating_add(1);
        self.elements = self.elements.saturating_add(elements);
    }
}

fn cut() -> Reply {
    Question::Framing.at(0).reply(Side::Input)
}

/// The two lengths at the start of what is left of a batch; none at its end.
pub fn lengths(rest: &[u8]) -> Option<Result<[usize; 2], Reply>> {
    (!rest.is_empty()).then(|| stated(rest))
}

/// A cut is asked of both lengths before either is looked at.
fn stated(rest: &[u8]) -> Result<[usize; 2], Reply> {
    let &[a, b, c, d] = rest.first_chunk::<LENGTHS>().ok_or(cut())?;
    let lengths = [[a, b], [c, d]].map(|length| usize::from(u16::from_le_bytes(length)));
    match [Side::Left, Side::Right].into_iter().zip(lengths).find(|pair| pair.1 > PROGRAM_BYTES) {
        Some((side, _)) => Err(Question::ProgramLength.at(0).reply(side)),
        None => Ok(lengths),
    }
}

/// The two programs at the start of the bytes behind their lengths, which may
/// be any numbers.
pub fn split([left, right]: [usize; 2], bytes: &[u8]) -> Pair<'_> {
    let (left, rest) = bytes.split_at_checked(left).ok_or(cut())?;
    Ok((left, rest.get(..right).ok_or(cut())?))
}

/// The first pair of what is left of a batch.
fn first(rest: &[u8]) -> Option<Pair<'_>> {
    lengths(rest).map(|lengths| split(lengths?, &rest[LENGTHS..]))
}

/// The pairs of a batch that is in memory, one by one. A refusal is the last.
pub fn pairs(batch: &[u8]) -> impl Iterator<Item = Pair<'_>> {
    let mut rest = batch;
    let next = move || {
        let pair = first(rest)?;
        rest = match pair {
            Ok((left, right)) => &rest[LENGTHS + left.len() + right.len()..],
            Err(_) => &[],
        };
        Some(pair)
    };
    std::iter::from_fn(next).take(PAIRS)
}

/// Reads one pair, or as much of it as is there. What is stated too long is
/// not waited for.
fn read_pair(input: &mut impl Read, pair: &mut Vec<u8>) -> io::Result<()> {
    pair.clear();
    input.take(LENGTHS as u64).read_to_end(pair)?;
    if let Some(Ok([left, right])) = lengths(pair) {
        input.take((left + right) as u64).read_to_end(pair)?;
    }
    Ok(())
}

/// Answers pair after pair, with every bit of the mask: the line of each, and at the end that of the
/// totals. One pair at a time is in memory. Where a read or a write fails
/// there is no last line; the lines before a read that fails are flushed.
pub fn answer(mut input: impl Read, mut out: impl Write) -> io::Result<Totals> {
    let (mut work, mut bytes) = (Work::default(), Vec::new());
    let mut totals = Totals::default();
    while totals.pairs < PAIRS as u64 {
        if let Err(error) = read_pair(&mut input, &mut bytes) {
            out.flush()?;
            return Err(error);
        }
        let Some(pair) = first(&bytes) else { break };
        let compare = |(left, right)| work.programs_masked(left, right, ALL);
        let reply = pair.map_or_else(|no| no, compare);
        totals.count(reply);
        writeln!(out, "{}", line_of(reply))?;
        if pair.is_err() {
            break;
        }
    }
    writeln!(out, "{}", line_of_totals(totals))?;
    Ok(totals)
}
