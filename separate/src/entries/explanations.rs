//! The entries that say where an element was written.

use super::{memories, side_of, Line, Unfit};
use crate::explain::{
    explain, explain_input, explain_input_masked, origin_of, stretch, Chosen, Explanation, Origin,
    Writer,
};
use crate::line::line_of_explanation;
use crate::reply::Side;

/// All that an answer may hold. What its kind does not use is 0.
#[derive(Default)]
struct Numbers {
    kind: usize,
    /// Side, question and place.
    refusal: [usize; 3],
    element: [usize; 2],
    writer: Writer,
}

const STARTING: usize = 1;
const REFUSED: usize = 2;

fn refused(side: Side, number: u8, place: usize) -> Numbers {
    let refusal = [side as usize, usize::from(number), place];
    Numbers { kind: REFUSED, refusal, ..Numbers::default() }
}

impl From<Explanation> for Numbers {
    fn from(explanation: Explanation) -> Numbers {
        match explanation {
            Explanation::Written { array, cell, writer } => {
                Numbers { element: [array, cell], writer, ..Numbers::default() }
            }
            Explanation::Starting { array, cell } => {
                Numbers { kind: STARTING, element: [array, cell], ..Numbers::default() }
            }
            Explanation::Refused { side, number, place } => refused(side, number, place),
        }
    }
}

impl From<Origin> for Numbers {
    fn from(origin: Origin) -> Numbers {
        match origin {
            Origin::Written(writer) => Numbers { writer, ..Numbers::default() },
            Origin::Starting => Numbers { kind: STARTING, ..Numbers::default() },
            Origin::Refused { side, number, place } => refused(side, number, place),
        }
    }
}

impl Line {
    pub(super) fn explain(&mut self, arguments: [usize; 6], s: &[u8]) -> Result<(), Unfit> {
        let [left, lengths @ .., k] = arguments;
        let (mut lent, s) = memories(lengths, k, s)?;
        let (&[low, high, side], s) = s.split_first_chunk().ok_or(Unfit)?;
        let (left, right) = s.split_at_checked(left).ok_or(Unfit)?;
        let mask = u16::from_le_bytes([low, high]);
        let chosen = Chosen::from_number(usize::from(side));
        let [left_list, right_list, cells, terms] = &mut lent;
        self.explanation(explain(left, right, mask, chosen, left_list, right_list, cells, terms));
        lent.into_iter().for_each(|memory| self.sum(memory));
        Ok(())
    }

    pub(super) fn explain_input(&mut self, arguments: [usize; 6], s: &[u8]) -> Result<(), Unfit> {
        let [_, lengths @ .., k] = arguments;
        let (mut lent, s) = memories(lengths, k, s)?;
        let (&side, input) = s.split_first().ok_or(Unfit)?;
        let chosen = Chosen::from_number(usize::from(side));
        let [left_list, right_list, cells, terms] = &mut lent;
        self.explanation(explain_input(input, chosen, left_list, right_list, cells, terms));
        lent.into_iter().for_each(|memory| self.sum(memory));
        Ok(())
    }

    pub(super) fn explain_input_masked(
        &mut self,
        arguments: [usize; 6],
        s: &[u8],
    ) -> Result<(), Unfit> {
        let [_, lengths @ .., k] = arguments;
        let (mut lent, s) = memories(lengths, k, s)?;
        let (&[low, high, side], input) = s.split_first_chunk().ok_or(Unfit)?;
        let mask = u16::from_le_bytes([low, high]);
        let chosen = Chosen::from_number(usize::from(side));
        let [left_list, right_list, cells, terms] = &mut lent;
        let explanation =
            explain_input_masked(input, mask, chosen, left_list, right_list, cells, terms);
        self.explanation(explanation);
        lent.into_iter().for_each(|memory| self.sum(memory));
        Ok(())
    }

    fn explanation(&mut self, explanation: Explanation) {
        let numbers = Numbers::from(explanation);
        self.say(numbers.kind);
        self.say_all(numbers.refusal);
        self.say_all(numbers.element);
        self.writer(numbers.writer);
    }

    /// The length of the part, and a sum of its bytes.
    pub(super) fn stretch(&mut self, arguments: [usize; 6], s: &[u8]) -> Result<(), Unfit> {
        let [left, side, from, to, ..] = arguments;
        let (left, right) = s.split_at_checked(left).ok_or(Unfit)?;
        let part = stretch(left, right, Chosen::from_number(side), from, to);
        self.say(part.len());
        self.sum(part.iter().map(|&byte| u32::from(byte)));
        Ok(())
    }

    pub(super) fn origin(&mut self, arguments: [usize; 6], s: &[u8]) -> Result<(), Unfit> {
        let [array, cell, length, _, _, k] = arguments;
        let ([mut list], program) = memories([length], k, s)?;
        let numbers = Numbers::from(origin_of(program, array, cell, &mut list));
        self.say(numbers.kind);
        self.say_all(numbers.refusal);
        self.writer(numbers.writer);
        self.sum(list);
        Ok(())
    }

    fn writer(&mut self, writer: Writer) {
        self.say_all([writer.from, writer.to, writer.count]);
        self.say_all(writer.indices);
    }

    /// Of any numbers, not only such as an explanation has.
    pub(super) fn explanation_line(&mut self, arguments: [usize; 6], s: &[u8]) {
        let [kind, b, c, d, to, count] = arguments;
        let indices = std::array::from_fn(|k| index_at(s, 2 * k));
        self.text(line_of_explanation(match kind % 3 {
            0 => {
                let writer = Writer { from: d, to, count, indices };
                Explanation::Written { array: b, cell: c, writer }
            }
            STARTING => Explanation::Starting { array: b, cell: c },
            _ => Explanation::Refused { side: side_of(b), number: c as u8, place: d },
        }));
    }
}

/// 0 where it is not there as a whole.
fn index_at(bytes: &[u8], at: usize) -> i16 {
    let index = bytes.get(at..).and_then(|rest| rest.first_chunk());
    index.map_or(0, |&index| i16::from_le_bytes(index))
}
