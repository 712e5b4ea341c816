//! The framing of standard input: questions 1 and 2.

use crate::compare::{Compared, Memory};
use crate::limits::PROGRAM_BYTES;
use crate::reply::{Question, Reply, Side};

/// So much of standard input decides the reply: both programs at their
/// longest and one byte more, by which the right one is seen to be too long.
pub const INPUT_BYTES: usize = 2 + PROGRAM_BYTES + PROGRAM_BYTES + 1;

/// Compares the two programs of a framed input in their out arrays.
pub fn compare_input(
    input: &[u8],
    left_list: &mut [u32],
    right_list: &mut [u32],
    cells: &mut [u32],
    terms: &mut [u32],
) -> Reply {
    compare_framed(input, Compared::Out, &mut Memory { left_list, right_list, cells, terms })
}

/// Compares them in the out and inout arrays whose bit is set.
pub fn compare_input_masked(
    input: &[u8],
    mask: u16,
    left_list: &mut [u32],
    right_list: &mut [u32],
    cells: &mut [u32],
    terms: &mut [u32],
) -> Reply {
    let mut memory = Memory { left_list, right_list, cells, terms };
    compare_framed(input, Compared::Masked(mask), &mut memory)
}

pub(crate) fn compare_framed(input: &[u8], compared: Compared, memory: &mut Memory) -> Reply {
    if !memory.suffices() {
        return Question::Memory.at(0).reply(Side::Both);
    }
    match split(input) {
        Ok((left, right)) => memory.programs(left, right, compared),
        Err(reply) => {
            memory.clear();
            reply
        }
    }
}

/// The left and the right program. A left length above the limit is refused as
/// stated, whether or not so many bytes follow.
pub fn split(input: &[u8]) -> Result<(&[u8], &[u8]), Reply> {
    let unframed = Question::Framing.at(0).reply(Side::Input);
    let (length, rest) = input.split_first_chunk().ok_or(unframed)?;
    let length = usize::from(u16::from_le_bytes(*length));
    if length > PROGRAM_BYTES {
        return Err(Question::ProgramLength.at(0).reply(Side::Left));
    }
    rest.split_at_checked(length).ok_or(unframed)
}
