//! Where an element that differs was written: question 27.
//!
//! The comparison runs first and as always. Only a difference is explained: the
//! chosen program runs once more, watched for writes of the element.

use crate::compare::{Compared, Memory};
use crate::input::{compare_framed, split};
use crate::limits::{ITEM_NESTING, LIST_WORDS};
use crate::read::{read_program, Item, Program};
use crate::reply::{Question, Refusal, Reply, Side};
use crate::run::{run_watched, Indices, Watch};

/// The program that an explanation is asked of.
#[derive(Clone, Copy, Debug, PartialEq, Eq)]
pub enum Chosen {
    Left,
    Right,
}

impl Chosen {
    /// 0 is left, any other number right.
    pub fn from_number(number: usize) -> Chosen {
        if number == 0 {
            Chosen::Left
        } else {
            Chosen::Right
        }
    }

    pub fn of<T>(self, left: T, right: T) -> T {
        match self {
            Chosen::Left => left,
            Chosen::Right => right,
        }
    }
}

/// The update that wrote a cell last: its statement, from the code byte up to
/// the end of its expression, and the values of the loops around it, outermost
/// first. Values beyond the count are 0.
#[derive(Clone, Copy, Debug, Default, PartialEq, Eq)]
pub struct Writer {
    pub from: usize,
    pub to: usize,
    pub count: usize,
    pub indices: Indices,
}

impl Writer {
    pub fn indices(&self) -> &[i16] {
        &self.indices[..self.count.min(ITEM_NESTING)]
    }
}

#[derive(Clone, Copy, Debug, PartialEq, Eq)]
pub enum Explanation {
    Written {
        array: usize,
        cell: usize,
        writer: Writer,
    },
    /// The chosen side never wrote the element.
    Starting {
        array: usize,
        cell: usize,
    },
    Refused {
        side: Side,
        number: u8,
        place: usize,
    },
}

impl Explanation {
    /// Both questions that are asked here are of the pair.
    fn refused(question: Question) -> Explanation {
        Explanation::Refused { side: Side::Both, number: question as u8, place: 0 }
    }
}

/// What a program leaves in one cell.
#[derive(Clone, Copy, Debug, PartialEq, Eq)]
pub enum Origin {
    Written(Writer),
    /// No update writes the cell, or there is none with these numbers.
    Starting,
    Refused {
        side: Side,
        number: u8,
        place: usize,
    },
}

/// Explains the first element that differs under the mask. Memory is lent as to
/// a compare of programs.
#[allow(clippy::too_many_arguments)]
pub fn explain(
    left: &[u8],
    right: &[u8],
    mask: u16,
    chosen: Chosen,
    left_list: &mut [u32],
    right_list: &mut [u32],
    cells: &mut [u32],
    terms: &mut [u32],
) -> Explanation {
    let mut memory = Memory { left_list, right_list, cells, terms };
    if !memory.suffices() {
        return Explanation::refused(Question::Memory);
    }
    let reply = memory.programs(left, right, Compared::Masked(mask));
    explain_reply(reply, chosen.of(left, right), memory.left_list)
}

/// Explains the first out element that differs in a framed input.
pub fn explain_input(
    input: &[u8],
    chosen: Chosen,
    left_list: &mut [u32],
    right_list: &mut [u32],
    cells: &mut [u32],
    terms: &mut [u32],
) -> Explanation {
    explain_framed(input, Compared::Out, chosen, Memory { left_list, right_list, cells, terms })
}

/// Explains the first element that differs in a framed input under the mask.
pub fn explain_input_masked(
    input: &[u8],
    mask: u16,
    chosen: Chosen,
    left_list: &mut [u32],
    right_list: &mut [u32],
    cells: &mut [u32],
    terms: &mut [u32],
) -> Explanation {
    let memory = Memory { left_list, right_list, cells, terms };
    explain_framed(input, Compared::Masked(mask), chosen, memory)
}

fn explain_framed(
    input: &[u8],
    compared: Compared,
    chosen: Chosen,
    mut memory: Memory,
) -> Explanation {
    let reply = compare_framed(input, compared, &mut memory);
    // Where there are no two programs the reply is a refusal, and needs none.
    let program = split(input).map_or(&[][..], |(left, right)| chosen.of(left, right));
    explain_reply(reply, program, memory.left_list)
}

/// The chosen program runs once more where the reply is a difference. The list
/// is work memory: either does, both are free and zeros again.
fn explain_reply(reply: Reply, program: &[u8], list: &mut [u32]) -> Explanation {
    match reply {
        Reply::Refused { side, number, place } => Explanation::Refused { side, number, place },
        Reply::Equal { .. } => Explanation::refused(Question::Difference),
        Reply::Differs { array, cell } => {
            let origin = run_again(program, array, cell, list);
            match origin.expect("the comparison ran it without a \"no\"") {
                Some(writer) => Explanation::Written { array, cell, writer },
                None => Explanation::Starting { array, cell },
            }
        }
    }
}

/// The origin of a cell, whatever its numbers are, in one program, which is
/// called left. The list is work memory.
pub fn origin_of(program: &[u8], array: usize, cell: usize, list: &mut [u32]) -> Origin {
    let asked = Question::Memory.ask(list.len() >= LIST_WORDS, 0);
    match asked.and_then(|()| run_again(program, array, cell, list)) {
        Ok(Some(writer)) => Origin::Written(writer),
        Ok(None) => Origin::Starting,
        Err(refusal) => {
            let side = refusal.side(Side::Left);
            Origin::Refused { side, number: refusal.number, place: refusal.place }
        }
    }
}

/// The bytes of the chosen program from one place up to another; the empty part
/// at 0 where there are none such.
pub fn stretch<'a>(
    left: &'a [u8],
    right: &'a [u8],
    chosen: Chosen,
    from: usize,
    to: usize,
) -> &'a [u8] {
    let bytes = chosen.of(left, right);
    bytes.get(from..to).unwrap_or(&bytes[..0])
}

/// Needs a list that is long enough, and leaves it zeros.
fn run_again(
    program: &[u8],
    array: usize,
    cell: usize,
    list: &mut [u32],
) -> Result<Option<Writer>, Refusal> {
    let mut last = Last { array, cell, found: None };
    let outcome = read_program(program).and_then(|program| {
        run_watched(&program, list, &mut last)?;
        Ok(last.found.map(|(item, indices)| writer(&program, item, indices)))
    });
    list.fill(0);
    outcome
}

/// Keeps the last write of one cell: the statement's number and the indices.
struct Last {
    array: usize,
    cell: usize,
    found: Option<(usize, Indices)>,
}

impl Watch for Last {
    fn update(&mut self, item: usize, target: usize, cell: usize, indices: &Indices) {
        if target == self.array && cell == self.cell {
            self.found = Some((item, *indices));
        }
    }
}

fn writer(program: &Program, item: usize, mut indices: Indices) -> Writer {
    let Item::Statement { place, behind, depth, .. } = program.items[item] else {
        unreachable!("only statements write")
    };
    let count = usize::from(depth);
    indices[count..].fill(0);
    Writer { from: place, to: behind as usize, count, indices }
}
