//! Safe calls of the proved loop pair checker (`crates/cabi`).
//!
//! The seven functions over lent slices answer every input; what they reply and leave in the slices is proved. [`Work`] owns
//! the memory that a compare needs.
//!
//! ```
//! // Copies two elements, forwards and backwards.
//! let forwards = b"ALP\x01\0\0\x02\0\x01\x02\0\x01\x01\x02\0\x02\0\0\x01\0\x01\0\x01\x01\0\0\x01\x10\0\0\0\x01\0\0";
//! let mut backwards = *forwards;
//! backwards[16..22].copy_from_slice(&[1, 0, 0, 0, 0xFF, 0xFF]);
//! let reply = tengmua::Work::default().plain(forwards, &backwards);
//! assert_eq!(reply.to_string(), "equal 2");
//! ```
//!
//! The plain comparison is one of out arrays. A mask chooses out and inout arrays; [`ALL`] chooses all of them:
//!
//! ```
//! use tengmua::{Work, ALL};
//! # let forwards = b"ALP\x01\0\0\x02\0\x01\x02\0\x01\x01\x02\0\x02\0\0\x01\0\x01\0\x01\x01\0\0\x01\x10\0\0\0\x01\0\0";
//! // The array that is copied to becomes inout on both sides, and one side copies an element less.
//! let mut whole = *forwards;
//! whole[11] = 2;
//! let mut shorter = whole;
//! shorter[18] = 0;
//! let mut work = Work::default();
//! // There is no out array: nothing was compared.
//! assert_eq!(work.plain(&whole, &shorter).to_string(), "equal 0");
//! assert_eq!(work.programs(&whole, &shorter, ALL).to_string(), "differs 1 1");
//! ```
//!
//! Where two programs differ, [`explain`] gives the part of one's own bytes that wrote the element last. With the mask of the array
//! alone it names the same element, whichever comparison found it:
//!
//! ```
//! use tengmua::{Chosen, Explanation, Reply, Work};
//! # let forwards = b"ALP\x01\0\0\x02\0\x01\x02\0\x01\x01\x02\0\x02\0\0\x01\0\x01\0\x01\x01\0\0\x01\x10\0\0\0\x01\0\0";
//! // One round less: the second element is not copied.
//! let mut shorter = *forwards;
//! shorter[18] = 0;
//! let mut work = Work::default();
//! let Reply::Differs(array, 1) = work.plain(forwards, &shorter) else { panic!() };
//! let mask = 1 << array;
//! let Explanation::Written(written) = work.explain(forwards, &shorter, mask, Chosen::Left) else { panic!() };
//! assert_eq!((written.bytes, written.indices()), (&forwards[22..32], &[1][..]));
//! let right = work.explain(forwards, &shorter, mask, Chosen::Right);
//! assert_eq!(right, Explanation::Starting { array, cell: 1 });
//! // Each side has out contents of its own, so what neither writes differs too.
//! assert_eq!(work.plain(&shorter, &shorter).to_string(), "differs 1 1");
//! ```
//!
//! [`unroll`] gives the update list of a program, which may then be changed. [`write_file`] makes a program file of a list, without
//! loops and guards, a statement for each update:
//!
//! ```
//! use tengmua::{unroll, write_file, FILE_BYTES, LIST_WORDS};
//! # let forwards = b"ALP\x01\0\0\x02\0\x01\x02\0\x01\x01\x02\0\x02\0\0\x01\0\x01\0\x01\x01\0\0\x01\x10\0\0\0\x01\0\0";
//! let (mut list, mut out) = (vec![0; LIST_WORDS], vec![0; FILE_BYTES]);
//! assert_eq!(unroll(forwards, &mut list), Ok(2));
//! let length = write_file(&list, &mut out)?;
//! // The tables are those of the program; then come two statements of 8 bytes, and the end.
//! assert_eq!((length, &out[..15]), (15 + 2 * 8 + 1, &forwards[..15]));
//! assert_eq!(out[15..23], [1, 1, 0, 0, 16, 0, 0, 0]);
//! # Ok::<(), tengmua::Refusal>(())
//! ```

mod raw;

use std::{error, fmt};

/// Words of a list, of `cells` and of `terms`, at least (question 25).
pub const LIST_WORDS: usize = 32_768;
pub const CELL_WORDS: usize = 4_096;
pub const TERM_WORDS: usize = 32_768;

/// Bytes of a program file, at most: an output of so many is long enough for each file that can be written.
pub const FILE_BYTES: usize = 16_384;

/// The mask that compares every out and inout array.
pub const ALL: u16 = u16::MAX;

/// Loops that can enclose a statement, at most.
pub const LOOPS: usize = 8;

#[derive(Clone, Copy, Debug, PartialEq, Eq)]
pub enum Side {
    Left,
    Right,
    Both,
    Input,
}

/// A "no" to a question: its number and the place it was asked of. As an error it says the question's words too.
#[derive(Clone, Copy, Debug, PartialEq, Eq)]
pub struct Refusal {
    pub side: Side,
    pub question: u8,
    pub place: usize,
}

/// The page that has a row for each question, and what to do about a "no".
const QUESTIONS: &str = include_str!("../../../docs/QUESTIONS.md");

impl Refusal {
    /// What was asked, as `docs/QUESTIONS.md` says it; of a number that the page has no row for, nothing.
    pub fn words(&self) -> Option<&'static str> {
        let row = format!("| {} | ", self.question);
        QUESTIONS.lines().find_map(|line| line.strip_prefix(&row)?.split(" | ").next())
    }

    /// The line of a reply, without its end.
    fn line(&self, out: &mut fmt::Formatter) -> fmt::Result {
        write!(out, "refused {} {} {}", self.side, self.question, self.place)
    }
}

impl error::Error for Refusal {}

#[derive(Clone, Copy, Debug, PartialEq, Eq)]
pub enum Reply {
    /// How many elements were compared: both sides leave the same value in each, for every starting content and every meaning
    /// that respects the marks. In and inout arrays start alike on both sides; each side has out contents of its own.
    Equal(usize),
    /// Array and cell of the first difference: also an out element that either side leaves unwritten.
    Differs(usize, usize),
    Refused(Refusal),
}

/// The program that a difference is explained by.
#[derive(Clone, Copy, Debug, PartialEq, Eq)]
pub enum Chosen {
    Left,
    Right,
}

/// The update that wrote an element last.
#[derive(Clone, Copy, Debug, PartialEq, Eq)]
pub struct Written<'a> {
    pub array: usize,
    pub cell: usize,
    /// Where the statement begins in its program.
    pub from: usize,
    /// The statement's own bytes in its program, from the code byte to the end of the expression.
    pub bytes: &'a [u8],
    /// How many loops enclose it, and their index values, outermost first; 0 beyond the count.
    pub count: usize,
    pub indices: [i16; LOOPS],
}

impl Written<'_> {
    /// The values alone.
    pub fn indices(&self) -> &[i16] {
        &self.indices[..self.count]
    }
}

/// Why an element differs, as far as one of the programs has to do with it.
#[derive(Clone, Copy, Debug, PartialEq, Eq)]
pub enum Explanation<'a> {
    Written(Written<'a>),
    /// That program never wrote the element. Both programs can have it of an out element.
    Starting {
        array: usize,
        cell: usize,
    },
    /// As of a reply; 27 where there is no difference.
    Refused(Refusal),
}

impl fmt::Display for Side {
    fn fmt(&self, out: &mut fmt::Formatter) -> fmt::Result {
        out.write_str(match self {
            Side::Left => "left",
            Side::Right => "right",
            Side::Both => "both",
            Side::Input => "input",
        })
    }
}

/// For a person to read; a reply has its line.
impl fmt::Display for Refusal {
    fn fmt(&self, out: &mut fmt::Formatter) -> fmt::Result {
        let Refusal { side, question, place } = self;
        write!(out, "refused {side} at place {place}, question {question}: ")?;
        out.write_str(self.words().unwrap_or("see docs/QUESTIONS.md"))
    }
}

/// The line that the program prints, without its end.
impl fmt::Display for Reply {
    fn fmt(&self, out: &mut fmt::Formatter) -> fmt::Result {
        match self {
            Reply::Equal(count) => write!(out, "equal {count}"),
            Reply::Differs(array, cell) => write!(out, "differs {array} {cell}"),
            Reply::Refused(refusal) => refusal.line(out),
        }
    }
}

/// The line of an explanation, without its end.
impl fmt::Display for Explanation<'_> {
    fn fmt(&self, out: &mut fmt::Formatter) -> fmt::Result {
        match self {
            Explanation::Written(written) => {
                let Written { array, cell, from, bytes, .. } = written;
                write!(out, "written {array} {cell} {from} {}", from + bytes.len())?;
                written.indices().iter().try_for_each(|index| write!(out, " {index}"))
            }
            Explanation::Starting { array, cell } => write!(out, "starting {array} {cell}"),
            Explanation::Refused(refusal) => refusal.line(out),
        }
    }
}

/// Compares two programs in the out and inout arrays whose bit of `mask` is 1. The four slices are work memory: they may hold
/// anything, and hold zeros afterwards, or what they held if one is too short (25).
pub fn compare_programs(
    left: &[u8],
    right: &[u8],
    mask: u16,
    left_list: &mut [u32],
    right_list: &mut [u32],
    cells: &mut [u32],
    terms: &mut [u32],
) -> Reply {
    raw::compare_programs(left, right, mask, [left_list, right_list, cells, terms]).reply()
}

/// The plain comparison: two programs in their out arrays. Inout arrays are left out: they may be scratch memory, and what is left
/// there need not be alike. So `Equal(0)` says that nothing was compared; [`compare_programs`] with [`ALL`] compares inout arrays too.
/// A difference is explained by [`explain`] with the mask `1 << array`, which names the same element. Work memory as above.
pub fn compare_plain(
    left: &[u8],
    right: &[u8],
    left_list: &mut [u32],
    right_list: &mut [u32],
    cells: &mut [u32],
    terms: &mut [u32],
) -> Reply {
    raw::compare_plain(left, right, [left_list, right_list, cells, terms]).reply()
}

/// Compares two lists, which may hold anything and are only read. `cells` and `terms` are work memory as above.
pub fn compare_lists(
    left: &[u32],
    right: &[u32],
    mask: u16,
    cells: &mut [u32],
    terms: &mut [u32],
) -> Reply {
    raw::compare_lists(left, right, mask, cells, terms).reply()
}

/// Writes the update list of a program, with zeros after it, and gives its number of updates. On a refusal the list is all
/// zeros, or untouched if it is too short (25).
pub fn unroll(program: &[u8], list: &mut [u32]) -> Result<usize, Refusal> {
    raw::unroll(program, list).counted()
}

/// Is this the layout of an allowed list (26), in a slice that is long enough (25)?
pub fn check_list(list: &[u32]) -> Result<(), Refusal> {
    raw::check_list(list).counted().map(|_| ())
}

/// Writes a list as a program file without loops and guards to the front of `out`, and gives the file's length. It has a statement for
/// each update and the lowest version that can hold it; reading and unrolling it returns the list. Bytes behind the file stay as they
/// were. So do all of them on a refusal: 25 or 26 of the list, 28 (a literal does not fit in 16 signed bits) with the number of the
/// first such update as its place, 29 (the file is longer than [`FILE_BYTES`] or than `out`).
pub fn write_file(list: &[u32], out: &mut [u8]) -> Result<usize, Refusal> {
    raw::write_file(list, out).counted()
}

/// Explains the first element that differs under `mask` by one of the programs. Work memory as in [`compare_programs`], whose
/// refusals stay as they are.
#[allow(clippy::too_many_arguments)]
pub fn explain<'a>(
    left: &'a [u8],
    right: &'a [u8],
    mask: u16,
    chosen: Chosen,
    left_list: &mut [u32],
    right_list: &mut [u32],
    cells: &mut [u32],
    terms: &mut [u32],
) -> Explanation<'a> {
    let program = match chosen {
        Chosen::Left => left,
        Chosen::Right => right,
    };
    raw::explain(left, right, mask, chosen, [left_list, right_list, cells, terms])
        .explanation(program)
}

/// Memory for compares, used again from call to call.
pub struct Work {
    left_list: Vec<u32>,
    right_list: Vec<u32>,
    cells: Vec<u32>,
    terms: Vec<u32>,
}

impl Default for Work {
    fn default() -> Work {
        Work {
            left_list: vec![0; LIST_WORDS],
            right_list: vec![0; LIST_WORDS],
            cells: vec![0; CELL_WORDS],
            terms: vec![0; TERM_WORDS],
        }
    }
}

impl Work {
    /// In the out arrays: [`compare_plain`].
    pub fn plain(&mut self, left: &[u8], right: &[u8]) -> Reply {
        let Work { left_list, right_list, cells, terms } = self;
        compare_plain(left, right, left_list, right_list, cells, terms)
    }

    /// In the out and inout arrays whose bit of `mask` is 1: [`compare_programs`].
    pub fn programs(&mut self, left: &[u8], right: &[u8], mask: u16) -> Reply {
        let Work { left_list, right_list, cells, terms } = self;
        compare_programs(left, right, mask, left_list, right_list, cells, terms)
    }

    pub fn explain<'a>(
        &mut self,
        left: &'a [u8],
        right: &'a [u8],
        mask: u16,
        chosen: Chosen,
    ) -> Explanation<'a> {
        let Work { left_list, right_list, cells, terms } = self;
        explain(left, right, mask, chosen, left_list, right_list, cells, terms)
    }

    pub fn lists(&mut self, left: &[u32], right: &[u32], mask: u16) -> Reply {
        compare_lists(left, right, mask, &mut self.cells, &mut self.terms)
    }
}
