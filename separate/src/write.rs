//! An update list as a program file without loops and guards, one statement for
//! each update: questions 28 and 29.
//!
//! The list is measured before anything is written, so a refusal leaves the
//! output as it was.

use crate::limits::{LIST_WORDS, PROGRAM_BYTES};
use crate::list::{self, decode, List};
use crate::read::{code, FIRST_VERSION, MARK, SECOND_VERSION};
use crate::reply::{Question, Refusal};
use crate::tables::{Array, Tables, MARKED};

/// Writes the file of a list to the front of `out`, in the lowest version that
/// can hold it, and gives the file's length. An entry over one list calls it
/// left.
pub fn write_file(list: &[u32], out: &mut [u8]) -> Result<usize, Refusal> {
    Question::Memory.ask(list.len() >= LIST_WORDS, 0)?;
    let list = decode(list).ok_or(Question::List.at(0))?;
    let length = measure(&list)?;
    Question::FileLength.ask(length <= PROGRAM_BYTES.min(out.len()), 0)?;
    let mut file = File { rest: &mut out[..length] };
    file.tables(&list.tables);
    file.records(&list);
    file.put([code::END]);
    Ok(length)
}

/// The length of the file, however long it is.
pub(crate) fn measure(list: &List) -> Result<usize, Refusal> {
    let arrays = list.tables.arrays();
    let head = MARK.len() + 2 + 1 + list.tables.operators().len() + 1;
    let declarations: usize = arrays.iter().map(element_bytes).sum();
    let mut length = head + declarations + 1;
    let mut updates = 0;
    for &[first, second, _] in list.records {
        length += match first {
            list::code::UPDATE => {
                updates += 1;
                element_bytes(&arrays[second as usize])
            }
            list::code::READ => element_bytes(&arrays[second as usize]),
            list::code::OPERATOR => 2,
            list::code::LITERAL => {
                // The update that the literal is in is the last one so far.
                Question::LiteralWidth.ask(narrow(second).is_some(), updates - 1)?;
                3
            }
            _ => 5,
        };
    }
    Ok(length)
}

/// The literal of a word, if a form without indices can have this value.
fn narrow(word: u32) -> Option<i16> {
    i16::try_from(word as i32).ok()
}

/// Two bytes and two for each dimension: a code, an array's number and its
/// subscripts; or a role, a dimension count and the extents.
fn element_bytes(array: &Array) -> usize {
    2 + 2 * array.dimensions
}

/// What is left to be written of the file. Measuring has made it long enough.
struct File<'a> {
    rest: &'a mut [u8],
}

impl File<'_> {
    fn put<const N: usize>(&mut self, bytes: [u8; N]) {
        let (front, rest) =
            std::mem::take(&mut self.rest).split_first_chunk_mut().expect("measured");
        *front = bytes;
        self.rest = rest;
    }

    fn word(&mut self, word: u16) {
        self.put(word.to_le_bytes());
    }

    fn tables(&mut self, tables: &Tables) {
        let marked = tables.operators().contains(&MARKED);
        self.put(MARK);
        self.word(if marked { SECOND_VERSION } else { FIRST_VERSION });
        self.put([tables.operators().len() as u8]);
        tables.operators().iter().for_each(|&operator| self.put([operator]));
        self.put([tables.arrays().len() as u8]);
        for array in tables.arrays() {
            self.put([array.role.number(), array.dimensions as u8]);
            array.extents().iter().for_each(|&extent| self.word(extent));
        }
    }

    fn records(&mut self, list: &List) {
        let arrays = list.tables.arrays();
        for &[first, second, third] in list.records {
            match first {
                list::code::UPDATE => {
                    self.element(code::STATEMENT, &arrays[second as usize], second, third);
                }
                list::code::READ => {
                    self.element(code::READ, &arrays[second as usize], second, third);
                }
                list::code::OPERATOR => self.put([code::OPERATOR, second as u8]),
                list::code::LITERAL => {
                    let [low, high] = narrow(second).expect("measured").to_le_bytes();
                    self.put([code::LITERAL, low, high]);
                }
                _ => {
                    let [a, b, c, d] = second.to_le_bytes();
                    self.put([code::CONSTANT, a, b, c, d]);
                }
            }
        }
    }

    /// A cell as an array's number and subscripts, the last running fastest.
    /// Outside all loops a form is its constant alone.
    fn element(&mut self, code: u8, array: &Array, number: u32, cell: u32) {
        let number = number as u8;
        let [_, second, third] = array.extents.map(u32::from);
        match array.dimensions {
            1 => {
                let [a, b] = bytes(cell);
                self.put([code, number, a, b]);
            }
            2 => {
                let [[a, b], [c, d]] = [cell / second, cell % second].map(bytes);
                self.put([code, number, a, b, c, d]);
            }
            _ => {
                let (row, last) = (cell / third, cell % third);
                let [[a, b], [c, d], [e, f]] = [row / second, row % second, last].map(bytes);
                self.put([code, number, a, b, c, d, e, f]);
            }
        }
    }
}

/// A subscript is below its extent, hence it has 16 bits.
fn bytes(subscript: u32) -> [u8; 2] {
    (subscript as u16).to_le_bytes()
}
