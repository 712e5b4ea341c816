//! Update lists as words, and question 26.
//!
//! A header of 98 words holds the tables; then come records of three words,
//! an update followed by its expression in prefix order; then zeros. No code
//! is 0, so the first record that begins with 0 ends the list.

use crate::limits::{
    ARRAYS, CELLS, DIMENSIONS, LIST_WORDS, NODES, OPERATORS, OPERATOR_NESTING, UPDATES,
};
use crate::reply::{Question, Refusal};
use crate::tables::{self, Array, Tables};

/// Role, dimension count, extents.
const ARRAY_WORDS: usize = 2 + DIMENSIONS;
pub const HEADER: usize = 1 + OPERATORS + 1 + ARRAYS * ARRAY_WORDS;
pub const RECORD: usize = 3;
pub type Record = [u32; RECORD];

/// First words of records.
pub mod code {
    pub const END: u32 = 0;
    pub const UPDATE: u32 = 1;
    pub const READ: u32 = 16;
    pub const OPERATOR: u32 = 17;
    pub const LITERAL: u32 = 18;
    pub const CONSTANT: u32 = 19;
}

/// An accepted list: its tables, and its records without the zeros after it.
pub struct List<'a> {
    pub tables: Tables,
    pub records: &'a [Record],
}

impl<'a> List<'a> {
    /// The updates one by one, each with the records of its expression.
    pub fn updates(&self) -> Updates<'a> {
        Updates { rest: self.records }
    }
}

pub struct Updates<'a> {
    rest: &'a [Record],
}

impl<'a> Iterator for Updates<'a> {
    type Item = (&'a Record, &'a [Record]);

    fn next(&mut self) -> Option<Self::Item> {
        let (update, behind) = self.rest.split_first()?;
        let next = behind.iter().position(|record| record[0] == code::UPDATE);
        let (expression, rest) = behind.split_at(next.unwrap_or(behind.len()));
        self.rest = rest;
        Some((update, expression))
    }
}

pub fn write_header(tables: &Tables, header: &mut [u32; HEADER]) {
    header.fill(0);
    let (operators, arrays) = header.split_at_mut(1 + OPERATORS);
    operators[0] = tables.operators().len() as u32;
    for (word, &operator) in operators[1..].iter_mut().zip(tables.operators()) {
        *word = u32::from(operator);
    }
    arrays[0] = tables.arrays().len() as u32;
    for (words, array) in arrays[1..].chunks_exact_mut(ARRAY_WORDS).zip(tables.arrays()) {
        words[0] = u32::from(array.role.number());
        words[1] = array.dimensions as u32;
        for (word, &extent) in words[2..].iter_mut().zip(array.extents()) {
            *word = u32::from(extent);
        }
    }
}

/// Is this an accepted list? An entry over one list calls it left.
pub fn check_list(list: &[u32]) -> Result<(), Refusal> {
    Question::Memory.ask(list.len() >= LIST_WORDS, 0)?;
    Question::List.ask(decode(list).is_some(), 0)
}

/// The list that these words are the layout of, if there is one.
pub fn decode(words: &[u32]) -> Option<List<'_>> {
    let (header, rest) = words.split_first_chunk::<HEADER>()?;
    let tables = read_header(header)?;
    let (records, cut) = rest.as_chunks::<RECORD>();
    let used = Walk::new(&tables, records).updates()?;
    let (records, after) = records.split_at(used);
    (all_zero(after.as_flattened()) && all_zero(cut)).then_some(List { tables, records })
}

/// Looks at every word even if an early one decides: that is faster in bulk.
fn all_zero(words: &[u32]) -> bool {
    words.iter().fold(0, |bits, word| bits | word) == 0
}

fn read_header(header: &[u32; HEADER]) -> Option<Tables> {
    let mut tables = Tables::default();
    let (operators, arrays) = header.split_at(1 + OPERATORS);
    read_operators(operators[0], &operators[1..], &mut tables)?;
    read_arrays(arrays[0], &arrays[1..], &mut tables)?;
    Some(tables)
}

/// A list has no version, so marks are allowed in each.
fn read_operators(count: u32, operators: &[u32], tables: &mut Tables) -> Option<()> {
    if !tables::operator_count_allowed(count) {
        return None;
    }
    let (used, unused) = operators.split_at(count as usize);
    for &operator in used {
        if !tables::operator_allowed(operator) {
            return None;
        }
        tables.add_operator(operator as u8);
    }
    all_zero(unused).then_some(())
}

fn read_arrays(count: u32, arrays: &[u32], tables: &mut Tables) -> Option<()> {
    if !tables::array_count_allowed(count) {
        return None;
    }
    let (used, unused) = arrays.split_at(count as usize * ARRAY_WORDS);
    for words in used.chunks_exact(ARRAY_WORDS) {
        let array = read_array(words, tables)?;
        if !tables.add_array(array) {
            return None;
        }
    }
    all_zero(unused).then_some(())
}

fn read_array(words: &[u32], tables: &Tables) -> Option<Array> {
    let role = tables.next_role(words[0])?;
    if !tables::dimensions_allowed(words[1]) {
        return None;
    }
    let dimensions = words[1] as usize;
    let (used, unused) = words[2..].split_at(dimensions);
    let mut array = Array { role, dimensions, extents: [0; DIMENSIONS] };
    for (extent, &word) in array.extents.iter_mut().zip(used) {
        if !tables::extent_allowed(word) {
            return None;
        }
        *extent = word as u16;
    }
    all_zero(unused).then_some(array)
}

/// A walk over the records that stops at the first that breaks a condition.
struct Walk<'a> {
    tables: &'a Tables,
    records: &'a [Record],
    at: usize,
    updates: usize,
    nodes: usize,
    written: [bool; CELLS],
}

impl<'a> Walk<'a> {
    fn new(tables: &'a Tables, records: &'a [Record]) -> Walk<'a> {
        Walk { tables, records, at: 0, updates: 0, nodes: 0, written: [false; CELLS] }
    }

    /// How many records the list has.
    fn updates(mut self) -> Option<usize> {
        while let Some(&[first, array, cell]) = self.records.get(self.at) {
            if first == code::END {
                return Some(self.at);
            }
            self.update(first, array, cell)?;
        }
        Some(self.at)
    }

    fn update(&mut self, first: u32, array: u32, cell: u32) -> Option<()> {
        let (role, cell) = self.cell(array, cell)?;
        if first != code::UPDATE || role == tables::Role::In || self.updates == UPDATES {
            return None;
        }
        self.updates += 1;
        self.at += 1;
        self.expression()?;
        // Only now: the update's own reads are of earlier writes.
        self.written[cell] = true;
        Some(())
    }

    /// The array's role and the cell's number among all cells.
    fn cell(&self, array: u32, cell: u32) -> Option<(tables::Role, usize)> {
        let declared = self.tables.arrays().get(array as usize)?;
        let inside = (cell as usize) < declared.cells();
        inside.then(|| (declared.role, self.tables.first_cell(array as usize) + cell as usize))
    }

    fn expression(&mut self) -> Option<()> {
        // How many arguments each open operator still waits for.
        let mut waits = [0u8; OPERATOR_NESTING];
        let mut open = 0;
        loop {
            let record = *self.records.get(self.at)?;
            if self.nodes == NODES {
                return None;
            }
            self.nodes += 1;
            self.at += 1;
            if record[0] == code::OPERATOR {
                *waits.get_mut(open)? = self.operator(record)?;
                open += 1;
                continue;
            }
            self.leaf(record)?;
            // A leaf ends each operator whose last argument it ends.
            while open > 0 {
                waits[open - 1] -= 1;
                if waits[open - 1] > 0 {
                    break;
                }
                open -= 1;
            }
            if open == 0 {
                return Some(());
            }
        }
    }

    fn operator(&self, [_, number, unused]: Record) -> Option<u8> {
        let operator = *self.tables.operators().get(number as usize)?;
        (unused == 0).then_some(tables::arity(operator))
    }

    fn leaf(&self, [first, second, third]: Record) -> Option<()> {
        match first {
            code::READ => {
                let (role, cell) = self.cell(second, third)?;
                (role.starts_alike() || self.written[cell]).then_some(())
            }
            code::LITERAL | code::CONSTANT => (third == 0).then_some(()),
            _ => None,
        }
    }
}
