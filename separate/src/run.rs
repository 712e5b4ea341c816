//! Running a program: questions 15 to 20, and the update list it writes.

use std::ops::Range;

use crate::limits::{CELLS, ITEM_NESTING, LIST_WORDS, NODES, ROUNDS, UPDATES};
use crate::list::{self, Record, HEADER, RECORD};
use crate::read::{read_program, Form, Item, Node, Program};
use crate::reply::{Question, Refusal};

/// How far a run has come, or came.
#[derive(Clone, Copy, Debug, Default, PartialEq, Eq)]
pub struct Counts {
    pub rounds: usize,
    pub updates: usize,
    pub nodes: usize,
}

impl Counts {
    /// Words of the list that are not the zeros after it.
    pub fn words(&self) -> usize {
        HEADER + RECORD * (self.updates + self.nodes)
    }
}

/// Reads and runs a program. The list gets the layout and zeros after it, or
/// zeros only if the program is refused. Gives the number of updates.
pub fn unroll(program: &[u8], list: &mut [u32]) -> Result<usize, Refusal> {
    Question::Memory.ask(list.len() >= LIST_WORDS, 0)?;
    read_program(program)
        .and_then(|program| run(&program, list))
        .map(|counts| counts.updates)
        .inspect_err(|_| list.fill(0))
}

/// The values of the enclosing loops' indices, outermost first.
pub type Indices = [i16; ITEM_NESTING];

/// Sees each update of a run, in the run's order.
pub trait Watch {
    /// `item` is the statement's number in the program's row. What stands
    /// behind its loops in `indices` is left over.
    fn update(&mut self, item: usize, target: usize, cell: usize, indices: &Indices);
}

/// Nobody watches. A run is compiled for each watch, so this one costs nothing.
impl Watch for () {
    fn update(&mut self, _: usize, _: usize, _: usize, _: &Indices) {}
}

/// Runs a program that was read. The list must be long enough; it gets the
/// layout and zeros after it, or anything if the run is refused.
pub fn run(program: &Program, list: &mut [u32]) -> Result<Counts, Refusal> {
    run_watched(program, list, &mut ())
}

/// The same, each update being shown to `watch`.
pub fn run_watched<W: Watch>(
    program: &Program,
    list: &mut [u32],
    watch: &mut W,
) -> Result<Counts, Refusal> {
    let (header, records) = list.split_first_chunk_mut::<HEADER>().expect("length asked before");
    list::write_header(&program.tables, header);
    let mut run = Run {
        program,
        records: records.as_chunks_mut().0,
        at: 0,
        counts: Counts::default(),
        indices: [0; ITEM_NESTING],
        written: [false; CELLS],
        watch,
    };
    run.items(0..program.items.len())?;
    let counts = run.counts;
    list[counts.words()..].fill(0);
    Ok(counts)
}

struct Run<'a, W> {
    program: &'a Program,
    records: &'a mut [Record],
    /// The record to be written next.
    at: usize,
    counts: Counts,
    /// What stands behind the enclosing loops is left over and meets only
    /// coefficients that are 0.
    indices: Indices,
    written: [bool; CELLS],
    watch: &'a mut W,
}

/// No value is larger than 32,768 + 8 * 128 * 32,768, so 32 signed bits hold
/// each.
fn value(form: &Form, indices: &Indices) -> i32 {
    const WIDEST: i64 = (1 << 15) + (ITEM_NESTING as i64) * (1 << 7) * (1 << 15);
    const { assert!(WIDEST <= i32::MAX as i64) };
    let products = form.coefficients.iter().zip(indices);
    let sum: i32 = products.map(|(&factor, &index)| i32::from(factor) * i32::from(index)).sum();
    i32::from(form.constant) + sum
}

impl<'a, W: Watch> Run<'a, W> {
    fn items(&mut self, range: Range<usize>) -> Result<(), Refusal> {
        let program: &'a Program = self.program;
        let mut at = range.start;
        while at < range.end {
            at = match &program.items[at] {
                Item::Statement { place, target, subscripts, nodes, .. } => {
                    let nodes = &program.nodes[nodes.clone()];
                    let cell = self.statement(*place, *target, *subscripts, nodes)?;
                    self.watch.update(at, *target, cell, &self.indices);
                    at + 1
                }
                Item::Loop { place, depth, start, stop, step, end } => {
                    let bounds = self.value_of(*start)..self.value_of(*stop);
                    self.rounds(*place, *depth, bounds, *step, at + 1..*end)?;
                    *end
                }
                Item::Guard { form, end } => {
                    if self.value_of(*form) >= 0 {
                        self.items(at + 1..*end)?;
                    }
                    *end
                }
            };
        }
        Ok(())
    }

    fn value_of(&self, form: usize) -> i32 {
        value(&self.program.forms[form], &self.indices)
    }

    /// Runs the rounds of one loop; its bounds include the end.
    fn rounds(
        &mut self,
        place: usize,
        depth: usize,
        bounds: Range<i32>,
        step: i16,
        body: Range<usize>,
    ) -> Result<(), Refusal> {
        let start = i16::try_from(bounds.start).map_err(|_| Question::Bounds.at(place))?;
        let stop = i16::try_from(bounds.end).map_err(|_| Question::Bounds.at(place))?;
        // Wider than an index: the step beyond 32,767 has to end the loop.
        let (mut index, stop, step) = (i32::from(start), i32::from(stop), i32::from(step));
        while if step > 0 { index <= stop } else { index >= stop } {
            Question::Rounds.ask(self.counts.rounds < ROUNDS, place)?;
            self.counts.rounds += 1;
            self.indices[depth] = index as i16;
            self.items(body.clone())?;
            index += step;
        }
        Ok(())
    }

    /// Gives the cell that is written.
    fn statement(
        &mut self,
        place: usize,
        target: usize,
        subscripts: usize,
        nodes: &[Node],
    ) -> Result<usize, Refusal> {
        Question::Updates.ask(self.counts.updates < UPDATES, place)?;
        Question::Nodes.ask(self.counts.nodes + nodes.len() <= NODES, place)?;
        let cell = self.cell(place, target, subscripts)?;
        self.push([list::code::UPDATE, target as u32, cell as u32]);
        // A subscript outside, however late, comes before an unwritten read.
        let mut all_written = true;
        for node in nodes {
            let record = match *node {
                Node::Read { array, subscripts } => {
                    let array = usize::from(array);
                    let cell = self.cell(place, array, subscripts as usize)?;
                    all_written &= self.readable(array, cell);
                    [list::code::READ, array as u32, cell as u32]
                }
                Node::Operator { number } => [list::code::OPERATOR, u32::from(number), 0],
                Node::Literal { form } => {
                    [list::code::LITERAL, self.value_of(form as usize) as u32, 0]
                }
                Node::Constant { name } => [list::code::CONSTANT, name, 0],
            };
            self.push(record);
        }
        Question::Written.ask(all_written, place)?;
        self.written[self.program.tables.first_cell(target) + cell] = true;
        self.counts.updates += 1;
        self.counts.nodes += nodes.len();
        Ok(cell)
    }

    fn push(&mut self, record: Record) {
        self.records[self.at] = record;
        self.at += 1;
    }

    /// The number of a cell in its array, last subscript fastest.
    fn cell(&self, place: usize, array: usize, subscripts: usize) -> Result<usize, Refusal> {
        let extents = self.program.tables.arrays()[array].extents();
        let mut cell = 0;
        for (dimension, &extent) in extents.iter().enumerate() {
            let subscript = self.value_of(subscripts + dimension);
            let inside = (0..i32::from(extent)).contains(&subscript);
            Question::Subscript.ask(inside, place)?;
            cell = cell * usize::from(extent) + subscript as usize;
        }
        Ok(cell)
    }

    fn readable(&self, array: usize, cell: usize) -> bool {
        let tables = &self.program.tables;
        tables.arrays()[array].role.starts_alike() || self.written[tables.first_cell(array) + cell]
    }
}
