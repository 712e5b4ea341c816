//! Comparing two lists or two programs: questions 22 to 26.

use crate::limits::{CELLS, CELL_WORDS, LIST_WORDS, OPERATOR_NESTING, TERM_WORDS};
use crate::list::{self, decode, List, Record, HEADER};
use crate::read::read_program;
use crate::reply::{Question, Refusal, Reply, Side};
use crate::run::run;
use crate::tables::{self, Role, Tables};
use crate::terms::{self, Store, Term};

/// The mask with every bit set.
pub const ALL: u16 = u16::MAX;

/// The arrays whose elements are compared.
#[derive(Clone, Copy, Debug, PartialEq, Eq)]
pub(crate) enum Compared {
    /// The plain comparison: the out arrays, and no other.
    Out,
    /// Out and inout arrays, those whose bit is set in the mask.
    Masked(u16),
}

impl Compared {
    fn has(self, array: usize, role: Role) -> bool {
        match self {
            Compared::Out => role == Role::Out,
            Compared::Masked(mask) => role.maskable() && mask >> array & 1 == 1,
        }
    }
}

/// Compares two lists, which are only read.
pub fn compare_lists(
    left: &[u32],
    right: &[u32],
    mask: u16,
    cells: &mut [u32],
    terms: &mut [u32],
) -> Reply {
    let lists = left.len() >= LIST_WORDS && right.len() >= LIST_WORDS;
    if !lists || !work_suffices(cells, terms) {
        return Question::Memory.at(0).reply(Side::Both);
    }
    cells.fill(0);
    terms.fill(0);
    let Some(left) = decode(left) else {
        return Question::List.at(0).reply(Side::Left);
    };
    let Some(right) = decode(right) else {
        return Question::List.at(0).reply(Side::Right);
    };
    compare_accepted(&left, &right, Compared::Masked(mask), cells, terms)
}

/// Compares two programs in the out and inout arrays whose bit is set.
pub fn compare_programs_masked(
    left: &[u8],
    right: &[u8],
    mask: u16,
    left_list: &mut [u32],
    right_list: &mut [u32],
    cells: &mut [u32],
    terms: &mut [u32],
) -> Reply {
    Memory { left_list, right_list, cells, terms }.compare(left, right, Compared::Masked(mask))
}

/// Compares two programs in their out arrays.
pub fn compare_programs(
    left: &[u8],
    right: &[u8],
    left_list: &mut [u32],
    right_list: &mut [u32],
    cells: &mut [u32],
    terms: &mut [u32],
) -> Reply {
    Memory { left_list, right_list, cells, terms }.compare(left, right, Compared::Out)
}

fn work_suffices(cells: &[u32], terms: &[u32]) -> bool {
    cells.len() >= CELL_WORDS && terms.len() >= TERM_WORDS
}

/// The memory lent to a compare of programs.
pub(crate) struct Memory<'a> {
    pub left_list: &'a mut [u32],
    pub right_list: &'a mut [u32],
    pub cells: &'a mut [u32],
    pub terms: &'a mut [u32],
}

impl Memory<'_> {
    pub fn suffices(&self) -> bool {
        self.left_list.len() >= LIST_WORDS
            && self.right_list.len() >= LIST_WORDS
            && work_suffices(self.cells, self.terms)
    }

    pub fn clear(&mut self) {
        self.left_list.fill(0);
        self.right_list.fill(0);
        self.cells.fill(0);
        self.terms.fill(0);
    }

    fn compare(mut self, left: &[u8], right: &[u8], compared: Compared) -> Reply {
        if self.suffices() {
            self.programs(left, right, compared)
        } else {
            Question::Memory.at(0).reply(Side::Both)
        }
    }

    /// Needs memory that suffices, and leaves all of it zeros.
    pub fn programs(&mut self, left: &[u8], right: &[u8], compared: Compared) -> Reply {
        let (left, right) = match self.unroll_both(left, right) {
            Ok(unrolled) => unrolled,
            Err(reply) => {
                self.clear();
                return reply;
            }
        };
        self.cells.fill(0);
        self.terms.fill(0);
        let (left_words, right_words) = (left.words, right.words);
        let left = left.over(self.left_list);
        let right = right.over(self.right_list);
        let reply = compare_accepted(&left, &right, compared, self.cells, self.terms);
        // Behind these words the run left zeros.
        self.left_list[..left_words].fill(0);
        self.right_list[..right_words].fill(0);
        reply
    }

    /// The right program is looked at only when the left has no "no".
    fn unroll_both(&mut self, left: &[u8], right: &[u8]) -> Result<(Unrolled, Unrolled), Reply> {
        let left = unroll(left, self.left_list).map_err(|no| no.reply(Side::Left))?;
        let right = unroll(right, self.right_list).map_err(|no| no.reply(Side::Right))?;
        Ok((left, right))
    }
}

/// The tables of a program and the length of the list it gave.
struct Unrolled {
    tables: Tables,
    words: usize,
}

impl Unrolled {
    fn over(self, list: &[u32]) -> List<'_> {
        List { tables: self.tables, records: list[HEADER..self.words].as_chunks().0 }
    }
}

fn unroll(program: &[u8], list: &mut [u32]) -> Result<Unrolled, Refusal> {
    let program = read_program(program)?;
    let counts = run(&program, list)?;
    Ok(Unrolled { tables: program.tables, words: counts.words() })
}

/// Needs work memory of zeros and leaves it so.
fn compare_accepted(
    left: &List,
    right: &List,
    compared: Compared,
    cells: &mut [u32],
    terms: &mut [u32],
) -> Reply {
    if let Err(refusal) = same_tables(&left.tables, &right.tables) {
        return refusal.reply(Side::Both);
    }
    let mut store = Store::over(terms);
    let cells = &mut cells[..CELL_WORDS];
    let (left_cells, right_cells) = cells.split_at_mut(CELLS);
    let evaluated = evaluate(left, left_cells, &mut store)
        .and_then(|()| evaluate(right, right_cells, &mut store));
    let reply = match evaluated {
        None => Question::Terms.at(0).reply(Side::Both),
        Some(()) => first_difference(&left.tables, compared, left_cells, right_cells, &store),
    };
    store.clear();
    cells.fill(0);
    reply
}

fn same_tables(left: &Tables, right: &Tables) -> Result<(), Refusal> {
    if let Some(array) = first_unlike(left.shared(), right.shared()) {
        return Err(Question::SameArrays.at(array));
    }
    match first_unlike(left.operators(), right.operators()) {
        Some(operator) => Err(Question::SameOperators.at(operator)),
        None => Ok(()),
    }
}

/// The first number at which two tables differ: the smaller count if one is
/// the beginning of the other.
fn first_unlike<T: PartialEq>(left: &[T], right: &[T]) -> Option<usize> {
    let unlike = left.iter().zip(right).position(|(left, right)| left != right);
    let shorter = left.len().min(right.len());
    unlike.or_else(|| (left.len() != right.len()).then_some(shorter))
}

/// Carries out the updates: each cell ends as the number behind its term, or 0
/// if it was neither written nor read. Nothing if there are too many terms.
fn evaluate(list: &List, cells: &mut [u32], store: &mut Store) -> Option<()> {
    let mut side = Evaluation { tables: &list.tables, cells, store, waiting: [0; WAITING] };
    for (&[_, array, cell], expression) in list.updates() {
        let value = side.expression(expression)?;
        side.cells[side.tables.first_cell(array as usize) + cell as usize] = value + 1;
    }
    Some(())
}

/// At most three finished arguments of each of twelve open operators wait at a
/// time, and one more.
const WAITING: usize = 3 * OPERATOR_NESTING + 1;

struct Evaluation<'a, 'b> {
    tables: &'a Tables,
    cells: &'a mut [u32],
    store: &'a mut Store<'b>,
    /// Left over between expressions, so as not to be zeroed for each.
    waiting: [u32; WAITING],
}

impl Evaluation<'_, '_> {
    /// Walks from the last record to the first: then an operator finds its
    /// arguments finished, the first on top.
    fn expression(&mut self, records: &[Record]) -> Option<u32> {
        let mut count = 0;
        for &[code, first, second] in records.iter().rev() {
            let number = match code {
                list::code::READ => self.read(first, second)?,
                list::code::LITERAL => self.store.intern(terms::literal(first))?,
                list::code::CONSTANT => self.store.intern(terms::constant(first))?,
                _ => {
                    let operator = self.tables.operators()[first as usize];
                    let mut arguments = [0; 4];
                    for argument in &mut arguments[..usize::from(tables::arity(operator))] {
                        count -= 1;
                        *argument = self.waiting[count];
                    }
                    // Terms alike up to swaps have one number, so in one order
                    // of numbers they are the same term here too.
                    if operator == tables::MARKED {
                        arguments[..2].sort_unstable();
                    }
                    self.store.intern(terms::operator(first, arguments))?
                }
            };
            self.waiting[count] = number;
            count += 1;
        }
        Some(self.waiting[0])
    }

    /// What the cell holds now. A starting term that was read is kept in its
    /// cell: an unwritten cell and one written with its own starting contents
    /// are the same, and the next read is spared the search.
    fn read(&mut self, array: u32, cell: u32) -> Option<u32> {
        let at = self.tables.first_cell(array as usize) + cell as usize;
        if self.cells[at] == 0 {
            self.cells[at] = self.store.intern(terms::start(array, cell))? + 1;
        }
        Some(self.cells[at] - 1)
    }
}

/// Goes over the compared elements by array number, then cell number.
fn first_difference(
    tables: &Tables,
    compared: Compared,
    left: &[u32],
    right: &[u32],
    store: &Store,
) -> Reply {
    let mut count = 0;
    for (array, declared) in tables.shared().iter().enumerate() {
        if !compared.has(array, declared.role) {
            continue;
        }
        // Shared arrays come first and are alike, so both sides begin here.
        let first = tables.first_cell(array);
        let size = declared.cells();
        let (left, right) = (&left[first..first + size], &right[first..first + size]);
        if let Some(cell) = unlike_cell(array, declared.role, left, right, store) {
            return Reply::Differs { array, cell };
        }
        count += size;
    }
    Reply::Equal { count }
}

/// The first cell in which a compared array differs. Starting contents of an
/// out array are each side's own and like no value, so a cell that either side
/// left unwritten differs. It holds 0, since nothing reads it before a write.
fn unlike_cell(
    array: usize,
    role: Role,
    left: &[u32],
    right: &[u32],
    store: &Store,
) -> Option<usize> {
    let mut cells = left.iter().zip(right).enumerate();
    if role.starts_alike() {
        let start = |cell: usize| terms::start(array as u32, cell as u32);
        cells.position(|(cell, (&left, &right))| !same_value(|| start(cell), left, right, store))
    } else {
        cells.position(|(_, (&left, &right))| left == 0 || left != right)
    }
}

/// In a cell that starts alike on both sides, 0 stands for its starting term.
fn same_value(start: impl FnOnce() -> Term, left: u32, right: u32, store: &Store) -> bool {
    match (left, right) {
        (left, right) if left == right => true,
        (0, held) | (held, 0) => store.is(held - 1, start()),
        _ => false,
    }
}
