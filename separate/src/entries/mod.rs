//! Twins of the verified crates' public functions, each written from its
//! definition, and the line that a record's call gives. README.md has the
//! format of records.

mod batches;
mod explanations;
mod fields;
mod grammar;
pub(crate) mod numbers;
mod store;
mod writes;

use std::fmt::{Display, Write};

use crate::line::{self, line_of};
use crate::read::{read_program, read_tables};
use crate::reply::{Question, Refusal, Reply, Side};
use crate::{compare_input, compare_input_masked, compare_programs};
use fields::Outcome;
use grammar::Grammar;
use numbers::{flat, narrowed, Row, Tables, ROW};
use store::{Node, Store};
pub(crate) use writes::OUTPUT;

/// The entry's number and its six arguments.
const HEAD: usize = 1 + 6 * 8;

/// More words than any slice has to have.
pub(crate) const MEMORY: usize = 33_000;

/// A step of a script: a code and seven words.
const STEP: usize = 1 + 7 * 4;

/// A record has not what its entry takes.
struct Unfit;

/// The line of one record.
pub fn line(record: &[u8]) -> String {
    if record.len() < HEAD {
        return "-".to_string();
    }
    let mut line = Line(record[0].to_string());
    let arguments = std::array::from_fn(|k| number_at(record, 1 + 8 * k));
    if line.call(record[0], arguments, &record[HEAD..]).is_err() {
        line.0.push_str(" -");
    }
    line.0
}

/// Little-endian; 0 where it is not there as a whole.
fn number_at(bytes: &[u8], at: usize) -> usize {
    let number = bytes.get(at..).and_then(|rest| rest.first_chunk());
    number.map_or(0, |&number| u64::from_le_bytes(number) as usize)
}

fn word_at(bytes: &[u8], at: usize) -> u32 {
    let word = bytes.get(at..).and_then(|rest| rest.first_chunk());
    word.map_or(0, |&word| u32::from_le_bytes(word))
}

/// The words of `stored`, again and again with this period.
fn memory(stored: &[u8], period: usize) -> Vec<u32> {
    (0..MEMORY).map(|word| word_at(stored, 4 * (word % period.max(1)))).collect()
}

/// Memories of these lengths over `k` stored words, and what follows the words.
fn memories<const N: usize>(
    lengths: [usize; N],
    k: usize,
    s: &[u8],
) -> Result<([Vec<u32>; N], &[u8]), Unfit> {
    if k > s.len() / 4 || lengths.iter().any(|&length| length > MEMORY) {
        return Err(Unfit);
    }
    let (stored, s) = s.split_at(4 * k);
    let whole = memory(stored, k);
    Ok((lengths.map(|length| whole[..length].to_vec()), s))
}

fn side_of(number: usize) -> Side {
    [Side::Left, Side::Right, Side::Both, Side::Input][number % 4]
}

struct Line(String);

impl Line {
    fn say(&mut self, number: impl Display) {
        write!(self.0, " {number}").expect("a string takes everything");
    }

    fn say_all<T: Display>(&mut self, numbers: impl IntoIterator<Item = T>) {
        numbers.into_iter().for_each(|number| self.say(number));
    }

    fn refuse(&mut self, no: Refusal) {
        self.say(0);
        self.say(no.number);
        self.say(no.place);
    }

    /// 1, the value and the place past it.
    fn field<T: Display>(&mut self, outcome: Outcome<T>) {
        match outcome {
            Ok((value, next)) => {
                self.say(1);
                self.say(value);
                self.say(next);
            }
            Err(no) => self.refuse(no),
        }
    }

    /// The place alone.
    fn place<T>(&mut self, outcome: Outcome<T>) {
        match outcome {
            Ok((_, next)) => {
                self.say(1);
                self.say(next);
            }
            Err(no) => self.refuse(no),
        }
    }

    /// Three is odd, so that one word that differs changes the sum.
    fn sum(&mut self, memory: impl IntoIterator<Item = u32>) {
        let add = |sum: u32, word| sum.wrapping_mul(3).wrapping_add(word);
        self.say(memory.into_iter().fold(0, add));
    }

    fn call(&mut self, entry: u8, arguments: [usize; 6], s: &[u8]) -> Result<(), Unfit> {
        match entry {
            1..=9 => self.single(entry, arguments, s),
            10..=19 => {
                let (row, s) = s.split_at_checked(8 * ROW).ok_or(Unfit)?;
                let row = std::array::from_fn(|k| number_at(row, 8 * k));
                self.tabled(entry, arguments, &row, s);
            }
            20..=23 => self.part(entry, arguments, s),
            24 => self.say(arguments[0]),
            25 => self.say(s.len().saturating_sub(arguments[0])),
            26 => self.field(fields::i16(s, arguments[0])),
            30 => self.script(arguments, s)?,
            31 | 32 => self.compare(entry, arguments, s)?,
            33 => self.reply_line(arguments),
            34 => self.explain(arguments, s)?,
            35 => self.stretch(arguments, s)?,
            36 => self.origin(arguments, s)?,
            37 => self.explanation_line(arguments, s),
            38 => self.explain_input(arguments, s)?,
            39 => self.pair_lengths(s),
            40 => self.compare_pair(arguments, s)?,
            41 => self.count_reply(arguments, s),
            42 => self.totals_line(arguments),
            43 => self.compare_masked(arguments, s)?,
            44 => self.explain_input_masked(arguments, s)?,
            45 => self.write_file(arguments, s)?,
            _ => return Err(Unfit),
        }
        Ok(())
    }

    fn single(&mut self, entry: u8, [a, b, ..]: [usize; 6], s: &[u8]) {
        match entry {
            1 => self.say(u8::from(fields::has(s, a, b))),
            2 => self.say(u16::from_le_bytes([a as u8, b as u8])),
            3 => self.say(a as u8 as i8),
            4 => self.say(a as u16 as i16),
            5 => self.field(fields::field(1, s, a)),
            6 => self.field(fields::field(4, s, a)),
            7 => self.field(fields::index(b, s, a)),
            8 => self.field(fields::step(s, a)),
            _ => self.field(fields::field(1 + b % 4, s, a)),
        }
    }

    fn tabled(&mut self, entry: u8, [a, b, c, ..]: [usize; 6], row: &Row, s: &[u8]) {
        let tables = Tables::of(row);
        match entry {
            10 => self.say(tables.arities.len()),
            11 => self.say(tables.arrays.len()),
            12 => self.say(tables.arities.get(a).copied().unwrap_or(0)),
            13 => self.say(tables.array(a).role),
            14 => self.say(tables.array(a).extents.len()),
            15 => self.say(tables.array(a).extents.get(b).copied().unwrap_or(0)),
            16 => self.say(tables.bases.get(a).copied().unwrap_or(0)),
            17 => self.say_all(narrowed(row)),
            18 => self.field(Grammar { s, tables: &tables }.expression_step(a, b)),
            _ => self.place(Grammar { s, tables: &tables }.items_step(a, b, c)),
        }
    }

    fn part(&mut self, entry: u8, [a, b, c, ..]: [usize; 6], s: &[u8]) {
        match entry {
            20 => self.form(grammar::form_step(b, s, a)),
            21 => self.place(grammar::forms_step(b, c, s, a)),
            22 => match read_tables(s) {
                Ok((tables, next)) => {
                    self.place(Ok(((), next)));
                    self.say_all(flat(&tables));
                }
                Err(no) => {
                    self.refuse(no);
                    self.say_all([0; ROW]);
                }
            },
            _ => match read_program(s) {
                Ok(_) => self.say(1),
                Err(no) => self.refuse(no),
            },
        }
    }

    /// The constant and eight coefficients, which are 0 where there is none.
    fn form(&mut self, outcome: Outcome<grammar::Form>) {
        let form = outcome.as_ref().map_or(Default::default(), |(form, _)| form.clone());
        self.place(outcome);
        self.say(form.constant);
        let coefficient = |k: usize| form.coefficients.get(k).copied().unwrap_or(0);
        self.say_all((0..8).map(coefficient));
    }

    fn script(&mut self, [length, k, period, ..]: [usize; 6], s: &[u8]) -> Result<(), Unfit> {
        if length > MEMORY || k > s.len() / 4 {
            return Err(Unfit);
        }
        let (stored, script) = s.split_at(4 * k);
        let mut store = Store { memory: memory(stored, period) };
        store.memory.truncate(length);
        let mut count = 0;
        for step in script.chunks(STEP) {
            count = self.step(&mut store, count, step);
        }
        self.sum(store.memory);
        Ok(())
    }

    /// The count after one call.
    fn step(&mut self, store: &mut Store, count: u32, step: &[u8]) -> u32 {
        let [given, node @ ..]: [u32; 7] = std::array::from_fn(|k| word_at(step, 1 + 4 * k));
        match step[0] % 6 {
            0 => {
                store.memory.fill(0);
                return 0;
            }
            1 => return self.intern(store, count, node),
            2 => return self.intern(store, given, node),
            3 => return self.put(store, count, node),
            4 => return self.put(store, given, node),
            _ => self.start(store.starts(given, node[0], node[1])),
        }
        count
    }

    fn intern(&mut self, store: &mut Store, count: u32, node: Node) -> u32 {
        match store.intern(count, node) {
            Ok((after, id)) => {
                self.say_all([1, after, id]);
                after
            }
            Err(question) => {
                self.say_all([0, question as u8]);
                count
            }
        }
    }

    /// A count above 4,096 says that the number behind it is a question's.
    fn put(&mut self, store: &mut Store, count: u32, node: Node) -> u32 {
        let refused = |question: Question| (4_097, question as u32);
        let (after, id) = store.intern(count, node).unwrap_or_else(refused);
        self.say_all([after, id]);
        after
    }

    fn start(&mut self, answer: Result<bool, Question>) {
        match answer {
            Ok(is) => self.say_all([1, u8::from(is)]),
            Err(question) => self.say_all([0, question as u8]),
        }
    }

    fn compare(&mut self, entry: u8, arguments: [usize; 6], s: &[u8]) -> Result<(), Unfit> {
        let [left, lengths @ .., k] = arguments;
        let (mut lent, s) = memories(lengths, k, s)?;
        let (left, right) = s.split_at_checked(left).ok_or(Unfit)?;
        let [left_list, right_list, cells, terms] = &mut lent;
        self.reply(if entry == 31 {
            compare_programs(left, right, left_list, right_list, cells, terms)
        } else {
            compare_input(s, left_list, right_list, cells, terms)
        });
        lent.into_iter().for_each(|memory| self.sum(memory));
        Ok(())
    }

    fn compare_masked(&mut self, arguments: [usize; 6], s: &[u8]) -> Result<(), Unfit> {
        let [_, lengths @ .., k] = arguments;
        let (mut lent, s) = memories(lengths, k, s)?;
        let (&mask, input) = s.split_first_chunk().ok_or(Unfit)?;
        let mask = u16::from_le_bytes(mask);
        let [left_list, right_list, cells, terms] = &mut lent;
        self.reply(compare_input_masked(input, mask, left_list, right_list, cells, terms));
        lent.into_iter().for_each(|memory| self.sum(memory));
        Ok(())
    }

    fn reply(&mut self, reply: Reply) {
        match reply {
            Reply::Equal { count } => self.say_all([0, count]),
            Reply::Differs { array, cell } => self.say_all([1, array, cell]),
            Reply::Refused { side, number, place } => {
                self.say_all([2, side as usize, usize::from(number), place]);
            }
        }
    }

    fn reply_line(&mut self, [kind, b, c, side, number, place]: [usize; 6]) {
        self.text(line_of(match kind % 3 {
            0 => Reply::Equal { count: b },
            1 => Reply::Differs { array: b, cell: c },
            _ => Reply::Refused { side: side_of(side), number: number as u8, place },
        }));
    }

    /// The length of a printed line and all of its bytes, the line end included.
    fn text(&mut self, mut line: line::Line) {
        line.bytes[line.length] = b'\n';
        self.say(line.length + 1);
        self.say_all(line.bytes);
    }
}
