//! Random records of `write_file`: lists that have a file, for outputs of its
//! length and others, and lists that are refused.

use super::entries::{record, words, RECORD};
use super::lists::{deep, ListPairs, Parts};
use super::Random;
use crate::entries::{MEMORY, OUTPUT};
use crate::limits::{LIST_WORDS, OPERATOR_NESTING, PROGRAM_BYTES};
use crate::list::{code, List, Record, HEADER};
use crate::tables::{arity, Array, Role};
use crate::write::measure;

/// A list has no more words, so that a record has room for an output too.
const WORDS: usize = 11_000;

/// One that is made longer has no more before that, since up to 1,900 updates are added.
const SHORT_WORDS: usize = 3_000;

/// What is made of a list, with how many of a hundred.
const KINDS: [(Kind, usize); 6] = [
    (Kind::Plain, 47),
    (Kind::Long, 16),
    (Kind::Wide, 16),
    (Kind::Damaged, 13),
    (Kind::Cut, 6),
    (Kind::Unfit, 2),
];

#[derive(Clone, Copy, PartialEq, Eq)]
enum Kind {
    Plain,
    /// Its file has 16,384 bytes, or around that.
    Long,
    /// With literals of more than 16 bits.
    Wide,
    Damaged,
    /// In a slice that is too short.
    Cut,
    /// A record that has not what the entry takes.
    Unfit,
}

/// An endless stream of records.
pub struct Writes {
    random: Random,
    lists: ListPairs,
}

/// A list's slice and an output, for callers that need no record.
pub struct Lent {
    pub list: Vec<u32>,
    pub out: Vec<u8>,
}

/// What a record says: the length of the slice, the words that are stored and
/// their period, the length of the output and the bytes that it begins with.
struct Call {
    slice: usize,
    stored: Vec<u32>,
    period: usize,
    output: usize,
    held: Vec<u8>,
}

impl Iterator for Writes {
    type Item = Vec<u8>;

    fn next(&mut self) -> Option<Vec<u8>> {
        let kind = self.kind();
        let Call { slice, stored, period, output, held } = self.call(kind);
        let arguments = [slice, stored.len(), period, output, 0, 0];
        let arguments = if kind == Kind::Unfit { self.unfit(arguments) } else { arguments };
        let mut record = record(45, arguments, &[words(&stored), held].concat());
        record.truncate(RECORD);
        Some(record)
    }
}

/// The length of the file of an accepted list that has no wide literal.
fn file_length(parts: &Parts) -> usize {
    let words = parts.words();
    let list = List { tables: parts.tables.clone(), records: words[HEADER..].as_chunks().0 };
    measure(&list).expect("the literals are narrow")
}

/// Takes updates off the end until the list has so many words or fewer.
fn shorten(parts: &mut Parts, most: usize) {
    let mut left = most - HEADER;
    let fits = |records: &&Vec<Record>| {
        let rest = left.checked_sub(records.as_flattened().len());
        left = rest.unwrap_or(left);
        rest.is_some()
    };
    let kept = parts.updates.iter().take_while(fits).count();
    parts.updates.truncate(kept);
}

/// An array that may be written.
fn target(parts: &Parts) -> usize {
    let writable = |array: &Array| array.role != Role::In;
    parts.tables.arrays().iter().position(writable).expect("always one")
}

impl Writes {
    pub fn new(seed: u64) -> Writes {
        Writes { random: Random::new(!seed), lists: ListPairs::new(seed) }
    }

    /// The slices of the next call.
    pub fn lent(&mut self) -> Lent {
        let kind = self.kind();
        let Call { slice, stored, period, output, mut held } = self.call(kind);
        held.resize(output, 0);
        let word = |at: usize| stored.get(at % period).copied().unwrap_or(0);
        Lent { list: (0..slice).map(word).collect(), out: held }
    }

    fn kind(&mut self) -> Kind {
        KINDS[self.random.weighted(&KINDS.map(|(_, weight)| weight))].0
    }

    fn call(&mut self, kind: Kind) -> Call {
        let mut parts = self.list();
        if kind == Kind::Long || self.random.chance(8) {
            self.lengthen(&mut parts);
        }
        let output = self.output(file_length(&parts));
        if kind == Kind::Wide {
            self.widen(&mut parts);
        }
        let mut stored = parts.words();
        let period = if kind == Kind::Damaged { self.damage(&mut stored) } else { MEMORY };
        let slice = self.slice(kind);
        let held = if self.random.chance(80) { output } else { self.random.below(output + 1) };
        Call { slice, stored, period, output, held: self.random.bytes(held) }
    }

    /// An accepted list whose literals have 16 bits.
    fn list(&mut self) -> Parts {
        let mut parts = self.lists.list();
        match self.random.below(100) {
            0..4 => parts.updates.clear(),
            4..16 => self.deepen(&mut parts),
            _ => {}
        }
        shorten(&mut parts, WORDS);
        for record in parts.updates.iter_mut().flatten() {
            match record {
                [code::LITERAL, value, _] => self.narrow(value),
                [code::CONSTANT, name, _] if self.random.chance(30) => {
                    let any = self.random.draw() as u32 | 1 << 31;
                    *name = *self.random.pick(&[1 << 31, (1 << 31) + 1, u32::MAX, any]);
                }
                _ => {}
            }
        }
        parts
    }

    /// Mostly as it is, where it has 16 bits.
    fn narrow(&mut self, value: &mut u32) {
        if i16::try_from(*value as i32).is_err() || self.random.chance(15) {
            let any = self.random.draw() as i16;
            let narrow = *self.random.pick(&[i16::MIN, i16::MIN + 1, -1, i16::MAX, any]);
            *value = i32::from(narrow) as u32;
        }
    }

    /// An update in front whose operators are as deep as can be.
    fn deepen(&mut self, parts: &mut Parts) {
        let Some(&operator) = parts.tables.operators().first() else { return };
        let mut records = vec![[code::UPDATE, target(parts) as u32, 0]];
        let levels = OPERATOR_NESTING - self.random.below(2);
        deep(arity(operator), levels, &mut records);
        parts.updates.insert(0, records);
        parts.updates.truncate(20);
    }

    /// Updates behind the others, so that the file has a length at the limit.
    fn lengthen(&mut self, parts: &mut Parts) {
        shorten(parts, SHORT_WORDS);
        let beyond = PROGRAM_BYTES + self.random.below(1_000);
        let [limit, over] = [PROGRAM_BYTES, PROGRAM_BYTES + 1];
        let wanted = *self.random.pick(&[limit, limit, limit, over, over, limit - 1, beyond]);
        let missing = wanted - file_length(parts);
        let target = target(parts);
        let array = parts.tables.arrays()[target];
        // A target, then a literal or a constant; both lengths are odd and they differ by two, so
        // that there are some of each whose sum is the missing length.
        let [literal, constant] = [3, 5].map(|leaf| 2 + 2 * array.dimensions + leaf);
        let fits = |&count: &usize| (missing - count * literal).is_multiple_of(constant);
        let literals = (0..constant).find(fits).expect("no common divisor");
        let constants = (missing - literals * literal) / constant;
        for number in 0..literals + constants {
            let cell = self.random.below(array.cells()) as u32;
            let leaf = if number < literals {
                [code::LITERAL, i32::from(self.random.draw() as i16) as u32, 0]
            } else {
                [code::CONSTANT, self.random.draw() as u32, 0]
            };
            parts.updates.push(vec![[code::UPDATE, target as u32, cell], leaf]);
        }
    }

    /// One or two leaves become literals of more than 16 bits: of the first update, the last or any.
    fn widen(&mut self, parts: &mut Parts) {
        for _ in 0..1 + self.random.below(2) {
            let Some(last) = parts.updates.len().checked_sub(1) else { return };
            let any = self.random.below(last + 1);
            let records = &mut parts.updates[*self.random.pick(&[0, last, any, any])];
            let leaf = |&at: &usize| records[at][0] != code::OPERATOR;
            let leaves: Vec<_> = (1..records.len()).filter(leaf).collect();
            let wide = [-32_769, 32_768, -32_770, 65_535, 65_536, -65_536, i32::MIN, i32::MAX];
            let value = *self.random.pick(&wide) as u32;
            records[*self.random.pick(&leaves)] = [code::LITERAL, value, 0];
        }
    }

    /// Other words in the list, or some behind it: near, or the list once more. Gives the period.
    fn damage(&mut self, list: &mut Vec<u32>) -> usize {
        match self.random.below(10) {
            0..6 => self.lists.damage(list),
            6 => self.lists.change_table(list),
            7 => {
                let at = list.len() + self.random.below(9);
                list.resize(at, 0);
                list.push(1 + self.random.below(20) as u32);
            }
            _ => return *self.random.pick(&[list.len(), 30_818, LIST_WORDS - 1, LIST_WORDS]),
        }
        MEMORY
    }

    /// The length of the list's slice.
    fn slice(&mut self, kind: Kind) -> usize {
        let below = self.random.below(LIST_WORDS);
        let longer = LIST_WORDS + 1 + self.random.below(MEMORY - LIST_WORDS);
        let shorter = [0, 1, 97, 98, below, LIST_WORDS - 1, LIST_WORDS - 1];
        match kind {
            Kind::Cut => *self.random.pick(&shorter),
            _ => *self.random.pick(&[LIST_WORDS, LIST_WORDS, LIST_WORDS, longer]),
        }
    }

    /// The length of the output, mostly enough for a file of this length.
    fn output(&mut self, length: usize) -> usize {
        let near = length + 1 + self.random.below(64);
        let output = match self.random.below(100) {
            0..35 => length,
            35..45 => length - 1,
            45..50 => 0,
            50..75 => near,
            75..85 => PROGRAM_BYTES,
            85..93 => OUTPUT,
            _ => self.random.below(OUTPUT + 1),
        };
        output.min(OUTPUT)
    }

    /// Too many stored words, too long a slice or too long an output.
    fn unfit(&mut self, [slice, k, period, output, ..]: [usize; 6]) -> [usize; 6] {
        let most = self.random.draw() as usize;
        match self.random.below(3) {
            0 => [*self.random.pick(&[MEMORY + 1, most]), k, period, output, 0, 0],
            1 => [slice, *self.random.pick(&[RECORD, most]), period, output, 0, 0],
            _ => [slice, k, period, *self.random.pick(&[OUTPUT + 1, most]), 0, 0],
        }
    }
}
