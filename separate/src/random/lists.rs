//! Random pairs of update lists.

use std::ops::Range;

use super::programs::{program, tables};
use super::unwritten::unwritten;
use super::{templates, Random};
use crate::compare::ALL;
use crate::limits::{CELLS, LIST_WORDS, NODES, OPERATOR_NESTING, UPDATES};
use crate::list::{code, decode, write_header, List, Record, HEADER};
use crate::reply::Reply;
use crate::stream::{ListPair, Stored};
use crate::tables::{arity, Array, Role, Tables, MARKED};
use crate::tree::{encode, Declaration};
use crate::work::Work;

/// An endless stream of list pairs.
pub struct ListPairs {
    random: Random,
    work: Work,
}

impl Iterator for ListPairs {
    type Item = ListPair;

    fn next(&mut self) -> Option<ListPair> {
        let base = self.list();
        let mask = self.mask(&base);
        let (left, right) = self.pair(base);
        // The longer slices change nothing; both sides come in either order.
        let (left, right) = (self.stored(left), self.stored(right));
        let swapped = self.random.chance(50);
        let (left, right) = if swapped { (right, left) } else { (left, right) };
        let mut pair = ListPair { mask, left, right };
        if self.random.chance(5) {
            self.shorten(&mut pair);
        }
        Some(pair)
    }
}

/// A list taken apart: each update is its own record and those of its
/// expression.
#[derive(Clone)]
pub struct Parts {
    pub tables: Tables,
    pub updates: Vec<Vec<Record>>,
}

impl Parts {
    pub fn of(list: &List) -> Parts {
        let updates = list.updates().map(|(update, expression)| {
            let mut records = vec![*update];
            records.extend(expression);
            records
        });
        Parts { tables: list.tables.clone(), updates: updates.collect() }
    }

    /// The words of the list without the zeros after it.
    pub fn words(&self) -> Vec<u32> {
        let mut header = [0; HEADER];
        write_header(&self.tables, &mut header);
        let mut words = header.to_vec();
        words.extend(self.updates.iter().flatten().flatten());
        words
    }

    /// A random order that keeps conflicting updates as they are.
    pub fn reordered(&self, random: &mut Random) -> Parts {
        let (mut waits, followers) = self.dependences();
        let mut ready: Vec<_> = (0..waits.len()).filter(|&update| waits[update] == 0).collect();
        let mut updates = Vec::new();
        while !ready.is_empty() {
            let update = ready.swap_remove(random.below(ready.len()));
            updates.push(self.updates[update].clone());
            for &follower in &followers[update] {
                waits[follower] -= 1;
                if waits[follower] == 0 {
                    ready.push(follower);
                }
            }
        }
        Parts { tables: self.tables.clone(), updates }
    }

    /// Arguments of marked operators change places, at any depth.
    pub fn swapped(&self, random: &mut Random) -> Parts {
        let mut parts = self.clone();
        for records in &mut parts.updates {
            for at in 1..records.len() {
                if operator(&self.tables, &records[at]) == Some(MARKED) && random.chance(50) {
                    swap_arguments(&self.tables, records, at);
                }
            }
        }
        parts
    }

    /// The out elements that no update writes, by array and cell.
    fn unwritten(&self) -> Vec<(usize, usize)> {
        let words = self.words();
        let list = List { tables: self.tables.clone(), records: words[HEADER..].as_chunks().0 };
        unwritten(&list)
    }

    /// How many updates each one has to wait for, and which wait for it. Going
    /// by the last write of a cell and the reads since is enough: the rest of
    /// the conflicts follow.
    fn dependences(&self) -> (Vec<usize>, Vec<Vec<usize>>) {
        let count = self.updates.len();
        let mut waits = vec![0; count];
        let mut followers = vec![Vec::new(); count];
        let mut writer: Vec<Option<usize>> = vec![None; CELLS];
        let mut readers: Vec<Vec<usize>> = vec![Vec::new(); CELLS];
        for (update, records) in self.updates.iter().enumerate() {
            let cell =
                |record: &Record| self.tables.first_cell(record[1] as usize) + record[2] as usize;
            let mut before = Vec::new();
            let reads = records[1..].iter().filter(|record| record[0] == code::READ).map(cell);
            for read in reads {
                before.extend(writer[read]);
                readers[read].push(update);
            }
            let target = cell(&records[0]);
            before.extend(writer[target]);
            before.append(&mut readers[target]);
            writer[target] = Some(update);
            before.retain(|&earlier| earlier != update);
            for earlier in before {
                waits[update] += 1;
                followers[earlier].push(update);
            }
        }
        (waits, followers)
    }
}

/// The byte of the operator that a record is, if it is one.
fn operator(tables: &Tables, record: &Record) -> Option<u8> {
    (record[0] == code::OPERATOR).then(|| tables.operators()[record[1] as usize])
}

/// The place behind the expression at a place.
fn behind(tables: &Tables, records: &[Record], mut at: usize) -> usize {
    let mut missing = 1;
    while missing > 0 {
        missing -= 1;
        missing +=
            operator(tables, &records[at]).map_or(0, |operator| usize::from(arity(operator)));
        at += 1;
    }
    at
}

/// The first two arguments of the operator at a place change places.
fn swap_arguments(tables: &Tables, records: &mut [Record], at: usize) {
    let first = at + 1;
    let second = behind(tables, records, first);
    let end = behind(tables, records, second);
    records[first..end].rotate_left(second - first);
}

/// f(f(a, b), c) at a place becomes f(a, f(b, c)).
fn regroup(tables: &Tables, records: &mut Vec<Record>, at: usize) {
    let inner = records.remove(at + 1);
    let first = behind(tables, records, at + 1);
    records.insert(first, inner);
}

impl ListPairs {
    pub fn new(seed: u64) -> ListPairs {
        ListPairs { random: Random::new(seed), work: Work::default() }
    }

    fn pair(&mut self, base: Parts) -> (Vec<u32>, Vec<u32>) {
        let words = base.words();
        match self.random.below(100) {
            0..5 => (words.clone(), words),
            5..35 => (self.rearranged(&base).words(), words),
            35..65 => {
                let changed = self.changed(&base, &words);
                (words, changed.words())
            }
            65..85 => {
                let mut other = self.rearranged(&base).words();
                self.damage(&mut other);
                (words, other)
            }
            85..88 => (words, self.at_limit(&base).words()),
            88..90 => (words, self.list().words()),
            90..91 => self.many_terms(),
            91..92 => self.many_sums(),
            92..98 => {
                let mut other = words.clone();
                self.change_table(&mut other);
                (words, other)
            }
            _ => {
                let mut other = words.clone();
                self.damage_behind(&mut other);
                (words, other)
            }
        }
    }

    /// A new order, and other orders of arguments that may swap.
    fn rearranged(&mut self, parts: &Parts) -> Parts {
        let parts = parts.reordered(&mut self.random);
        if self.random.chance(70) {
            parts.swapped(&mut self.random)
        } else {
            parts
        }
    }

    /// Any; often without the out arrays that have unwritten elements, which
    /// would be a difference whatever the pair is.
    fn mask(&mut self, base: &Parts) -> u16 {
        let mask = match self.random.below(8) {
            0..4 => u16::MAX,
            4 => 1 << self.random.below(6),
            5 => *self.random.pick(&[0, 0x8000, 0x7FFF, 1]),
            _ => self.random.draw() as u16,
        };
        if self.random.chance(50) {
            return mask;
        }
        base.unwritten().iter().fold(mask, |mask, (array, _)| mask & !(1 << array))
    }

    /// Mostly the shortest slice that is long enough.
    fn stored(&mut self, words: Vec<u32>) -> Stored {
        let more = if self.random.chance(10) { self.random.below(2_000) } else { 0 };
        Stored { length: (LIST_WORDS + more).max(words.len()), words }
    }

    fn shorten(&mut self, pair: &mut ListPair) {
        let side = if self.random.chance(50) { &mut pair.left } else { &mut pair.right };
        let below = self.random.below(LIST_WORDS);
        side.length = *self.random.pick(&[0, 1, 97, 98, below, LIST_WORDS - 1, LIST_WORDS - 1]);
        side.words.truncate(side.length);
    }

    /// An accepted list, mostly one that leaves no out element unwritten.
    pub(super) fn list(&mut self) -> Parts {
        let mut parts = self.any_list();
        if self.random.chance(70) {
            self.complete(&mut parts);
        }
        parts
    }

    /// Writes each out element that is missing, before all other updates or
    /// behind them; where these would be too many, out arrays become inout.
    fn complete(&mut self, parts: &mut Parts) {
        let missing = parts.unwritten();
        let nodes: usize = parts.updates.iter().map(|records| records.len() - 1).sum();
        if parts.updates.len() + missing.len() > UPDATES || nodes + missing.len() > NODES {
            parts.tables = with_inout(&parts.tables);
            return;
        }
        let at = *self.random.pick(&[0, parts.updates.len()]);
        let value = constant(self.random.below(9));
        let update =
            |(array, cell): (usize, usize)| vec![[code::UPDATE, array as u32, cell as u32], value];
        parts.updates.splice(at..at, missing.into_iter().map(update));
    }

    /// From a program or made up.
    fn any_list(&mut self) -> Parts {
        if self.random.chance(40) {
            return self.made_up();
        }
        let source = match self.random.below(100) {
            0..3 => templates::large(&mut self.random),
            3..15 => templates::nest(&mut self.random),
            _ => program(&mut self.random, &mut self.work),
        };
        match self.work.unroll(&encode(&source).bytes) {
            Ok(words) => Parts::of(&decode(words).expect("an unrolled list is accepted")),
            Err(_) => self.made_up(),
        }
    }

    fn made_up(&mut self) -> Parts {
        let (operators, arrays) = tables(&mut self.random);
        let mut maker = ListMaker::new(&mut self.random, &operators, &arrays);
        let many = if maker.random.chance(2) { UPDATES } else { 16 };
        for _ in 0..maker.random.below(many) {
            maker.update();
        }
        Parts { tables: maker.tables, updates: maker.updates }
    }

    /// A new order with one change, if possible one that makes a difference.
    fn changed(&mut self, base: &Parts, words: &[u32]) -> Parts {
        let base_slice = Stored { length: LIST_WORDS, words: words.to_vec() }.slice();
        let mut other = base.clone();
        for _ in 0..8 {
            other = self.rearranged(base);
            self.change(&mut other);
            let slice = Stored { length: LIST_WORDS, words: other.words() }.slice();
            if matches!(self.work.lists(&base_slice, &slice, ALL), Reply::Differs { .. }) {
                break;
            }
        }
        other
    }

    /// One change; the list may or may not stay accepted.
    fn change(&mut self, parts: &mut Parts) {
        if parts.updates.is_empty() {
            return;
        }
        match self.random.below(20) {
            0 | 1 => self.change_arguments(parts),
            2 | 3 => self.regroup(parts),
            4..7 => drop(parts.updates.remove(self.random.below(parts.updates.len()))),
            _ => self.change_record(parts),
        }
    }

    /// One of the operators that are wanted, by its update and place.
    fn find_operator(
        &mut self,
        parts: &Parts,
        wanted: impl Fn(u8, &[Record]) -> bool,
    ) -> Option<(usize, usize)> {
        let mut found = Vec::new();
        for (update, records) in parts.updates.iter().enumerate() {
            let is_wanted = |&at: &usize| {
                operator(&parts.tables, &records[at]).is_some_and(|own| wanted(own, &records[at..]))
            };
            found.extend((1..records.len()).filter(is_wanted).map(|at| (update, at)));
        }
        (!found.is_empty()).then(|| *self.random.pick(&found))
    }

    fn change_arguments(&mut self, parts: &mut Parts) {
        let unmarked = |operator, _: &[Record]| operator != MARKED && arity(operator) > 1;
        if let Some((update, at)) = self.find_operator(parts, unmarked) {
            swap_arguments(&parts.tables, &mut parts.updates[update], at);
        }
    }

    fn regroup(&mut self, parts: &mut Parts) {
        let twice = |operator, records: &[Record]| arity(operator) == 2 && records[0] == records[1];
        if let Some((update, at)) = self.find_operator(parts, twice) {
            regroup(&parts.tables, &mut parts.updates[update], at);
        }
    }

    /// One record becomes another.
    fn change_record(&mut self, parts: &mut Parts) {
        let random = &mut self.random;
        let update = random.below(parts.updates.len());
        let records = &mut parts.updates[update];
        let at = random.below(records.len());
        let by = *random.pick(&[1, u32::MAX, 2]);
        match records[at] {
            [code::UPDATE | code::READ, _, ref mut cell] => *cell = cell.wrapping_add(by),
            [_, ref mut value, _] => *value = value.wrapping_add(by),
        }
        if random.chance(15) {
            let other = random.below(parts.updates.len());
            parts.updates.swap(update, other);
        }
    }

    pub(super) fn damage(&mut self, words: &mut Vec<u32>) {
        for _ in 0..1 + self.random.below(4) {
            // Header words decide much and are few, so they get their share.
            let most = if self.random.chance(40) { HEADER } else { words.len() + 6 };
            let at = self.random.below(most);
            words.resize(words.len().max(at + 1), 0);
            words[at] = self.other_word(words[at]);
        }
    }

    fn other_word(&mut self, word: u32) -> u32 {
        match self.random.below(8) {
            0 => 0,
            1 => word.wrapping_add(1),
            2 => word.wrapping_sub(1),
            3 => *self.random.pick(&[1, 16, 17, 18, 19, u32::from(MARKED)]),
            4 => self.random.below(20) as u32,
            5 => word ^ 1 << self.random.below(32),
            6 => *self.random.pick(&[3, 4, 5, 1_024, 1_025, 2_048, u32::MAX]),
            _ => self.random.draw() as u32,
        }
    }

    /// Another role, extent, operator or mark, or an operator more: 22 or 23 if
    /// the list stays accepted.
    pub(super) fn change_table(&mut self, words: &mut [u32]) {
        let operators = words[0] as usize;
        let other = u32::from(*self.random.pick(&[1, 2, 3, 4, MARKED]));
        match self.random.below(6) {
            0 if operators < 16 => {
                words[0] += 1;
                words[1 + operators] = other;
            }
            1 if operators > 0 => words[operators] = other,
            2 | 3 if operators > 0 => {
                let number = 1 + self.random.below(operators);
                words[number] = self.other_mark(words[number]);
            }
            4 => words[18 + 5 * self.random.below(4)] = self.random.below(4) as u32,
            _ => {
                let extent = &mut words[20 + 5 * self.random.below(4) + self.random.below(3)];
                *extent = extent.wrapping_add(*self.random.pick(&[1, 1, 2, u32::MAX]));
            }
        }
    }

    /// An operator of two arguments gets a mark or loses it; or a word that is
    /// a mark's but for some bits.
    fn other_mark(&mut self, word: u32) -> u32 {
        match word {
            2 if self.random.chance(60) => u32::from(MARKED),
            130 if self.random.chance(60) => 2,
            _ => *self.random.pick(&[128, 131, 0x42, 0x182, 0x8200, 0x1_0082, 0x8000_0082]),
        }
    }

    /// A word that should be zero, near the list's end or at the very last.
    fn damage_behind(&mut self, words: &mut Vec<u32>) {
        let near = words.len() + self.random.below(9);
        let at = *self.random.pick(&[near, near, near, 30_817, 30_818, LIST_WORDS - 1, 33_000]);
        words.resize(words.len().max(at + 1), 0);
        words[at] = 1 + self.random.below(20) as u32;
    }

    /// A list at a limit, or one beyond it.
    fn at_limit(&mut self, base: &Parts) -> Parts {
        let mut parts = base.clone();
        let over = self.random.below(2);
        let writable = |&array: &usize| parts.tables.arrays()[array].role != Role::In;
        let target = (0..parts.tables.arrays().len()).find(writable).expect("always one") as u32;
        let update = vec![[code::UPDATE, target, 0], [code::LITERAL, 7, 0]];
        let Some(arity) = parts.tables.operators().first().map(|&operator| arity(operator)) else {
            parts.updates.resize(UPDATES + over, update);
            return parts;
        };
        match self.random.below(3) {
            0 => parts.updates.resize(UPDATES + over, update),
            1 => {
                let mut records = vec![update[0]];
                deep(arity, OPERATOR_NESTING + over, &mut records);
                parts.updates.push(records);
            }
            _ => {
                // As many nodes as are missing: operators over literals, and
                // single literals for what they leave.
                let mut whole = vec![update[0], [code::OPERATOR, 0, 0]];
                whole.extend(vec![update[1]; usize::from(arity)]);
                let held: usize = parts.updates.iter().map(|records| records.len() - 1).sum();
                let mut missing = NODES + over - held;
                while missing >= whole.len() - 1 && parts.updates.len() < UPDATES {
                    missing -= whole.len() - 1;
                    parts.updates.push(whole.clone());
                }
                parts.updates.extend(vec![update; missing.min(UPDATES)]);
            }
        }
        parts
    }

    /// 4,096 terms, a few more or a few less, about half of them on each side.
    fn many_terms(&mut self) -> (Vec<u32>, Vec<u32>) {
        let role = *self.random.pick(&[Role::Out, Role::Inout]);
        let side = |first: usize, names: Range<usize>| {
            let literals =
                (first..first + 1_024).map(|value| vec![[code::OPERATOR, 0, 0], literal(value)]);
            let constants = names.map(|name| vec![constant(name)]);
            in_a_row(role, 1, literals.chain(constants).collect()).words()
        };
        let overlap = self.random.below(3);
        let (left, right) = (self.random.below(4), self.random.below(4));
        (side(0, 0..left), side(1_024 - overlap, 10..10 + right))
    }

    /// 4,096 terms up to swaps, or one more, all but that one on both sides.
    fn many_sums(&mut self) -> (Vec<u32>, Vec<u32>) {
        let role = *self.random.pick(&[Role::Out, Role::Inout]);
        let side = |random: &mut Random, more: bool| {
            let both = (0..1_023).flat_map(|first| [[first, first + 1_024], [first, first + 1]]);
            let of_literals = both.map(|both| both.map(literal));
            let sums = of_literals.chain([[0, 1].map(constant)]);
            let sums = sums.map(|[one, other]| vec![[code::OPERATOR, 0, 0], one, other]);
            let more = more.then(|| vec![constant(2)]);
            in_a_row(role, MARKED, sums.chain(more).collect()).swapped(random).words()
        };
        let (left, right) = (self.random.chance(25), self.random.chance(25));
        (side(&mut self.random, left), side(&mut self.random, right))
    }
}

fn literal(value: usize) -> Record {
    [code::LITERAL, value as u32, 0]
}

fn constant(name: usize) -> Record {
    [code::CONSTANT, name as u32, 0]
}

/// One operator, and a cell of one array for each expression; the array has
/// more cells.
fn in_a_row(role: Role, operator: u8, expressions: Vec<Vec<Record>>) -> Parts {
    let array = Declaration { role, extents: vec![1_024, 2] };
    let tables = tables_of(&[operator], &[array]);
    let update = |(cell, mut expression): (usize, Vec<Record>)| {
        expression.insert(0, [code::UPDATE, 0, cell as u32]);
        expression
    };
    Parts { tables, updates: expressions.into_iter().enumerate().map(update).collect() }
}

/// Operators `levels` deep, first argument first.
pub(super) fn deep(arity: u8, levels: usize, records: &mut Vec<Record>) {
    records.extend(vec![[code::OPERATOR, 0, 0]; levels]);
    let leaves = 1 + levels * (usize::from(arity) - 1);
    records.extend(vec![[code::CONSTANT, 3, 0]; leaves]);
}

fn tables_of(operators: &[u8], arrays: &[Declaration]) -> Tables {
    let array = |array: &Declaration| {
        let mut extents = [0; 3];
        extents[..array.extents.len()].copy_from_slice(&array.extents);
        Array { role: array.role, dimensions: array.extents.len(), extents }
    };
    tables_with(operators, arrays.iter().map(array))
}

fn tables_with(operators: &[u8], arrays: impl Iterator<Item = Array>) -> Tables {
    let mut tables = Tables::default();
    operators.iter().for_each(|&operator| tables.add_operator(operator));
    for array in arrays {
        tables.add_array(array);
    }
    tables
}

/// The tables with inout for out.
fn with_inout(tables: &Tables) -> Tables {
    let array = |&array: &Array| match array.role {
        Role::Out => Array { role: Role::Inout, ..array },
        _ => array,
    };
    tables_with(tables.operators(), tables.arrays().iter().map(array))
}

/// Makes accepted lists that no loop program need have.
struct ListMaker<'a> {
    random: &'a mut Random,
    tables: Tables,
    updates: Vec<Vec<Record>>,
    nodes: usize,
    written: Vec<bool>,
}

impl<'a> ListMaker<'a> {
    fn new(random: &'a mut Random, operators: &[u8], arrays: &[Declaration]) -> ListMaker<'a> {
        let tables = tables_of(operators, arrays);
        let written = vec![false; CELLS];
        ListMaker { random, tables, updates: Vec::new(), nodes: 0, written }
    }

    /// Adds one update if its nodes are not too many.
    fn update(&mut self) {
        let arrays = self.tables.arrays();
        let targets: Vec<_> = (0..arrays.len()).filter(|&a| arrays[a].role != Role::In).collect();
        let target = *self.random.pick(&targets);
        let cell = self.random.below(arrays[target].cells());
        let mut records = vec![[code::UPDATE, target as u32, cell as u32]];
        let levels = *self.random.pick(&[0, 0, 1, 1, 2]);
        self.expression(levels, &mut records);
        let nodes = records.len() - 1;
        if self.nodes + nodes <= NODES {
            self.nodes += nodes;
            self.updates.push(records);
            self.written[self.tables.first_cell(target) + cell] = true;
        }
    }

    fn expression(&mut self, levels: usize, records: &mut Vec<Record>) {
        let operators = self.tables.operators().len();
        if levels == 0 || operators == 0 {
            records.push(self.leaf());
            return;
        }
        let number = self.random.below(operators);
        records.push([code::OPERATOR, number as u32, 0]);
        for _ in 0..arity(self.tables.operators()[number]) {
            let below = self.random.below(levels);
            self.expression(below, records);
        }
    }

    fn leaf(&mut self) -> Record {
        let array = self.random.below(self.tables.arrays().len());
        let declared = self.tables.arrays()[array];
        let cell = self.random.below(declared.cells());
        let written = self.written[self.tables.first_cell(array) + cell];
        if self.random.chance(70) && (declared.role.starts_alike() || written) {
            return [code::READ, array as u32, cell as u32];
        }
        let wide = if self.random.chance(20) { usize::MAX } else { 6 };
        let value = self.random.below(wide) as u32;
        [*self.random.pick(&[code::LITERAL, code::CONSTANT]), value, 0]
    }
}

#[cfg(test)]
mod tests {
    use super::*;

    /// With a = g(1), b = 2 and c = 3, and with a = 1, b = g(2) and c = 3.
    #[test]
    fn arguments_are_moved_whole() {
        let tables = tables_of(&[2, 1], &[]);
        let [f, g] = [0, 1].map(|number| [code::OPERATOR, number, 0]);
        let [one, two, three] = [1, 2, 3].map(literal);
        for (left, right) in [
            (vec![f, f, g, one, two, three], vec![f, g, one, f, two, three]),
            (vec![f, f, one, g, two, three], vec![f, one, f, g, two, three]),
        ] {
            let mut records = left;
            regroup(&tables, &mut records, 0);
            assert_eq!(records, right);
        }
        let mut records = vec![f, g, one, f, two, three];
        swap_arguments(&tables, &mut records, 0);
        assert_eq!(records, [f, f, two, three, g, one]);
        swap_arguments(&tables, &mut records, 1);
        assert_eq!(records, [f, f, three, two, g, one]);
    }
}
