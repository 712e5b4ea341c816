//! Random records of `explain` and of its twins over framed input: pairs that
//! differ in most cases, under masks or plain, and for both sides. Half come from random pairs, half are nests of their own,
//! where loops of any depth write an element again and again.

use super::changes::change;
use super::entries::{any_words, lengths, mask, record, words, RECORD};
use super::pairs::{bytes_of, frame};
use super::{Pairs, Random, ATTEMPTS};
use crate::compare::ALL;
use crate::input::split;
use crate::limits::ITEM_NESTING;
use crate::notation::parse;
use crate::reply::Reply;
use crate::tree::Source;
use crate::work::Work;

/// An endless stream of records.
pub struct Explanations {
    random: Random,
    pairs: Pairs,
    work: Work,
}

/// Two programs, and the arrays in which they are compared.
pub struct Masked {
    pub left: Vec<u8>,
    pub right: Vec<u8>,
    pub mask: u16,
}

impl Iterator for Explanations {
    type Item = Vec<u8>;

    fn next(&mut self) -> Option<Vec<u8>> {
        let Masked { left, right, mask } = self.pair();
        let garbage = any_words(&mut self.random);
        let side = self.random.below(2) as u8;
        let [low, high] = mask.to_le_bytes();
        // `explain`, `explain_input` and `explain_input_masked`.
        let entry = [34, 38, 44][self.random.weighted(&[70, 12, 18])];
        let head = if entry == 38 { vec![side] } else { vec![low, high, side] };
        let (first, pair) = match entry {
            34 => (left.len(), [left, right].concat()),
            _ => (0, frame(&left, &right)),
        };
        let lent = [words(&garbage), head, pair].concat();
        let [one, other, cells, terms] = lengths(&mut self.random, 1);
        let arguments = [first, one, other, cells, terms, garbage.len()];
        let mut record = record(entry, arguments, &lent);
        record.truncate(RECORD);
        Some(record)
    }
}

impl Explanations {
    pub fn new(seed: u64) -> Explanations {
        Explanations { random: Random::new(!seed), pairs: Pairs::new(seed), work: Work::default() }
    }

    /// The pair of the next record, for callers that need no record.
    pub fn pair(&mut self) -> Masked {
        let (left, right) = self.programs();
        let mask = self.mask(&left, &right);
        Masked { left, right, mask }
    }

    /// Mostly with the array that differs, or there is nothing to explain.
    fn mask(&mut self, left: &[u8], right: &[u8]) -> u16 {
        let mask = mask(&mut self.random);
        match self.work.programs_masked(left, right, ALL) {
            Reply::Differs { array, .. } if self.random.chance(70) => mask | 1 << array,
            _ => mask,
        }
    }

    fn programs(&mut self) -> (Vec<u8>, Vec<u8>) {
        let input = match self.random.below(100) {
            0..=39 => self.pairs.differs(),
            // Equal, refused or damaged as well.
            40..=51 => self.pairs.next().expect("endless"),
            _ => return self.nests(),
        };
        let (left, right) = split(&input).unwrap_or((&input, &[]));
        (left.to_vec(), right.to_vec())
    }

    /// Two nests that differ.
    fn nests(&mut self) -> (Vec<u8>, Vec<u8>) {
        let mut pair = (Vec::new(), Vec::new());
        for _ in 0..ATTEMPTS {
            let star = *self.random.pick(&["", "*"]);
            // Out elements that both sides leave unwritten come before most others.
            let (role, filling) = *self.random.pick(&[
                ("inout", ""),
                ("inout", ""),
                ("out", "for i = 39 to 0 step -1 { B[i] = const 4 }"),
                ("out", ""),
            ]);
            let head = format!("op f/2{star} array A in [8] array B {role} [40]");
            let left = nest(&mut self.random, &head, filling);
            let Some(right) = self.other(&left, &head, filling) else { continue };
            pair = (bytes_of(&left), bytes_of(&right));
            if matches!(self.work.programs_masked(&pair.0, &pair.1, ALL), Reply::Differs { .. }) {
                break;
            }
        }
        if self.random.chance(50) {
            (pair.1, pair.0)
        } else {
            pair
        }
    }

    /// The same with a change, or without its last items, or another nest.
    fn other(&mut self, source: &Source, head: &str, filling: &str) -> Option<Source> {
        match self.random.below(10) {
            0..=4 => change(source, &mut self.random),
            5..=7 => {
                let mut shorter = source.clone();
                shorter.items.truncate(self.random.below(source.items.len()));
                Some(shorter)
            }
            _ => Some(nest(&mut self.random, head, filling)),
        }
    }
}

/// Some statements and loops behind declarations and a first item that both
/// sides share, and locals, which nothing writes.
fn nest(random: &mut Random, head: &str, filling: &str) -> Source {
    let mut text = format!("{head} array C inout [2, 3]\n");
    if random.chance(30) {
        text += &format!("array T local [{}]\n", random.between(1, 5));
    }
    text += filling;
    if random.chance(35) {
        text += &before(random);
    }
    let depth = random.below(ITEM_NESTING + 1);
    text += &Nest { random, text: String::new(), levels: Vec::new() }.of(depth);
    if random.chance(20) {
        text += &before(random);
    }
    parse(&text).unwrap_or_else(|error| panic!("{error} in\n{text}"))
}

/// A write outside the nest, within one loop or none.
fn before(random: &mut Random) -> String {
    let (cell, name) = (random.below(16), random.below(3));
    match random.below(3) {
        0 => format!("B[{cell}] = const {name}\n"),
        1 => format!("for i = {cell} to 0 step -1 {{ B[i] = f(A[0], i) }}\n"),
        _ => format!("C[1, {}] = const {name}\n", cell % 3),
    }
}

/// A loop that is open: its bounds, and whether it has a guard in it.
struct Level {
    start: i32,
    step: i32,
    guarded: bool,
}

struct Nest<'a> {
    random: &'a mut Random,
    text: String,
    levels: Vec<Level>,
}

impl Nest<'_> {
    /// So many loops, with guards as far as the nesting allows, and a statement
    /// within them all; perhaps one more behind some inner loops.
    fn of(mut self, depth: usize) -> String {
        let mut guards = ITEM_NESTING - depth;
        for _ in 0..depth {
            self.open(depth);
            if guards > 0 && self.random.chance(15) {
                self.guard();
                guards -= 1;
            }
        }
        self.statement();
        while let Some(level) = self.levels.last() {
            self.text += if level.guarded { "}}\n" } else { "}\n" };
            self.levels.pop();
            if self.random.chance(5) {
                self.statement();
            }
        }
        self.text
    }

    /// Fewer rounds the more loops there are: some hundred altogether.
    fn open(&mut self, depth: usize) {
        let most = [8, 8, 8, 6, 3, 3, 2, 2, 2][depth];
        let rounds = self.random.between(1, most);
        let start = self.random.between(-40, 40);
        let step = *self.random.pick(&[1, 1, -1, -1, 2, -3]);
        let stop = start
            + step * (rounds - 1)
            + step.signum() * self.random.between(0, 1) * (step.abs() - 1);
        let name = self.levels.len();
        self.text += &format!("for i{name} = {start} to {stop} step {step} {{\n");
        self.levels.push(Level { start, step, guarded: false });
    }

    /// Passes in every round of the innermost loop, or in its first alone.
    fn guard(&mut self) {
        let name = self.levels.len() - 1;
        let level = &mut self.levels[name];
        level.guarded = true;
        let sign = if self.random.chance(50) { level.step.signum() } else { -level.step.signum() };
        self.text += &format!("if {} >= 0 {{\n", distance(name, level.start, sign));
    }

    fn statement(&mut self) {
        let target = match self.random.below(10) {
            0 => "C[0, 1]".to_string(),
            1..=4 => format!("B[{}]", self.random.below(8)),
            _ => format!("B[{}]", self.one_distance()),
        };
        let indices: String = (0..self.levels.len()).map(|name| format!(" + i{name}")).collect();
        let read = self.random.below(8);
        let value = match self.random.below(4) {
            0 => format!("A[{read}]"),
            1 => format!("const {read}"),
            _ => format!("f(A[{read}], {read}{indices})"),
        };
        self.text += &format!("{target} = {value}\n");
    }

    /// How far one of the loops has come: the others write the element again.
    fn one_distance(&mut self) -> String {
        if self.levels.is_empty() {
            return "3".to_string();
        }
        let name = self.random.below(self.levels.len());
        let Level { start, step, .. } = self.levels[name];
        distance(name, start, step.signum())
    }
}

/// How far the index is from its start, in the direction of the sign.
fn distance(name: usize, start: i32, sign: i32) -> String {
    let operator = if sign > 0 { '+' } else { '-' };
    format!("{} {operator} i{name}", -sign * start)
}
