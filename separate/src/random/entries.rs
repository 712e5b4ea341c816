//! Random records for `entries`: half of what is lent is random, half comes
//! from programs, with places inside them and a few bytes damaged.

use super::{Pairs, Random};
use crate::entries::numbers::{flat, Row, ROW};
use crate::limits::{CELL_WORDS, LIST_WORDS, PROGRAM_BYTES, TERM_WORDS};
use crate::read::read_tables;
use crate::tables::MARKED;

/// A record is no longer.
pub(super) const RECORD: usize = 65_536;

/// Pairs that programs are taken from; each is used some hundred times.
const POOL: usize = 32;

/// Entries with how often each is called. 0 stands for records that no entry
/// has.
#[rustfmt::skip]
const WEIGHTS: [(u8, usize); 42] = [
    (0, 1), (1, 3), (2, 1), (3, 1), (4, 1), (5, 2), (6, 2), (7, 3), (8, 3), (9, 4),
    (10, 2), (11, 2), (12, 3), (13, 3), (14, 3), (15, 4), (16, 3), (17, 2),
    (18, 12), (19, 12), (20, 6), (21, 5), (22, 6), (23, 6), (24, 1), (25, 2), (26, 2), (30, 8), (31, 3), (32, 3),
    (33, 3), (34, 3), (35, 2), (36, 3), (37, 3), (38, 3), (39, 3), (40, 5), (41, 3), (42, 2),
    (43, 4), (44, 4),
];

/// Words that give terms of kind 19 the mixes 0, 1, 2 …, so one bucket.
const CROWDED: (u32, u32) = (0u32.wrapping_sub(19), 1_537_457_537);

/// An endless stream of records.
pub struct Records {
    random: Random,
    pairs: Pairs,
    pool: Vec<Vec<u8>>,
}

impl Iterator for Records {
    type Item = Vec<u8>;

    fn next(&mut self) -> Option<Vec<u8>> {
        if self.random.chance(10) {
            let old = self.random.below(POOL);
            self.pool[old] = self.pairs.next()?;
        }
        let weights = WEIGHTS.map(|(_, weight)| weight);
        let (entry, _) = WEIGHTS[self.random.weighted(&weights)];
        let mut record = match entry {
            0 => self.unfit(),
            1..=9 | 24..=26 => self.single(entry),
            10..=17 => self.tabled(entry),
            18 | 19 => self.nested(entry),
            20..=23 => self.part(entry),
            30 => self.store(),
            31 | 32 | 34 | 38 | 43 | 44 => self.pair(entry),
            33 => self.reply(),
            35 => self.stretch(),
            36 => self.origin(),
            37 => self.explanation_line(),
            39 => self.pair_lengths(),
            40 => self.compare_pair(),
            _ => self.totals(entry),
        };
        record.truncate(RECORD);
        Some(record)
    }
}

pub(super) fn record(entry: u8, arguments: [usize; 6], lent: &[u8]) -> Vec<u8> {
    let arguments = arguments.map(|argument| (argument as u64).to_le_bytes());
    [&[entry], arguments.as_flattened(), lent].concat()
}

pub(super) fn words(words: &[u32]) -> Vec<u8> {
    words.iter().flat_map(|word| word.to_le_bytes()).collect()
}

/// Numbers at which something changes.
fn limits(length: usize) -> [usize; 22] {
    let most = usize::MAX;
    let (before, after) = (length.wrapping_sub(1), length + 1);
    let small = [0, 1, 2, 3, 7, 8, 9, 12, 13, 15, 16, 17, 255, 256, 65_535, 65_536];
    let large = [before, length, after, u32::MAX as usize, most - 1, most];
    std::array::from_fn(|k| if k < 16 { small[k] } else { large[k - 16] })
}

impl Records {
    pub fn new(seed: u64) -> Records {
        let mut pairs = Pairs::new(seed);
        let pool = pairs.by_ref().take(POOL).collect();
        Records { random: Random::new(!seed), pairs, pool }
    }

    /// Any number; a place within so many bytes in most cases.
    fn number(&mut self, length: usize) -> usize {
        match self.random.below(10) {
            0..=3 => self.random.below(length + 1),
            4 | 5 => self.random.below(20),
            6..=8 => *self.random.pick(&limits(length)),
            _ => self.random.draw() as usize,
        }
    }

    /// A number of loops, or another small number, or any.
    fn small(&mut self, most: usize) -> usize {
        if self.random.chance(80) {
            self.random.below(most + 1)
        } else {
            self.number(most)
        }
    }

    /// Bytes at random, or such as stand in programs.
    fn soup(&mut self) -> Vec<u8> {
        let length = if self.random.chance(2) { 17_000 } else { 60 };
        let length = self.random.below(length + 1);
        if self.random.chance(30) {
            return self.random.bytes(length);
        }
        let codes = [0, 0, 0, 1, 1, 2, 3, 4, 0x10, 0x11, 0x12, 0x13, 0xFF];
        (0..length).map(|_| *self.random.pick(&codes)).collect()
    }

    /// The two programs of a pair, as far as it is well framed.
    fn programs(&mut self) -> (Vec<u8>, Vec<u8>) {
        let input = self.random.pick(&self.pool);
        let Some((length, rest)) = input.split_first_chunk() else {
            return (Vec::new(), input.clone());
        };
        let left = usize::from(u16::from_le_bytes(*length)).min(rest.len());
        (rest[..left].to_vec(), rest[left..].to_vec())
    }

    fn program(&mut self) -> Vec<u8> {
        let (left, right) = self.programs();
        if self.random.chance(50) {
            left
        } else {
            right
        }
    }

    fn damage(&mut self, bytes: &mut [u8]) {
        if bytes.is_empty() || self.random.chance(60) {
            return;
        }
        for _ in 0..1 + self.random.below(4) {
            let place = self.random.below(bytes.len());
            bytes[place] = match self.random.below(20) {
                0..10 => self.random.below(20) as u8,
                10 => MARKED,
                _ => self.random.byte(),
            };
        }
    }

    fn bytes(&mut self) -> Vec<u8> {
        if self.random.chance(50) {
            return self.soup();
        }
        let mut bytes = self.program();
        self.damage(&mut bytes);
        bytes
    }

    /// The tables of some bytes, where they have any, or numbers at random.
    fn row(&mut self, bytes: &[u8]) -> Row {
        let Ok((tables, _)) = read_tables(bytes) else {
            let most = *self.random.pick(&[3, 4, 16, 2_000]);
            let arrays = [0, 17].map(|_| self.small(16));
            let mut row = std::array::from_fn(|_| self.small(most));
            self.marks(&mut row);
            [row[0], row[17]] = arrays;
            return row;
        };
        let mut row = flat(&tables);
        if self.random.chance(40) {
            for _ in 0..1 + self.random.below(4) {
                row[self.random.below(ROW)] = self.number(16);
            }
            self.marks(&mut row);
        }
        row
    }

    /// Some operators become marks, or numbers that are a mark but for some bits.
    fn marks(&mut self, row: &mut Row) {
        let mark = usize::from(MARKED);
        for operator in &mut row[1..=16] {
            if self.random.chance(20) {
                let near = *self.random.pick(&[2, 0x80, 0x83, 0x182, 0x8200, mark + (1 << 32)]);
                *operator = if self.random.chance(70) { mark } else { near };
            }
        }
    }

    /// A place where one of these bytes stands, or any.
    fn place(&mut self, bytes: &[u8], wanted: &[u8]) -> usize {
        let places: Vec<_> = (0..bytes.len()).filter(|&k| wanted.contains(&bytes[k])).collect();
        if places.is_empty() || self.random.chance(25) {
            self.number(bytes.len())
        } else {
            *self.random.pick(&places)
        }
    }

    /// Too short, or with a number that no entry has.
    fn unfit(&mut self) -> Vec<u8> {
        let length = self.random.below(120);
        let mut record = self.random.bytes(length);
        if let Some(entry) = record.first_mut() {
            *entry = *self.random.pick(&[0, 10, 18, 27, 29, 30, 31, 34, 40, 43, 44, 45, 255]);
        }
        record
    }

    fn single(&mut self, entry: u8) -> Vec<u8> {
        let bytes = self.bytes();
        let at = self.number(bytes.len());
        let other = self.number(bytes.len());
        record(entry, [at, other, 0, 0, 0, 0], &bytes)
    }

    fn tabled(&mut self, entry: u8) -> Vec<u8> {
        let bytes = self.bytes();
        let row = self.row(&bytes);
        // Most tables declare few operators.
        let declared = row[0].clamp(1, 16);
        let few = entry == 12 && self.random.chance(60);
        let a = if few { self.random.below(declared) } else { self.small(17) };
        let b = self.small(4);
        let row = row.map(|number| (number as u64).to_le_bytes());
        record(entry, [a, b, 0, 0, 0, 0], row.as_flattened())
    }

    /// One operator or guard in the other, at and around the limits; operators
    /// within the first argument where there are two.
    fn deep(&mut self, entry: u8, arity: usize) -> Vec<u8> {
        if entry == 18 {
            let leaf = [0x13, 1, 2, 3, 4];
            let depth = 10 + self.random.below(5);
            return [[0x11, 0].repeat(depth), leaf.repeat(1 + (arity - 1) * depth)].concat();
        }
        let depth = 6 + self.random.below(5);
        [[3, 0, 0].repeat(depth), vec![0; depth + 1]].concat()
    }

    /// An expression or items, over tables.
    fn nested(&mut self, entry: u8) -> Vec<u8> {
        if self.random.chance(5) {
            let mut row = self.row(&[]);
            let (operator, arity) = *self.random.pick(&[(1, 1), (2, 2), (usize::from(MARKED), 2)]);
            [row[0], row[1]] = [1, operator];
            let row = row.map(|number| (number as u64).to_le_bytes());
            let arguments = [0, if entry == 18 { 0 } else { 8 }, 0, 0, 0, 0];
            return record(
                entry,
                arguments,
                &[row.as_flattened(), &self.deep(entry, arity)].concat(),
            );
        }
        let mut bytes = if self.random.chance(40) { self.soup() } else { self.program() };
        let row = self.row(&bytes).map(|number| (number as u64).to_le_bytes());
        let first = read_tables(&bytes).map(|(_, first)| first);
        self.damage(&mut bytes);
        let arguments = if entry == 18 {
            let at = self.place(&bytes, &[0x10, 0x11, 0x12, 0x13]);
            let most = if self.random.chance(75) { 3 } else { 9 };
            [at, self.small(most), 0, 0, 0, 0]
        } else {
            match first {
                Ok(first) if self.random.chance(50) => [first, 8, 0, 0, 0, 0],
                _ => {
                    let at = self.place(&bytes, &[0, 1, 2, 3]);
                    let [left, loops] = self.depths();
                    [at, left, loops, 0, 0, 0]
                }
            }
        };
        record(entry, arguments, &[row.as_flattened(), &bytes].concat())
    }

    /// How deep items may still nest, and the loops around them: together
    /// at most eight, or around that, or anything.
    fn depths(&mut self) -> [usize; 2] {
        match self.random.below(10) {
            0..=4 => {
                let loops = self.random.below(9);
                [self.random.below(9 - loops), loops]
            }
            5..=7 => {
                let most = usize::MAX;
                let around =
                    [[8, 8], [8, 1], [8, 0], [3, 6], [3, 5], [0, 8], [0, 9], [9, 0], [most, 9]];
                *self.random.pick(&around)
            }
            _ => [self.small(9), self.small(3)],
        }
    }

    /// The start of a program in as many bytes as one may have, a few less or
    /// more.
    fn long(&mut self) -> Vec<u8> {
        let mut bytes = self.program();
        bytes.resize(PROGRAM_BYTES - 1 + self.random.below(4), 0);
        bytes
    }

    fn part(&mut self, entry: u8) -> Vec<u8> {
        let whole = entry >= 22;
        let bytes = if whole && self.random.chance(4) { self.long() } else { self.bytes() };
        let (at, loops) = (self.number(bytes.len()), self.small(9));
        let count = self.small(6);
        record(entry, [at, loops, count, 0, 0, 0], &bytes)
    }

    /// A script for the store, over zeros or over words that hold no store.
    fn store(&mut self) -> Vec<u8> {
        let odd = [0, 1, 8, TERM_WORDS - 1, TERM_WORDS + 1, 33_000, 33_001];
        let length = if self.random.chance(85) { TERM_WORDS } else { *self.random.pick(&odd) };
        let garbage = self.garbage();
        let period = if self.random.chance(80) { garbage.len() } else { self.number(33_000) };
        let steps = if self.random.chance(3) { 300 } else { 30 };
        let steps = 1 + self.random.below(steps);
        let script = (0..steps).flat_map(|_| self.step());
        let lent = [words(&garbage), script.collect()].concat();
        record(30, [length, garbage.len(), period, 0, 0, 0], &lent)
    }

    /// Nothing, or records whose links and heads are small, or anything.
    fn garbage(&mut self) -> Vec<u32> {
        match self.random.below(10) {
            0..=5 => Vec::new(),
            6..=8 => {
                let records = 1 + self.random.below(4);
                let link = |random: &mut Random| random.below(12) as u32;
                (0..records)
                    .flat_map(|_| {
                        let [array, cell] = self.cell();
                        let start = [16, array, cell, 0, 0, 0];
                        let node = if self.random.chance(50) { start } else { self.node() };
                        let links = [link(&mut self.random), link(&mut self.random)];
                        node.into_iter().chain(links)
                    })
                    .collect()
            }
            _ => (0..1 + self.random.below(30)).map(|_| self.random.draw() as u32).collect(),
        }
    }

    fn word(&mut self) -> u32 {
        if self.random.chance(95) {
            self.random.below(4) as u32
        } else {
            self.random.draw() as u32
        }
    }

    /// Array and cell of a start, few enough to be asked for.
    fn cell(&mut self) -> [u32; 2] {
        [self.random.below(2) as u32, self.random.below(2) as u32]
    }

    /// Few enough for a term to come again; some in one bucket.
    fn node(&mut self) -> [u32; 6] {
        match self.random.below(10) {
            0..=2 => {
                let [array, cell] = self.cell();
                [16, array, cell, 0, 0, 0]
            }
            3..=5 => {
                let (first, step) = CROWDED;
                [
                    19,
                    first.wrapping_add(step.wrapping_mul(self.random.below(12) as u32)),
                    0,
                    0,
                    0,
                    0,
                ]
            }
            6..=8 => [17, self.word(), self.word(), self.word(), self.word(), self.word()],
            _ => std::array::from_fn(|_| self.random.draw() as u32),
        }
    }

    fn step(&mut self) -> Vec<u8> {
        let code = self.random.weighted(&[4, 35, 6, 25, 5, 25]) as u8;
        let count = *self.random.pick(&[0, 1, 2, 5, 4_095, 4_096, 4_097, u32::MAX]);
        let numbers = match code {
            5 => {
                let low = self.random.below(8) as u32;
                let id = *self.random.pick(&[low, low, low, count, 4_096]);
                let [array, cell] = self.cell();
                [id, array, cell, 0, 0, 0, 0]
            }
            _ => {
                let [kind, payload, a, b, c, d] = self.node();
                [count, kind, payload, a, b, c, d]
            }
        };
        [vec![code], words(&numbers)].concat()
    }

    fn reply(&mut self) -> Vec<u8> {
        let numbers = std::array::from_fn(|_| self.number(2_048));
        record(33, numbers, &[])
    }

    /// Two programs or framed input, behind the mask and the side that the
    /// entry takes.
    fn pair(&mut self, entry: u8) -> Vec<u8> {
        let framed = !matches!(entry, 31 | 34);
        let (left, mut bytes) = if framed {
            (0, self.random.pick(&self.pool).clone())
        } else {
            let (left, right) = self.programs();
            (left.len(), [left, right].concat())
        };
        if self.random.chance(10) {
            bytes = self.soup();
        }
        self.damage(&mut bytes);
        // 43 and 44 have no first argument.
        let left = if entry > 40 || self.random.chance(90) {
            left.min(bytes.len())
        } else {
            self.number(bytes.len())
        };
        let mut head = Vec::new();
        if matches!(entry, 34 | 43 | 44) {
            head.extend(mask(&mut self.random).to_le_bytes());
        }
        if matches!(entry, 34 | 38 | 44) {
            head.push(self.side());
        }
        let short = !head.is_empty() && self.random.chance(2);
        let bytes = if short {
            head[..self.random.below(head.len() + 1)].to_vec()
        } else {
            [head, bytes].concat()
        };
        let [one, other, cells, terms] = lengths(&mut self.random, 8);
        let garbage = any_words(&mut self.random);
        let lent = [words(&garbage), bytes].concat();
        record(entry, [left, one, other, cells, terms, garbage.len()], &lent)
    }

    /// Any number but 0 is right.
    fn side(&mut self) -> u8 {
        let any = self.random.byte();
        *self.random.pick(&[0, 0, 0, 1, 1, any])
    }

    fn stretch(&mut self) -> Vec<u8> {
        let (left, right) = self.programs();
        let left_length =
            if self.random.chance(90) { left.len() } else { self.number(left.len() + right.len()) };
        let side = self.side();
        let chosen = if side == 0 { left.len() } else { right.len() };
        let (from, to) = (self.number(chosen), self.number(chosen));
        let (from, to) =
            if self.random.chance(70) { (from.min(to), from.max(to)) } else { (from, to) };
        let arguments = [left_length, usize::from(side), from, to, 0, 0];
        record(35, arguments, &[left, right].concat())
    }

    fn origin(&mut self) -> Vec<u8> {
        let program = if self.random.chance(85) { self.program() } else { self.bytes() };
        let (array, cell) = (self.small(3), self.small(6));
        let [length, ..] = lengths(&mut self.random, 8);
        let garbage = any_words(&mut self.random);
        let lent = [words(&garbage), program].concat();
        record(36, [array, cell, length, 0, 0, garbage.len()], &lent)
    }

    fn explanation_line(&mut self) -> Vec<u8> {
        let mut numbers = std::array::from_fn(|_| self.number(2_048));
        numbers[5] = self.small(8);
        let bytes = if self.random.chance(80) { 16 } else { self.random.below(20) };
        let indices = self.random.bytes(bytes);
        record(37, numbers, &indices)
    }

    /// Nothing, a part of both lengths, or both and more.
    fn pair_lengths(&mut self) -> Vec<u8> {
        let mut bytes = stated(&mut self.random).map(u16::to_le_bytes).concat();
        match self.random.below(10) {
            0 => bytes.clear(),
            1..=3 => bytes.truncate(1 + self.random.below(3)),
            4..=6 => bytes.extend(self.soup()),
            _ => {}
        }
        record(39, [0; 6], &bytes)
    }

    /// Two programs behind lengths, which are true in most cases, with bytes
    /// behind them or some missing.
    fn compare_pair(&mut self) -> Vec<u8> {
        let (mut left, mut right) = self.programs();
        if self.random.chance(8) {
            let long = if self.random.chance(40) { &mut left } else { &mut right };
            long.resize(PROGRAM_BYTES - 1 + self.random.below(4), 0);
        }
        let mut bytes = [&left[..], &right].concat();
        let stated = self.lengths_of([left.len(), right.len()], bytes.len());
        self.damage(&mut bytes);
        match self.random.below(8) {
            0 => bytes.extend(self.soup()),
            1 => bytes.truncate(self.number(bytes.len())),
            _ => {}
        }
        let [one, other, cells, terms] = lengths(&mut self.random, 6);
        let garbage = any_words(&mut self.random);
        let stated = stated.map(|length| (length as u64).to_le_bytes());
        let mut lent = [&words(&garbage)[..], stated.as_flattened(), &bytes].concat();
        if self.random.chance(2) {
            lent.truncate(4 * garbage.len() + self.random.below(17));
        }
        record(40, [0, one, other, cells, terms, garbage.len()], &lent)
    }

    /// These lengths; one less or more; any numbers; or such whose sum has more
    /// than 64 bits.
    fn lengths_of(&mut self, mut stated: [usize; 2], length: usize) -> [usize; 2] {
        let most = usize::MAX;
        match self.random.below(10) {
            0 | 1 => {
                let one = &mut stated[self.random.below(2)];
                *one = if self.random.chance(50) { *one + 1 } else { one.saturating_sub(1) };
                stated
            }
            2 => stated.map(|_| self.number(length)),
            3 => *self.random.pick(&[[most, 1], [1, most], [most - 33, 34], [1 << 63; 2]]),
            _ => stated,
        }
    }

    /// Totals and, to count, a number for the reply.
    fn totals(&mut self, entry: u8) -> Vec<u8> {
        let arguments = std::array::from_fn(|_| total(&mut self.random));
        let count = (total(&mut self.random) as u64).to_le_bytes();
        record(entry, arguments, if entry == 41 { &count } else { &[] })
    }
}

/// One that can't grow, or hardly; one at which a digit is added; or any.
fn total(random: &mut Random) -> usize {
    match random.below(5) {
        0 => usize::MAX - random.below(3),
        1 => 10usize.pow(random.below(20) as u32) - random.below(2),
        2 => random.draw() as usize,
        3 => random.below(10),
        _ => random.below(70_000),
    }
}

/// Numbers of two lengths of a pair in a batch, mostly such as they may be.
fn stated(random: &mut Random) -> [u16; 2] {
    let limits = [0, 1, 34, 255, 256, 16_383, 16_384];
    let beyond = [16_385, 16_640, 32_767, 32_768, 65_535];
    [(); 2].map(|()| match random.below(10) {
        0..=6 => *random.pick(&limits),
        7 | 8 => *random.pick(&beyond),
        _ => random.draw() as u16,
    })
}

/// The words of each memory of a compare, each of them odd in so many of a
/// hundred calls.
pub(super) fn lengths(random: &mut Random, odd_ones: usize) -> [usize; 4] {
    let odd =
        [0, 1, CELL_WORDS - 1, CELL_WORDS, CELL_WORDS + 1, LIST_WORDS - 1, LIST_WORDS + 1, 33_000];
    let enough = [LIST_WORDS, LIST_WORDS, CELL_WORDS, TERM_WORDS];
    enough.map(|length| if random.chance(odd_ones) { *random.pick(&odd) } else { length })
}

/// What memory holds: zeros, or some words again and again.
pub(super) fn any_words(random: &mut Random) -> Vec<u32> {
    (0..random.below(9)).map(|_| random.draw() as u32).collect()
}

/// All bits, one of them, or any.
pub(super) fn mask(random: &mut Random) -> u16 {
    match random.below(20) {
        0..=10 => u16::MAX,
        11..=13 => 1 << random.below(4),
        14 => 1 << random.below(16),
        _ => random.draw() as u16,
    }
}
