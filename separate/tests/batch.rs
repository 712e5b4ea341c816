//! Many pairs in one input.

mod common;
use std::io::{self, Read};

use common::{l_with, line_all, L};
use separate::batch::{answer, pairs, Totals, PAIRS};
use separate::compare::ALL;
use separate::random::Pairs;
use separate::{line_of, line_of_totals, Reply, Side, Work};

const CUT: &str = "refused input 1 0";

/// A pair as a batch holds it, with these lengths, whatever the bytes are.
fn stated(left: usize, right: usize, bytes: &[u8]) -> Vec<u8> {
    let length = |number: usize| (number as u16).to_le_bytes();
    [&length(left), &length(right), bytes].concat()
}

fn pair(left: &[u8], right: &[u8]) -> Vec<u8> {
    stated(left.len(), right.len(), &[left, right].concat())
}

/// Pairs of each kind of reply, with their lines.
fn some_pairs() -> Vec<(Vec<u8>, &'static str)> {
    let backwards = l_with(&[(16, 1), (18, 0), (20, 0xFF), (21, 0xFF)]);
    vec![
        (pair(&L, &backwards), "equal 2"),
        (pair(&L, &l_with(&[(18, 0)])), "differs 1 1"),
        (pair(&L, &L[..33]), "refused right 3 33"),
        (pair(&[], &L), "refused left 3 0"),
        (pair(&L, &L), "equal 2"),
    ]
}

fn joined(pairs: &[(Vec<u8>, &str)]) -> Vec<u8> {
    pairs.iter().flat_map(|(bytes, _)| bytes.clone()).collect()
}

/// The totals of some lines, from their words.
fn totals(lines: &[String]) -> String {
    let of = |kind: &str| lines.iter().filter(|line| line.starts_with(kind)).count();
    let counts = lines.iter().filter_map(|line| line.strip_prefix("equal "));
    let elements: u64 = counts.map(|count| count.parse::<u64>().unwrap()).sum();
    let [equal, differs, refused] = ["equal ", "differs ", "refused "].map(of);
    let all = lines.len();
    assert_eq!(equal + differs + refused, all);
    format!("pairs {all} equal {equal} differs {differs} refused {refused} elements {elements}")
}

/// What is printed where the pairs have these lines.
fn printed(lines: &[String]) -> String {
    let all = lines.iter().cloned().chain([totals(lines)]);
    all.map(|line| line + "\n").collect()
}

/// The lines of a batch by the definition, over places in the whole of it.
fn model(batch: &[u8]) -> Vec<String> {
    let (mut at, mut lines) = (0, Vec::new());
    while at < batch.len() && lines.len() < 65_535 {
        let left_behind = batch.len() - at;
        if left_behind < 4 {
            lines.push(CUT.to_string());
            return lines;
        }
        let length = |place: usize| usize::from(batch[place]) + 256 * usize::from(batch[place + 1]);
        let (left, right) = (length(at), length(at + 2));
        let refusal = if left > 16_384 {
            "refused left 2 0"
        } else if right > 16_384 {
            "refused right 2 0"
        } else if left_behind - 4 < left + right {
            CUT
        } else {
            let middle = at + 4 + left;
            lines.push(line_all(&batch[at + 4..middle], &batch[middle..middle + right]));
            at = middle + right;
            continue;
        };
        lines.push(refusal.to_string());
        return lines;
    }
    lines
}

/// The output for a batch: as it is read, which the split in memory must give too.
fn output(batch: &[u8]) -> String {
    let mut out = Vec::new();
    let totals = answer(batch, &mut out).unwrap();
    let out = String::from_utf8(out).unwrap();
    assert!(out.ends_with(&format!("{}\n", line_of_totals(totals))));
    let (mut work, mut split, mut lines) = (Work::default(), Totals::default(), String::new());
    for pair in pairs(batch) {
        let reply =
            pair.map_or_else(|no| no, |(left, right)| work.programs_masked(left, right, ALL));
        split.count(reply);
        lines += &format!("{}\n", line_of(reply));
    }
    assert_eq!(split, totals);
    assert_eq!(lines + &format!("{}\n", line_of_totals(split)), out);
    out
}

#[test]
fn known_lines_and_totals() {
    let batch = joined(&some_pairs());
    let lines = "equal 2\ndiffers 1 1\nrefused right 3 33\nrefused left 3 0\nequal 2\n";
    let totals = "pairs 5 equal 2 differs 1 refused 2 elements 4\n";
    assert_eq!(output(&batch), format!("{lines}{totals}"));
    assert_eq!(output(&[]), "pairs 0 equal 0 differs 0 refused 0 elements 0\n");
    // The cells of a difference are no elements.
    let differs = pair(&L, &l_with(&[(18, 0)])).repeat(3);
    let totals = "pairs 3 equal 0 differs 3 refused 0 elements 0\n";
    assert_eq!(output(&differs), format!("{}{totals}", "differs 1 1\n".repeat(3)));
}

#[test]
fn a_cut_at_every_byte() {
    let pairs = some_pairs();
    let batch = joined(&pairs);
    for cut in 0..=batch.len() {
        let (mut at, mut lines) = (0, Vec::new());
        for (bytes, line) in &pairs {
            if at < cut {
                let whole = at + bytes.len() <= cut;
                lines.push(if whole { line.to_string() } else { CUT.to_string() });
            }
            at += bytes.len();
        }
        assert_eq!(output(&batch[..cut]), printed(&lines), "cut at {cut}");
        assert_eq!(model(&batch[..cut]), lines, "cut at {cut}");
    }
}

/// Where a length is false, what follows it is taken for other pairs.
#[test]
fn false_lengths() {
    let pairs = some_pairs();
    let batch = joined(&pairs);
    let (mut at, mut tried, mut others) = (0, 0, 0);
    for (bytes, _) in &pairs {
        for place in [at, at + 2] {
            let length = u16::from_le_bytes([batch[place], batch[place + 1]]);
            let one_less = length.wrapping_sub(1);
            for number in [0, one_less, length + 1, 16_384, 16_385, 65_535] {
                let mut batch = batch.clone();
                batch[place..place + 2].copy_from_slice(&number.to_le_bytes());
                let lines = model(&batch);
                assert_eq!(output(&batch), printed(&lines), "{number} at {place}");
                tried += 1;
                others += usize::from(lines.len() < pairs.len());
            }
        }
        at += bytes.len();
    }
    assert_eq!(tried, 60);
    assert!(others >= 40, "{others}");
}

#[test]
fn the_order_of_refusals() {
    let none: &[u8] = &[];
    let most = [0; 32_768];
    for (batch, line) in [
        // A cut inside the lengths comes first, whatever is there of them.
        (vec![0], CUT),
        (vec![0xFF, 0xFF], CUT),
        (vec![0xFF, 0xFF, 0xFF], CUT),
        (vec![34, 0, 34], CUT),
        // Then the lengths, the left's first, whatever is behind them.
        (stated(65_535, 65_535, none), "refused left 2 0"),
        (stated(16_385, 0, none), "refused left 2 0"),
        (stated(16_385, 16_385, &most), "refused left 2 0"),
        (stated(0, 16_385, none), "refused right 2 0"),
        (stated(16_384, 16_385, none), "refused right 2 0"),
        (stated(16_384, 65_535, &most), "refused right 2 0"),
        // Then a cut behind them, and only then the programs.
        (stated(16_384, 16_384, none), CUT),
        (stated(16_384, 16_384, &most[1..]), CUT),
        (stated(16_384, 16_384, &most), "refused left 4 0"),
        (stated(1, 0, none), CUT),
        (stated(0, 1, none), CUT),
        (stated(0, 0, none), "refused left 3 0"),
    ] {
        let totals = "pairs 1 equal 0 differs 0 refused 1 elements 0";
        assert_eq!(output(&batch), format!("{line}\n{totals}\n"), "{:?}", batch.first_chunk::<4>());
    }
}

/// Only what makes the rest unreadable ends the run.
#[test]
fn what_ends_the_run() {
    let good = pair(&L, &L);
    for (bytes, line) in [
        (stated(16_385, 0, &[]), "refused left 2 0"),
        (stated(65_535, 16_385, &[]), "refused left 2 0"),
        (stated(34, 16_385, &L), "refused right 2 0"),
    ] {
        let batch = [&good[..], &bytes, &good].concat();
        let lines = ["equal 2", line].map(str::to_string);
        assert_eq!(output(&batch), printed(&lines));
    }
    let refused = [&good[..], &pair(&L[..33], &L), &good].concat();
    let lines = ["equal 2", "refused left 3 33", "equal 2"].map(str::to_string);
    assert_eq!(output(&refused), printed(&lines));
}

/// Gives so many bytes, and fails where more are asked for.
struct Ends(usize);

impl Read for Ends {
    fn read(&mut self, bytes: &mut [u8]) -> io::Result<usize> {
        let count = bytes.len().min(self.0);
        if count == 0 && !bytes.is_empty() {
            return Err(io::Error::other("nothing is there"));
        }
        bytes[..count].fill(0);
        self.0 -= count;
        Ok(count)
    }
}

/// The output where all of so many pairs of empty programs are taken, and then these lines.
fn of_empty(count: usize, lines: &str) -> String {
    let all = count + lines.lines().count();
    let totals = format!("pairs {all} equal 0 differs 0 refused {all} elements 0");
    format!("{}{lines}{totals}\n", "refused left 3 0\n".repeat(count))
}

#[test]
fn no_more_than_65535_pairs() {
    let empty = [0; 4];
    for behind in [&[][..], &[0], &empty, &[0xFF; 9]] {
        let batch = [&empty.repeat(65_535)[..], behind].concat();
        assert!(pairs(&batch).all(|pair| pair == Ok((&[], &[]))));
        assert_eq!(pairs(&batch).count(), 65_535, "{behind:?}");
    }
    // What is behind them is not even read.
    let mut out = Vec::new();
    answer(Ends(4 * PAIRS), &mut out).unwrap();
    assert_eq!(String::from_utf8(out).unwrap(), of_empty(65_535, ""));
    // The last of them may be cut.
    let batch = [&empty.repeat(65_534)[..], &[0; 3]].concat();
    assert_eq!(output(&batch), of_empty(65_534, "refused input 1 0\n"));
}

/// Gives a few bytes at a time, and every other read is interrupted; fails
/// where `end` bytes were given, if there are so many.
struct Pieces<'a> {
    bytes: &'a [u8],
    end: usize,
    piece: usize,
    reads: usize,
}

impl Read for Pieces<'_> {
    fn read(&mut self, bytes: &mut [u8]) -> io::Result<usize> {
        self.reads += 1;
        if self.reads.is_multiple_of(2) {
            return Err(io::ErrorKind::Interrupted.into());
        }
        if self.end == 0 {
            return Err(io::Error::other("the disk is gone"));
        }
        let count = bytes.len().min(self.piece).min(self.end).min(self.bytes.len());
        let (now, rest) = self.bytes.split_at(count);
        bytes[..count].copy_from_slice(now);
        self.bytes = rest;
        self.end -= count;
        Ok(count)
    }
}

#[test]
fn bytes_that_come_in_pieces() {
    let batch = joined(&some_pairs());
    let whole = output(&batch);
    for piece in [1, 2, 3, 5, 7, 33, 34, 71, 1_000] {
        let mut out = Vec::new();
        answer(Pieces { bytes: &batch, end: usize::MAX, piece, reads: 0 }, &mut out).unwrap();
        assert_eq!(String::from_utf8(out).unwrap(), whole, "{piece}");
    }
}

/// The line of each pair that was read whole, and no last line.
#[test]
fn a_read_that_fails_at_every_byte() {
    let pairs = some_pairs();
    let batch = joined(&pairs);
    for end in 0..=batch.len() {
        for piece in [1, 1_000] {
            let mut out = Vec::new();
            let outcome = answer(Pieces { bytes: &batch, end, piece, reads: 0 }, &mut out);
            assert_eq!(outcome.unwrap_err().to_string(), "the disk is gone");
            let (mut at, mut lines) = (0, String::new());
            for (bytes, line) in &pairs {
                at += bytes.len();
                if at <= end {
                    lines += &format!("{line}\n");
                }
            }
            assert_eq!(String::from_utf8(out).unwrap(), lines, "{end}");
        }
    }
}

/// Keeps what is written until it is flushed.
#[derive(Default)]
struct Held {
    waiting: Vec<u8>,
    flushed: Vec<u8>,
}

impl io::Write for Held {
    fn write(&mut self, bytes: &[u8]) -> io::Result<usize> {
        self.waiting.extend(bytes);
        Ok(bytes.len())
    }

    fn flush(&mut self) -> io::Result<()> {
        self.flushed.append(&mut self.waiting);
        Ok(())
    }
}

#[test]
fn the_lines_before_a_failed_read_are_flushed() {
    let batch = joined(&some_pairs());
    let mut out = Held::default();
    answer(Pieces { bytes: &batch, end: 150, piece: 9, reads: 0 }, &mut out).unwrap_err();
    assert_eq!(String::from_utf8(out.flushed).unwrap(), "equal 2\ndiffers 1 1\n");
    assert!(out.waiting.is_empty());
}

/// Takes so many bytes and then fails.
struct Full(usize);

impl io::Write for Full {
    fn write(&mut self, bytes: &[u8]) -> io::Result<usize> {
        let count = bytes.len().min(self.0);
        self.0 -= count;
        if count == 0 {
            return Err(io::ErrorKind::StorageFull.into());
        }
        Ok(count)
    }

    fn flush(&mut self) -> io::Result<()> {
        Ok(())
    }
}

#[test]
fn a_write_that_fails() {
    let batch = joined(&some_pairs());
    let length = output(&batch).len();
    for taken in 0..length {
        let outcome = answer(&batch[..], Full(taken));
        assert_eq!(outcome.unwrap_err().kind(), io::ErrorKind::StorageFull, "{taken}");
    }
    assert!(answer(&batch[..], Full(length)).is_ok());
}

#[test]
fn random_pairs_and_their_totals() {
    let mut work = Work::default();
    let (mut batch, mut lines) = (Vec::new(), Vec::new());
    for input in Pairs::new(11).take(400) {
        let Ok((left, right)) = separate::input::split(&input) else { continue };
        if right.len() <= 16_384 {
            batch.extend(pair(left, right));
            lines.push(line_of(work.programs_masked(left, right, ALL)).to_string());
        }
    }
    assert!(lines.len() > 300);
    assert_eq!(output(&batch), printed(&lines));
    assert_eq!(model(&batch), lines);
}

#[test]
fn totals_stay_at_the_largest_number() {
    let most = u64::MAX;
    let mut totals =
        Totals { pairs: most - 1, equal: most, differs: 7, refused: most, elements: 5 };
    totals.count(Reply::Equal { count: 3 });
    let mut wanted = Totals { pairs: most, equal: most, differs: 7, refused: most, elements: 8 };
    assert_eq!(totals, wanted);
    totals.count(Reply::Differs { array: 9, cell: 9 });
    wanted.differs = 8;
    assert_eq!(totals, wanted);
    totals.count(Reply::Refused { side: Side::Input, number: 1, place: 4 });
    assert_eq!(totals, wanted);
    totals.count(Reply::Equal { count: usize::MAX - 7 });
    wanted.elements = most;
    assert_eq!(totals, wanted);
}
