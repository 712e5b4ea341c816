//! Random records of `write_file`: what they hold, and that a seed fixes them.

mod common;
use std::collections::BTreeMap;

use common::{asm, list_of};
use separate::entries::line;
use separate::list::{code, decode, List};
use separate::random::{Lent, Writes};
use separate::tables::{arity, MARKED};

/// A record's arguments and what it lends.
struct Held {
    slice: usize,
    list: Vec<u32>,
    output: usize,
}

/// What `entries` takes out of a record, written a second time.
fn lent(record: &[u8]) -> Option<Held> {
    let argument = |k: usize| u64::from_le_bytes(record[1 + 8 * k..][..8].try_into().unwrap());
    let [slice, k, period, output] = [0, 1, 2, 3].map(|k| argument(k) as usize);
    let stored = record.get(49..k.checked_mul(4)?.checked_add(49)?)?;
    let word = |at: usize| stored.get(4 * at..).and_then(|rest| rest.first_chunk());
    let word = |at: usize| word(at % period).map_or(0, |&word| u32::from_le_bytes(word));
    (slice <= 33_000 && output <= 20_000).then(|| Held {
        slice,
        list: (0..slice).map(word).collect(),
        output,
    })
}

/// The deepest operator of an expression.
fn depth(list: &List, expression: &[[u32; 3]]) -> usize {
    let (mut waits, mut deepest) = (Vec::new(), 0);
    for record in expression {
        if record[0] == code::OPERATOR {
            waits.push(arity(list.tables.operators()[record[1] as usize]));
            deepest = deepest.max(waits.len());
            continue;
        }
        while let Some(last) = waits.last_mut() {
            *last -= 1;
            if *last > 0 {
                break;
            }
            waits.pop();
        }
    }
    deepest
}

/// What is worth counting in a list.
fn kinds_of_list(list: &List) -> Vec<&'static str> {
    let literals = list.records.iter().filter(|record| record[0] == code::LITERAL);
    let values: Vec<_> = literals.map(|record| record[1] as i32).collect();
    let names = list.records.iter().filter(|record| record[0] == code::CONSTANT);
    let names: Vec<_> = names.map(|record| record[1]).collect();
    let dimensions = |wanted| list.tables.arrays().iter().any(|array| array.dimensions == wanted);
    let deep = || list.updates().any(|(_, expression)| depth(list, expression) == 12);
    let kinds = [
        ("marked", list.tables.operators().contains(&MARKED)),
        ("unmarked", !list.tables.operators().contains(&MARKED)),
        ("a high name", names.iter().any(|&name| name > 1 << 31)),
        ("the name 2^31", names.contains(&(1 << 31))),
        ("-32,768", values.contains(&-32_768)),
        ("32,767", values.contains(&32_767)),
        ("-32,769", values.contains(&-32_769)),
        ("32,768", values.contains(&32_768)),
        ("no updates", list.records.is_empty()),
        ("one dimension", dimensions(1)),
        ("two dimensions", dimensions(2)),
        ("three dimensions", dimensions(3)),
        ("twelve deep", deep()),
    ];
    kinds.into_iter().filter(|(_, holds)| *holds).map(|(kind, _)| kind).collect()
}

/// The reply's kind, and the lengths behind it.
fn kinds_of_line(record: &[u8], lent: Option<&Held>) -> Vec<String> {
    let line = line(record);
    let words: Vec<_> = line.split(' ').collect();
    let Some(lent) = lent else {
        assert_eq!(line, "45 -");
        return vec!["unfit".to_string()];
    };
    let number = |k: usize| words[k].parse::<usize>().unwrap();
    if words[1] == "0" {
        let length = number(2);
        let room = match lent.output - length {
            0 => "exact",
            _ => "longer",
        };
        return vec!["file".to_string(), format!("file, {room}"), format!("file of {length}")];
    }
    assert_eq!(words[2], if words[3] == "25" { "2" } else { "0" }, "{line}");
    let kind = format!("refused {}", words[3]);
    let place = match number(4) {
        0 => "first",
        1 => "second",
        _ => "later",
    };
    let empty = if lent.output == 0 { ", no output" } else { "" };
    vec![format!("{kind}, {place}"), format!("{kind}{empty}"), kind]
}

/// How long a file would be, and how far the output is from it.
fn kinds_of_long(list: &[u32], output: usize, line: &str) -> Vec<String> {
    if !line.starts_with("45 2 0 29 ") {
        return Vec::new();
    }
    let mut out = vec![0; 20_000];
    match separate::write_file(list, &mut out) {
        Ok(length) if output + 1 == length => vec!["one byte less".to_string()],
        Ok(_) => vec!["some bytes less".to_string()],
        Err(_) if output >= 16_385 => vec!["too long for any output".to_string()],
        Err(_) => vec!["too long".to_string()],
    }
}

#[test]
fn two_thousand_records_cover_everything() {
    for seed in [1, 2] {
        let mut counts = BTreeMap::new();
        for record in Writes::new(seed).take(2_000) {
            assert!(record.len() <= 65_536 && record[0] == 45);
            let lent = lent(&record);
            let mut kinds = kinds_of_line(&record, lent.as_ref());
            if let Some(Held { slice, list, output }) = &lent {
                if *slice > 32_768 {
                    kinds.push(format!("longer slice, {}", kinds[0]));
                }
                if let Some(decoded) = decode(list).filter(|_| *slice >= 32_768) {
                    kinds.extend(kinds_of_list(&decoded).into_iter().map(String::from));
                }
                kinds.extend(kinds_of_long(list, *output, &line(&record)));
            }
            kinds.into_iter().for_each(|kind| *counts.entry(kind).or_insert(0usize) += 1);
        }
        let count = |kind: &str| counts.get(kind).copied().unwrap_or(0);
        for (kind, least) in [
            ("file", 800),
            ("refused 25", 80),
            ("refused 26", 150),
            ("refused 28", 200),
            ("refused 29", 250),
            ("unfit", 15),
            ("file, exact", 250),
            ("file, longer", 250),
            ("file of 16384", 30),
            ("file of 16383", 5),
            ("one byte less", 50),
            ("some bytes less", 50),
            ("too long", 10),
            ("too long for any output", 10),
            ("refused 28, first", 50),
            ("refused 28, second", 10),
            ("refused 28, later", 50),
            ("refused 28, no output", 3),
            ("refused 29, no output", 40),
            ("longer slice, file", 150),
            ("marked", 300),
            ("unmarked", 300),
            ("a high name", 300),
            ("the name 2^31", 200),
            ("-32,768", 100),
            ("32,767", 100),
            ("-32,769", 20),
            ("32,768", 20),
            ("no updates", 40),
            ("one dimension", 500),
            ("two dimensions", 500),
            ("three dimensions", 300),
            ("twelve deep", 40),
        ] {
            assert!(count(kind) >= least, "{kind}: {} in {counts:?}", count(kind));
        }
    }
}

/// Callers without records get lists of every kind too.
#[test]
fn slices_without_a_record() {
    let mut writes = Writes::new(3);
    let mut counts = BTreeMap::new();
    for _ in 0..500 {
        let Lent { list, mut out } = writes.lent();
        let number = separate::write_file(&list, &mut out).map_or_else(|no| no.number, |_| 0);
        *counts.entry(number).or_insert(0) += 1;
    }
    assert_eq!(counts.keys().copied().collect::<Vec<_>>(), [0, 25, 26, 28, 29]);
    assert!(counts.values().all(|&count| count >= 15) && counts[&0] >= 150, "{counts:?}");
}

fn call(arguments: [usize; 4], lent: &[u8]) -> String {
    let [a, b, c, d] = arguments.map(|argument| (argument as u64).to_le_bytes());
    line(&[&[45], &a[..], &b, &c, &d, &[0; 16], lent].concat())
}

/// The sum of an output.
fn sum(out: &[u8]) -> u32 {
    out.iter().fold(0u32, |sum, &byte| sum.wrapping_mul(3).wrapping_add(byte.into()))
}

#[test]
fn known_records() {
    let list = list_of("array A out [2] A[1] = 7");
    let file = asm("array A out [2] A[1] = 7");
    let words: Vec<_> = list[..104].iter().flat_map(|word| word.to_le_bytes()).collect();
    let lent = [&words[..], &[9; 5]].concat();
    for (output, length) in [(19, 19), (20, 19), (20_000, 19)] {
        // The bytes behind the file are those of the output, which were zeros.
        let mut out = file.clone();
        out.resize(output, 0);
        let expected = format!("45 0 {length} {}", sum(&out));
        assert_eq!(call([32_768, 104, 33_000, output], &lent), expected);
    }
    let long = [&words[..], &[9; 21]].concat();
    let out = [&file[..], &[9, 9, 0]].concat();
    assert_eq!(call([33_000, 104, 33_000, 22], &long), format!("45 0 19 {}", sum(&out)));
    let held = sum(&[9, 9, 9, 9, 9, 0]);
    for (slice, period, reply) in [
        (32_768, 33_000, "2 0 29 0"),
        (32_767, 33_000, "2 2 25 0"),
        (32_768, 104, "2 0 26 0"),
        (32_768, 32_766, "2 0 29 0"),
        (33_000, 32_768, "2 0 26 0"),
    ] {
        // Array count and role are words of the list once more; its first 17 are zeros.
        assert_eq!(call([slice, 104, period, 6], &lent), format!("45 {reply} {held}"));
    }
    assert_eq!(call([32_768, 104, 33_000, 0], &words), "45 2 0 29 0 0");
    for arguments in [[33_001, 104, 9, 0], [0, 105, 9, 0], [0, usize::MAX, 9, 0], [0, 0, 9, 20_001]]
    {
        assert_eq!(call(arguments, &words), "45 -");
    }
    assert_eq!(call([0, 0, 0, 0], &[]), "45 2 2 25 0 0");
}

#[test]
fn a_seed_fixes_the_records() {
    let first: Vec<_> = Writes::new(9).take(100).collect();
    assert_eq!(first, Writes::new(9).take(100).collect::<Vec<_>>());
    assert_ne!(first, Writes::new(10).take(100).collect::<Vec<_>>());
}
