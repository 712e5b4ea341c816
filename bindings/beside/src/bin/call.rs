//! call WHO ENTRY NUMBER [COUNT]: calls one entry of one checker on the pairs of one workload, COUNT times (default 1), and does
//! little else: for callgrind. WHO is `ours` or `separate`; ENTRY is programs, lists, unroll, check, write or explain; NUMBER is
//! that of a workload of one pair in the table, from 0; for explain, of those that differ; for write, of the programs that are written.

use std::hint::black_box;

use beside::memory::ENOUGH;
use beside::same::{Checker, Ours, Separate};
use beside::workloads::{explained, single, written, Pair, Workload};
use tengmua::{Chosen, ALL, FILE_BYTES, LIST_WORDS};

fn done<T>(answer: T) {
    black_box(answer);
}

fn list_of(program: &[u8]) -> Option<Vec<u32>> {
    let mut list = vec![0; LIST_WORDS];
    separate::unroll(program, &mut list).ok().map(|_| list)
}

fn call(checker: &dyn Checker, entry: &str, pairs: &[Pair], count: usize) {
    let mut memory = ENOUGH.map(|words| vec![0; words]);
    let [a, b, c, d] = &mut memory;
    let mut out = vec![0; FILE_BYTES];
    let lists: Vec<_> =
        pairs.iter().filter_map(|pair| list_of(&pair.left).zip(list_of(&pair.right))).collect();
    for _ in 0..count {
        for Pair { left, right } in pairs {
            match entry {
                "programs" => done(checker.programs(left, right, ALL, [a, b, c, d])),
                "explain" => {
                    done(checker.explain(left, right, ALL, Chosen::Right, [a, b, c, d]));
                }
                "unroll" => done((checker.unroll(left, a), checker.unroll(right, b))),
                _ => {}
            }
        }
        for (left, right) in &lists {
            match entry {
                "lists" => done(checker.lists(left, right, ALL, [c, d])),
                "check" => done((checker.check(left), checker.check(right))),
                "write" => done(checker.write(left, &mut out)),
                _ => {}
            }
        }
    }
}

fn beside_itself((name, program): (&str, Vec<u8>)) -> Workload {
    let pair = Pair { left: program.clone(), right: program };
    Workload { name: name.to_string(), pairs: vec![pair] }
}

fn main() {
    let words: Vec<String> = std::env::args().skip(1).collect();
    let [who, entry, number, rest @ ..] = &words[..] else {
        panic!("usage: call WHO ENTRY NUMBER [COUNT]");
    };
    let number: usize = number.parse().expect("a workload's number");
    let count = rest.first().map_or(1, |count| count.parse().expect("a number"));
    let workloads: Vec<_> = match entry.as_str() {
        "explain" => explained(1).into_iter().map(|explained| explained.workload).collect(),
        "write" => written().map(beside_itself).into(),
        _ => single(),
    };
    let pairs = &workloads[number].pairs;
    match who.as_str() {
        "ours" => call(&Ours, entry, pairs, count),
        _ => call(&Separate, entry, pairs, count),
    }
}
