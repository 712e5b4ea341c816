//! Random batches: what they hold, and that a seed fixes them.

use std::collections::BTreeMap;

use separate::batch::answer;
use separate::random::Batches;

/// Everything worth counting in a batch: each whole pair, and how it ends.
fn kinds(batch: &[u8]) -> Vec<String> {
    let (mut rest, mut kinds, mut whole) = (batch, Vec::new(), 0);
    let end = loop {
        let Some((&[a, b, c, d], bytes)) = rest.split_first_chunk() else {
            break match rest.len() {
                0 => "whole".to_string(),
                there => format!("cut, {there} of the lengths"),
            };
        };
        kinds.extend(shifted(rest).map(str::to_string));
        let [left, right] = [[a, b], [c, d]].map(u16::from_le_bytes);
        let both = usize::from(left) + usize::from(right);
        match [left, right].map(|length| length > 16_384) {
            [true, true] => break "both too long".to_string(),
            [true, false] => break format!("left {}", too_long(left)),
            [false, true] => break format!("right {}", too_long(right)),
            _ if bytes.len() < both => break behind(bytes.len(), both).to_string(),
            _ => {}
        }
        kinds.extend(whole_pair(left, right).map(str::to_string));
        kinds.extend(shifted_right(&bytes[usize::from(left)..both]).map(str::to_string));
        whole += 1;
        rest = &bytes[both..];
    };
    kinds.push(format!("{end}, {}", if whole == 0 { "first" } else { "later" }));
    kinds.push(end);
    kinds.push(format!("{whole} whole pairs"));
    kinds
}

fn too_long(length: u16) -> &'static str {
    match length {
        16_385 => "one too long",
        65_535 => "of 65,535",
        _ => "too long",
    }
}

fn behind(there: usize, stated: usize) -> &'static str {
    match there {
        0 => "cut, none of the bytes",
        _ if there + 1 == stated => "cut, all but one of the bytes",
        _ => "cut, some of the bytes",
    }
}

fn whole_pair(left: u16, right: u16) -> Option<&'static str> {
    match (left, right) {
        (0, 0) => Some("both empty"),
        (0, _) => Some("left empty"),
        (_, 0) => Some("right empty"),
        (16_384, 16_384) => Some("both of 16,384"),
        (16_384, _) => Some("left of 16,384"),
        (_, 16_384) => Some("right of 16,384"),
        _ => None,
    }
}

fn has_mark(bytes: &[u8], at: usize) -> bool {
    bytes.get(at..).is_some_and(|rest| rest.starts_with(b"ALP"))
}

/// The right length before was off by one: the mark behind these lengths is
/// too late or too early.
fn shifted(rest: &[u8]) -> Option<&'static str> {
    match [5, 3].map(|at| has_mark(rest, at)) {
        [true, _] => Some("right, one less"),
        [_, true] => Some("right, one more"),
        _ => None,
    }
}

/// The left length was off by one: the right program begins too early or too
/// late.
fn shifted_right(right: &[u8]) -> Option<&'static str> {
    match [has_mark(right, 1), right.starts_with(b"LP")] {
        [true, _] => Some("left, one less"),
        [_, true] => Some("left, one more"),
        _ => None,
    }
}

#[test]
fn two_thousand_batches_cover_everything() {
    for seed in [1, 2] {
        let mut counts = BTreeMap::new();
        for batch in Batches::new(seed).take(2_000) {
            kinds(&batch).into_iter().for_each(|kind| *counts.entry(kind).or_insert(0usize) += 1);
        }
        let count = |kind: &str| counts.get(kind).copied().unwrap_or(0);
        assert!(count("whole") * 3 >= 2_000, "{counts:?}");
        for kind in [
            "cut, 1 of the lengths",
            "cut, 2 of the lengths",
            "cut, 3 of the lengths",
            "cut, none of the bytes",
            "cut, some of the bytes",
            "cut, all but one of the bytes",
            "both too long",
        ] {
            assert!(count(kind) >= 30, "{kind} in {counts:?}");
            assert!(count(&format!("{kind}, first")) >= 5, "{kind} in {counts:?}");
        }
        for side in ["left", "right"] {
            for kind in ["one too long", "of 65,535", "too long"] {
                assert!(count(&format!("{side} {kind}")) >= 10, "{side} {kind} in {counts:?}");
            }
            assert!(count(&format!("{side} of 16,384")) >= 10, "{counts:?}");
            assert!(count(&format!("{side} empty")) >= 50, "{counts:?}");
        }
        assert!(count("both empty") >= 50 && count("both of 16,384") >= 10, "{counts:?}");
        for kind in ["left, one less", "left, one more", "right, one less", "right, one more"] {
            assert!(count(kind) >= 5, "{kind} in {counts:?}");
        }
        for whole in 0..=12 {
            assert!(count(&format!("{whole} whole pairs")) >= 20, "{whole} in {counts:?}");
        }
    }
}

/// Each is answered to its end, with the totals last and nowhere else.
#[test]
fn every_batch_has_its_totals() {
    for batch in Batches::new(3).take(500) {
        let mut out = Vec::new();
        let totals = answer(&batch[..], &mut out).unwrap();
        let lines = String::from_utf8(out).unwrap();
        let named = lines.lines().map(|line| line.starts_with("pairs "));
        let named: Vec<_> = named.collect();
        assert_eq!(named.len() as u64, totals.pairs + 1);
        assert_eq!(named.iter().position(|&last| last), Some(named.len() - 1));
    }
}

#[test]
fn a_seed_fixes_the_batches() {
    let first: Vec<_> = Batches::new(9).take(100).collect();
    assert_eq!(first, Batches::new(9).take(100).collect::<Vec<_>>());
    assert_ne!(first, Batches::new(10).take(100).collect::<Vec<_>>());
}
