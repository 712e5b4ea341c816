//! The table of known pairs, row by row.

mod common;
use common::{l_with, line, line_for, refusal, L};

/// Several right sides for "any".
fn any() -> Vec<Vec<u8>> {
    vec![
        Vec::new(),
        vec![0],
        L.to_vec(),
        L[..20].to_vec(),
        l_with(&[(3, 9)]),
        vec![0xFF; 500],
        vec![0; 16_384],
        vec![0x41; 40_000],
    ]
}

#[test]
fn l_has_34_bytes_and_equals_itself() {
    assert_eq!(L.len(), 34);
    assert_eq!(line_for(&[&[0x22, 0x00], &L[..], &L[..]].concat()), "equal 2");
}

#[test]
fn backwards() {
    assert_eq!(line(&L, &l_with(&[(16, 1), (18, 0), (20, 0xFF), (21, 0xFF)])), "equal 2");
}

#[test]
fn reads_one_minus_i() {
    assert_eq!(line(&L, &l_with(&[(29, 1), (31, 0xFF)])), "differs 1 0");
}

#[test]
fn one_round_with_0() {
    assert_eq!(line(&L, &l_with(&[(18, 0)])), "differs 1 1");
}

#[test]
fn one_round_with_1() {
    assert_eq!(line(&L, &l_with(&[(16, 1)])), "differs 1 0");
}

#[test]
fn no_round_on_both_sides() {
    assert_eq!(line(&l_with(&[(16, 2)]), &l_with(&[(16, 2)])), "differs 1 0");
}

#[test]
fn no_round_on_the_right() {
    assert_eq!(line(&L, &l_with(&[(16, 2)])), "differs 1 0");
}

#[test]
fn step_of_0() {
    for right in any() {
        assert_eq!(line(&l_with(&[(20, 0)]), &right), "refused left 11 20");
    }
}

#[test]
fn subscript_2() {
    for right in any() {
        assert_eq!(line(&l_with(&[(18, 2)]), &right), "refused left 16 22");
    }
}

#[test]
fn reads_out() {
    assert_eq!(line(&L, &l_with(&[(28, 1)])), "refused right 17 22");
}

#[test]
fn writes_in() {
    for right in any() {
        assert_eq!(line(&l_with(&[(23, 0)]), &right), "refused left 13 23");
    }
}

#[test]
fn version_3() {
    for right in any() {
        assert_eq!(line(&l_with(&[(3, 3)]), &right), "refused left 5 3");
    }
}

#[test]
fn version_2_beside_either() {
    let second = l_with(&[(3, 2)]);
    assert_eq!(line(&L, &second), "equal 2");
    assert_eq!(line(&second, &L), "equal 2");
    assert_eq!(line(&second, &second), "equal 2");
}

#[test]
fn seventeen_operators() {
    for right in any() {
        assert_eq!(line(&l_with(&[(5, 0x11)]), &right), "refused left 6 5");
    }
}

#[test]
fn last_byte_missing() {
    assert_eq!(line(&L, &L[..33]), "refused right 3 33");
}

#[test]
fn one_byte_more() {
    for byte in [0, 1, 2, 0xFF] {
        assert_eq!(line(&L, &[&L[..], &[byte]].concat()), "refused right 14 34");
    }
}

#[test]
fn empty_input() {
    assert_eq!(line_for(&[]), "refused input 1 0");
}

#[test]
fn rows_with_any_differ_from_l_alone() {
    // The refusals above are the changed byte's doing.
    assert_eq!(refusal(&L), None);
}
