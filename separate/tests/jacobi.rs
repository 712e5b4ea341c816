//! One-dimensional Jacobi, 16 points, two time steps. Both arrays are inout, so all
//! bits of the mask are set.

mod common;
use common::{asm, line_all_of_texts, line_of_texts};
use separate::limits::LIST_WORDS;
use separate::list::{decode, Record};
use separate::read::read_program;
use separate::run::{run, Counts};

/// As it is written first. The sum of three is two binary sums, and the factor a
/// constant: seven nodes for each B, one for each A.
const ORIGINAL: &str = "
op add/2
op mul/2
array A inout [16]
array B inout [16]
for t = 0 to 1 {
  for i = 1 to 14 {
    B[i] = mul(const 33333, add(add(A[i - 1], A[i]), A[i + 1]))
  }
  for j = 1 to 14 {
    A[j] = B[j]
  }
}
";

/// Skewed, so that both time steps go through the points together. A test of
/// parity is a loop over the odd numbers that come into question; the limits of c2,
/// which a tiling tool works out with divisions, are two guards.
const TILED: &str = "
op add/2
op mul/2
array A inout [16]
array B inout [16]
for c0 = 1 to 17 {
  for odd = 15 to 17 step 2 {
    if c0 - odd >= 0 { if odd - c0 >= 0 {
      A[14] = B[14]
    } }
  }
  for c2 = 0 to 1 {
    if 2*c2 - c0 + 14 >= 0 { if c0 - 2*c2 - 2 >= 0 {
      B[c0 - 2*c2] =
        mul(const 33333, add(add(A[c0 - 2*c2 - 1], A[c0 - 2*c2]), A[c0 - 2*c2 + 1]))
      A[c0 - 2*c2 - 1] = B[c0 - 2*c2 - 1]
    } }
  }
  for odd = 1 to 3 step 2 {
    if c0 - odd >= 0 { if odd - c0 >= 0 {
      B[1] = mul(const 33333, add(add(A[0], A[1]), A[2]))
    } }
  }
}
";

fn unrolled(text: &str) -> (Counts, Vec<Record>) {
    let program = read_program(&asm(text)).expect("read");
    let mut list = vec![0; LIST_WORDS];
    let counts = run(&program, &mut list).expect("run");
    let targets = decode(&list).expect("accepted").updates().map(|(update, _)| *update).collect();
    (counts, targets)
}

#[test]
fn both_have_56_updates_and_224_nodes() {
    for text in [ORIGINAL, TILED] {
        let (counts, _) = unrolled(text);
        assert_eq!((counts.updates, counts.nodes), (56, 224));
    }
}

#[test]
fn the_tiled_variant_is_equal() {
    assert_eq!(line_all_of_texts(ORIGINAL, TILED), "equal 32");
    assert_eq!(line_all_of_texts(TILED, ORIGINAL), "equal 32");
}

/// Neither array is out.
#[test]
fn plainly_nothing_is_compared() {
    for other in [TILED.to_string(), TILED.replace("A[0], A[1]", "A[1], A[0]")] {
        assert_eq!(line_of_texts(ORIGINAL, &other), "equal 0");
    }
}

#[test]
fn the_updates_come_in_the_order_that_is_worked_out_by_hand() {
    let (a, b) = (0, 1);
    let (_, original) = unrolled(ORIGINAL);
    assert_eq!(original[0], [1, b, 1]);
    assert_eq!(original[13..15], [[1, b, 14], [1, a, 1]]);
    assert_eq!(original[55], [1, a, 14]);
    let (_, tiled) = unrolled(TILED);
    let first = [(b, 1), (b, 2), (a, 1), (b, 3), (a, 2), (b, 1), (b, 4), (a, 3), (b, 2), (a, 1)];
    assert_eq!(tiled[..10], first.map(|(array, cell)| [1, array, cell]));
    let last = [(b, 12), (a, 11), (a, 14), (b, 13), (a, 12), (b, 14), (a, 13), (a, 14)];
    assert_eq!(tiled[48..], last.map(|(array, cell)| [1, array, cell]));
}

/// Nothing writes the border of B: of an out array that is a difference, and of
/// a local one that is none.
#[test]
fn other_roles_of_the_second_array() {
    let with = |role: &str| [ORIGINAL, TILED].map(|text| text.replace("B inout", role));
    let [original, tiled] = with("B out");
    assert_eq!(line_all_of_texts(&original, &tiled), "differs 1 0");
    let [original, tiled] = with("B local");
    assert_eq!(line_all_of_texts(&original, &tiled), "equal 16");
    // One tile less: B[14] is read and not yet written.
    let wrong = tiled.replace("- c0 + 14 >=", "- c0 + 13 >=");
    assert_eq!(line_all_of_texts(&original, &wrong), "refused right 17 43");
}

#[test]
fn small_mistakes_in_the_tiled_variant_are_found() {
    let mistake = |from: &str, to: &str| {
        assert!(TILED.contains(from));
        line_all_of_texts(ORIGINAL, &TILED.replace(from, to))
    };
    assert_eq!(mistake("for odd = 15 to 17", "for odd = 15 to 16"), "differs 0 14");
    assert_eq!(mistake("add(A[0], A[1])", "add(A[1], A[0])"), "differs 0 1");
    // The second time step overtakes the first.
    assert_eq!(mistake("for c2 = 0 to 1", "for c2 = 1 to 0 step -1"), "differs 0 2");
    // One tile less: A[13], which A[12] needs, is copied in no time step.
    assert_eq!(mistake("- c0 + 14 >=", "- c0 + 13 >="), "differs 0 12");
}
