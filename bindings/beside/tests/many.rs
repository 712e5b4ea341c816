//! Many pairs: what is printed for known ones, that a wrong reply shows, and what is timed.

use beside::many::printed;
use beside::workloads::{batch_of, batched, Pair};
use separate::batch::answer;
use separate::notation::assemble;
use separate::random::Batches;
use tengmua::{Reply, Work, ALL};

fn pair(left: &str, right: &str) -> Pair {
    let bytes = |text: &str| assemble(text).expect("a program");
    Pair { left: bytes(left), right: bytes(right) }
}

/// From the library's replies.
fn ours(batch: &[u8]) -> String {
    let mut work = Work::default();
    printed(batch, |left, right| work.programs(left, right, ALL))
}

/// From the separately written program.
fn theirs(batch: &[u8]) -> String {
    let mut out = Vec::new();
    answer(batch, &mut out).expect("memory is read and written");
    String::from_utf8(out).expect("text")
}

/// Inout arrays are compared too.
#[test]
fn known_pairs() {
    let copy = "array A in [3] array B out [3] for i = 0 to 2 { B[i] = A[i] }";
    let less = "array A in [3] array B out [3] for i = 0 to 1 { B[i] = A[i] }";
    let other = "array A in [3] array B out [4] B[0] = A[0]";
    let [kept, written] = ["array A inout [2]", "array A inout [2] A[1] = const 1"];
    let pairs = [(copy, copy), (copy, less), (copy, other), (kept, kept), (kept, written)];
    let mut batch = batch_of(&pairs.map(|(left, right)| pair(left, right)));
    let lines = "equal 3\ndiffers 1 2\nrefused both 22 1\nequal 2\ndiffers 0 1\n";
    let totals = "pairs 5 equal 2 differs 2 refused 1 elements 5\n";
    assert_eq!(ours(&batch), format!("{lines}{totals}"));
    assert_eq!(theirs(&batch), ours(&batch));
    batch.extend([0, 0, 1]);
    let totals = "pairs 6 equal 2 differs 2 refused 2 elements 5\n";
    assert_eq!(ours(&batch), format!("{lines}refused input 1 0\n{totals}"));
    assert_eq!(ours(&[]), "pairs 0 equal 0 differs 0 refused 0 elements 0\n");
}

#[test]
fn random_batches_have_the_same_lines_and_totals() {
    for batch in Batches::new(20).take(300) {
        assert_eq!(ours(&batch), theirs(&batch));
    }
}

/// One reply that is wrong changes what is printed.
#[test]
fn a_wrong_reply_is_found_out() {
    let mut found = [0; 3];
    for batch in Batches::new(21).take(300) {
        let right = theirs(&batch);
        for (wrong, found) in found.iter_mut().enumerate() {
            let mut work = Work::default();
            let lines = printed(&batch, |left, right| match work.programs(left, right, ALL) {
                Reply::Equal(count) if wrong == 0 => Reply::Equal(count + 1),
                Reply::Differs(array, _) if wrong == 1 => Reply::Differs(array, 3_000),
                Reply::Refused(_) if wrong == 2 => Reply::Equal(0),
                reply => reply,
            });
            *found += usize::from(lines != right);
        }
    }
    assert!(found.iter().all(|&found| found > 100), "{found:?}");
}

/// A thousand pairs that are all answered, as many as the mixed pairs of the other tables.
#[test]
fn the_timed_batch_is_whole() {
    let pairs = batched(1_000, 1).pairs;
    let lines = ours(&batch_of(&pairs));
    assert_eq!(lines, theirs(&batch_of(&pairs)));
    assert_eq!(lines.lines().count(), 1_001);
    assert!(lines.contains("\npairs 1000 equal "));
    assert!(!lines.contains("refused input"), "no pair is cut");
    let kind = |kind: &str| lines.lines().filter(|line| line.starts_with(kind)).count();
    assert!(kind("equal") > 200 && kind("differs") > 200 && kind("refused") > 200);
}
