//! The plain comparison, of out arrays, beside the one under a mask.

mod common;
use common::{asm, frame, line, line_all, line_masked, L};
use separate::compare::ALL;
use separate::input::split;
use separate::limits::{CELL_WORDS, LIST_WORDS, TERM_WORDS};
use separate::random::{Pairs, Random};
use separate::read::read_program;
use separate::tables::Role;
use separate::{
    compare_input_masked, explain_input_masked, line_of, line_of_explanation, Chosen, Reply, Work,
};

/// All roles, two of those that are compared, in no order but the locals'.
const HEAD: &str = "array A inout [2] array B out [3] array C in [5] array D out [2, 2]
    array E inout [7] array T local [4]";

/// The out arrays written whole.
const FILL: &str = "for i = 0 to 2 { B[i] = C[i] }
    for i = 0 to 1 { for j = 0 to 1 { D[i, j] = C[i + j] } }";

/// The bits of its arrays.
const A: u16 = 1;
const B: u16 = 2;
const C: u16 = 4;
const D: u16 = 8;
const E: u16 = 16;
const T: u16 = 32;

fn program(items: &str) -> Vec<u8> {
    asm(&format!("{HEAD} {FILL} {items}"))
}

fn out_bits(program: &[u8]) -> u16 {
    let program = read_program(program).unwrap();
    let arrays = program.tables.arrays().iter().enumerate();
    arrays.filter(|(_, array)| array.role == Role::Out).fold(0, |mask, (k, _)| mask | 1 << k)
}

#[test]
fn the_plain_count_is_of_out_arrays() {
    let plain = program("");
    assert_eq!(line(&plain, &plain), "equal 7");
    assert_eq!(line_all(&plain, &plain), "equal 16");
    assert_eq!(out_bits(&plain), B | D);
}

/// Left, right, the plain line and the one under all bits.
#[test]
fn what_inout_arrays_hold_is_for_the_mask() {
    for (left, right, plain, all) in [
        ("", "A[1] = 9", "equal 7", "differs 0 1"),
        ("E[6] = 1", "E[6] = 2", "equal 7", "differs 4 6"),
        ("", "E[6] = E[6]", "equal 7", "equal 16"),
        ("A[0] = 1", "D[1, 0] = C[4] E[0] = 2", "differs 3 2", "differs 0 0"),
        ("", "D[1, 0] = C[4] E[0] = 2", "differs 3 2", "differs 3 2"),
        ("T[0] = 1", "T[0] = 2 B[2] = T[0]", "differs 1 2", "differs 1 2"),
        ("T[0] = 1", "T[0] = 2 T[3] = 4", "equal 7", "equal 16"),
        // Through an inout array into an out array.
        ("A[0] = C[0] B[0] = A[0]", "A[0] = 5", "equal 7", "differs 0 0"),
        ("A[0] = C[0] B[0] = A[1]", "A[0] = 5", "differs 1 0", "differs 0 0"),
    ] {
        let (one, other) = (program(left), program(right));
        assert_eq!(line(&one, &other), plain, "{left}, {right}");
        assert_eq!(line(&other, &one), plain, "{right}, {left}");
        assert_eq!(line_all(&one, &other), all, "{left}, {right}");
        assert_eq!(line_all(&other, &one), all, "{right}, {left}");
        assert_eq!(line_masked(&one, &other, B | D), plain, "{left}, {right}");
    }
}

#[test]
fn inout_arrays_alone() {
    let text = |items: &str| asm(&format!("array A inout [3] array B inout [2] {items}"));
    let [none, one] = ["", "B[1] = 7"].map(text);
    assert_eq!(line(&none, &none), "equal 0");
    assert_eq!(line(&none, &one), "equal 0");
    assert_eq!(line_all(&none, &none), "equal 5");
    assert_eq!(line_all(&none, &one), "differs 1 1");
    assert_eq!(line_masked(&none, &one, 1), "equal 3");
    // What is refused is refused, whatever is compared.
    let outside = text("for i = 0 to 3 { A[i] = 1 }");
    let others = asm("array A inout [3] array B inout [3]");
    let operators = asm("op f/1 array A inout [3] array B inout [2]");
    let many = "op f/1 array A inout [1] for i = 1 to 2047 { A[0] = f(i) }";
    let [many, more] = [many.to_string(), many.replace("f(i)", "f(i + 2047)")].map(|t| asm(&t));
    for (left, right, refused) in [
        (&outside, &none, "refused left 16 22"),
        (&none, &outside, "refused right 16 22"),
        (&none, &others, "refused both 22 1"),
        (&none, &operators, "refused both 23 0"),
        (&many, &more, "refused both 24 0"),
    ] {
        assert_eq!(line(left, right), refused);
        for mask in [0, 1, 2, ALL] {
            assert_eq!(line_masked(left, right, mask), refused);
        }
    }
}

/// Neither out nor inout arrays: nothing is compared under any mask.
#[test]
fn in_and_local_arrays_are_compared_nowhere() {
    let left = asm("array A in [2] array T local [1] T[0] = A[0]");
    let right = asm("array A in [2] array T local [1] T[0] = A[1]");
    assert_eq!(line(&left, &right), "equal 0");
    for mask in [0, 1, 2, 3, ALL] {
        assert_eq!(line_masked(&left, &right, mask), "equal 0");
    }
}

#[test]
fn bits_of_in_and_local_arrays_and_beyond_mean_nothing() {
    let (left, right) = (program("T[0] = 1"), program("T[0] = 2 E[6] = 2"));
    for nothing in [0, C, T, 0x8000, 0xFFC0, C | T | 0x40] {
        for (mask, line) in [
            (0, "equal 0"),
            (A, "equal 2"),
            (B, "equal 3"),
            (D, "equal 4"),
            (A | B | D, "equal 9"),
            (E, "differs 4 6"),
            (A | B | D | E, "differs 4 6"),
        ] {
            assert_eq!(line_masked(&left, &right, mask | nothing), line, "{mask} {nothing}");
        }
    }
}

/// The lines of both sides' explanations.
fn explained(explain: impl FnMut(Chosen) -> separate::Explanation) -> [String; 2] {
    [Chosen::Left, Chosen::Right].map(explain).map(|text| line_of_explanation(text).to_string())
}

/// Array A's element comes first, and array D's is what the plain line names.
#[test]
fn the_plain_explanation_is_of_the_plain_difference() {
    let left = asm("array A inout [2] array D out [1] D[0] = 1 A[1] = 3");
    let right = asm("array A inout [2] array D out [1] D[0] = 2");
    let input = frame(&left, &right);
    let mut work = Work::default();
    let plain = ["written 1 0 15 22", "written 1 0 15 22"];
    assert_eq!(explained(|chosen| work.explain_input(&input, chosen)), plain);
    assert_eq!(explained(|chosen| work.explain_input_masked(&input, 2, chosen)), plain);
    let all = ["written 0 1 22 29", "starting 0 1"];
    for mask in [1, 3, ALL] {
        assert_eq!(explained(|chosen| work.explain_input_masked(&input, mask, chosen)), all);
    }
    let nothing = ["refused both 27 0", "refused both 27 0"];
    for mask in [0, 4, 0xFFFC] {
        assert_eq!(explained(|chosen| work.explain_input_masked(&input, mask, chosen)), nothing);
    }
    let same = asm("array A inout [2] array D out [1] D[0] = 1");
    let input = frame(&left, &same);
    assert_eq!(explained(|chosen| work.explain_input(&input, chosen)), nothing);
}

/// Over lent memory, as the entries of the crates take it.
#[test]
fn framed_entries_over_lent_memory() {
    let mut lent = [LIST_WORDS, LIST_WORDS, CELL_WORDS, TERM_WORDS].map(|length| vec![5; length]);
    let [one, other, cells, terms] = &mut lent;
    let input = frame(&program("A[0] = 1"), &program(""));
    let reply = compare_input_masked(&input, A | B, one, other, cells, terms);
    assert_eq!(line_of(reply).to_string(), "differs 0 0");
    let explained = explain_input_masked(&input, A | B, Chosen::Right, one, other, cells, terms);
    assert_eq!(line_of_explanation(explained).to_string(), "starting 0 0");
    let reply = compare_input_masked(&input[..9], 0, one, other, cells, terms);
    assert_eq!(line_of(reply).to_string(), "refused input 1 0");
}

/// The plain reply is that under the out arrays' bits, and a difference stays
/// where its array's bit is alone; both sides are explained alike.
#[test]
fn random_pairs_plain_and_masked() {
    let (mut work, mut random) = (Work::default(), Random::new(5));
    let (mut plain_differs, mut masked_differs, mut moved) = (0, 0, 0);
    for input in Pairs::new(77).take(3_000) {
        let any = random.draw() as u16;
        let plain = work.input(&input);
        if let Reply::Refused { .. } = plain {
            for mask in [0, any, ALL] {
                assert_eq!(work.input_masked(&input, mask), plain);
            }
            continue;
        }
        let bits = out_bits(split(&input).unwrap().0);
        assert_eq!(work.input_masked(&input, bits), plain);
        if let Reply::Differs { array, .. } = plain {
            plain_differs += 1;
            assert!(bits >> array & 1 == 1);
            assert_eq!(work.input_masked(&input, 1 << array), plain);
            let own = explained(|chosen| work.explain_input(&input, chosen));
            let alone = explained(|chosen| work.explain_input_masked(&input, 1 << array, chosen));
            assert_eq!(own, alone);
        }
        for mask in [any, ALL] {
            let masked = work.input_masked(&input, mask);
            moved += usize::from(masked != plain);
            if let Reply::Differs { array, .. } = masked {
                masked_differs += 1;
                assert!(mask >> array & 1 == 1);
                assert_eq!(work.input_masked(&input, 1 << array), masked);
            }
        }
    }
    let counts = [plain_differs, masked_differs, moved];
    assert!(plain_differs > 700 && masked_differs > 1_000 && moved > 1_000, "{counts:?}");
}

#[test]
fn starred_pair_l_under_masks() {
    let reversed = asm("array A in [2] array B out [2] for i = 0 to 1 { B[i] = A[1 - i] }");
    for (mask, line) in [
        (0, "equal 0"),
        (1, "equal 0"),
        (2, "differs 1 0"),
        (3, "differs 1 0"),
        (ALL, "differs 1 0"),
    ] {
        assert_eq!(line_masked(&L, &reversed, mask), line);
    }
}
