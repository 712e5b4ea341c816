//! Elements that a side leaves unwritten: of out arrays each side has starting
//! contents of its own, of inout arrays both have the same.

mod common;
use common::{asm, l_with, line, line_all_of_texts, line_of_texts, L};
use separate::compare::ALL;
use separate::{line_of, line_of_explanation, Chosen, Work};

/// The line for the two sides' items behind the same declarations, in out and
/// inout arrays.
fn items(head: &str, left: &str, right: &str) -> String {
    line_all_of_texts(&format!("{head} {left}"), &format!("{head} {right}"))
}

#[test]
fn an_out_element_unwritten_on_either_side_differs() {
    let head = "array A in [3] array B out [3]";
    let all = "B[0] = A[0] B[1] = A[1] B[2] = A[2]";
    assert_eq!(items(head, all, all), "equal 3");
    for (cell, part) in [
        (0, "B[1] = A[1] B[2] = A[2]"),
        (1, "B[0] = A[0] B[2] = A[2]"),
        (2, "B[0] = A[0] B[1] = A[1]"),
        (0, ""),
    ] {
        let line = format!("differs 1 {cell}");
        assert_eq!(items(head, all, part), line, "{part} on the right");
        assert_eq!(items(head, part, all), line, "{part} on the left");
        assert_eq!(items(head, part, part), line, "{part} on both sides");
    }
    // Each side leaves another one unwritten.
    assert_eq!(items(head, "B[1] = A[1] B[2] = A[2]", "B[0] = A[0]"), "differs 1 0");
}

/// No round runs, or code that never does would have written it.
#[test]
fn what_does_not_run_writes_nothing() {
    let no_round = l_with(&[(16, 2)]);
    assert_eq!(line(&no_round, &no_round), "differs 1 0");
    let head = "array B out [2] B[0] = 1";
    let dead = "if -1 >= 0 { B[1] = 1 }";
    assert_eq!(items(head, dead, dead), "differs 0 1");
    assert_eq!(items(head, "if 0 >= 0 { B[1] = 1 }", "B[1] = 1"), "equal 2");
}

#[test]
fn an_out_element_may_be_written_again_and_read() {
    let head = "array B out [2]";
    assert_eq!(items(head, "B[0] = 1 B[1] = 2 B[0] = B[1]", "B[1] = 2 B[0] = B[1]"), "equal 2");
    assert_eq!(items(head, "B[0] = 1 B[0] = B[0]", "B[0] = 1 B[0] = B[0]"), "differs 0 1");
}

#[test]
fn an_inout_element_that_both_leave_alone_is_the_same() {
    let head = "array A inout [3] array B out [1] B[0] = 1";
    assert_eq!(items(head, "", ""), "equal 4");
    assert_eq!(items(head, "A[1] = 5", "A[1] = 5"), "equal 4");
    assert_eq!(items(head, "A[1] = A[1]", ""), "equal 4");
    assert_eq!(items(head, "", "A[2] = A[2] A[2] = A[2]"), "equal 4");
    assert_eq!(items(head, "A[1] = A[0]", ""), "differs 0 1");
    assert_eq!(items(head, "", "A[2] = B[0]"), "differs 0 2");
}

/// An in array is the same on both sides; locals are compared nowhere.
#[test]
fn in_and_local_arrays_need_no_writes() {
    let left = "array A in [2] array B out [1] array T local [4] B[0] = A[1]";
    let right = "array A in [2] array B out [1] array T local [2] array U local [3]
        U[2] = A[1] B[0] = U[2]";
    assert_eq!(line_of_texts(left, left), "equal 1");
    assert_eq!(line_of_texts(left, right), "equal 1");
    assert_eq!(line_of_texts("array T local [2]", "array T local [2] T[0] = 1"), "equal 0");
}

/// The count is of all elements of the compared arrays, written or not.
#[test]
fn the_count_is_the_sum_of_the_sizes() {
    let head = "array A inout [7] array B out [2, 2] array C inout [5] array T local [9]";
    let fill = "for i = 0 to 1 { for j = 0 to 1 { B[i, j] = C[0] } } C[3] = 1";
    assert_eq!(items(head, fill, fill), "equal 16");
}

#[test]
fn the_first_element_is_named_whatever_it_differs_by() {
    let head = "array A inout [3] array B out [3] array C inout [2]";
    let fill = "B[0] = 1 B[1] = 1 B[2] = 1";
    let [unwritten, other] = ["B[0] = 1 B[1] = 1", "B[0] = 1 B[1] = 2 B[2] = 1"];
    assert_eq!(items(head, fill, &format!("{unwritten} C[0] = 3")), "differs 1 2");
    assert_eq!(items(head, unwritten, other), "differs 1 1");
    assert_eq!(items(head, fill, &format!("{unwritten} A[2] = 3")), "differs 0 2");
    assert_eq!(items(head, &format!("{fill} C[1] = 3"), fill), "differs 2 1");
}

#[test]
fn a_mask_leaves_unwritten_arrays_out() {
    let head = "array A in [2] array B out [3] array C inout [4] array D out [2]";
    let program = asm(&format!("{head} B[0] = 1 B[1] = 1 D[0] = 1 D[1] = 1"));
    let reply = |mask| line_of(Work::default().programs_masked(&program, &program, mask));
    assert_eq!(reply(ALL).to_string(), "differs 1 2");
    for (mask, line) in [
        (0b0010, "differs 1 2"),
        (0b1010, "differs 1 2"),
        (0b1000, "equal 2"),
        (0b1100, "equal 6"),
        (0b0100, "equal 4"),
        (0xFFFD, "equal 6"),
        (0, "equal 0"),
    ] {
        assert_eq!(reply(mask).to_string(), line, "{mask:#b}");
    }
}

/// 24 is asked first, and an unwritten element is no term.
#[test]
fn unwritten_elements_beside_4096_terms() {
    let text = |rounds: usize| {
        let head = "op f/1 array B out [2] array T local [1]";
        format!("{head} for i = 1 to {rounds} {{ T[0] = f(i) }}")
    };
    assert_eq!(line_of_texts(&text(2_048), &text(2_048)), "differs 0 0");
    let shifted = text(2_048).replace("f(i)", "f(i + 1)");
    assert_eq!(line_of_texts(&text(2_048), &shifted), "refused both 24 0");
}

#[test]
fn starting_content_on_both_sides() {
    let lines = |left: &[u8], right: &[u8], mask| {
        [Chosen::Left, Chosen::Right].map(|chosen| {
            line_of_explanation(Work::default().explain(left, right, mask, chosen)).to_string()
        })
    };
    let no_round = l_with(&[(16, 2)]);
    assert_eq!(lines(&no_round, &no_round, ALL), ["starting 1 0"; 2]);
    assert_eq!(lines(&L, &no_round, ALL), ["written 1 0 22 32 0", "starting 1 0"]);
    let one = l_with(&[(18, 0)]);
    assert_eq!(lines(&one, &one, ALL), ["starting 1 1"; 2]);
    assert_eq!(lines(&one, &one, 1), ["refused both 27 0"; 2]);
}
