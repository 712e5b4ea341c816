//! Each number with its place.

mod common;
use common::{
    asm, frame, l_with, line, line_all_of_texts, line_for, place_of, refusal, refusal_of_text, L,
};

#[test]
fn number_1() {
    assert_eq!(line_for(&[]), "refused input 1 0");
    assert_eq!(line_for(&[0]), "refused input 1 0");
    assert_eq!(line_for(&[1, 0]), "refused input 1 0");
    assert_eq!(line_for(&frame(&L, &L)[..35]), "refused input 1 0");
    // With its last byte the left is whole and the right empty.
    assert_eq!(line_for(&frame(&L, &L)[..36]), "refused right 3 0");
    // The length is little-endian: 16,384 is at most the limit, so its bytes are missed.
    assert_eq!(line_for(&[0x00, 0x40]), "refused input 1 0");
    assert_eq!(line_for(&[&[0x00, 0x40], &[0; 16_383][..]].concat()), "refused input 1 0");
    assert_eq!(line_for(&[&[0x00, 0x40], &[0; 16_384][..]].concat()), "refused left 4 0");
    assert_eq!(line_for(&[0, 0]), "refused left 3 0");
}

#[test]
fn number_2() {
    // As stated; the bytes need not follow.
    assert_eq!(line_for(&[0x01, 0x40]), "refused left 2 0");
    assert_eq!(line_for(&[0xFF, 0xFF, 1, 2, 3]), "refused left 2 0");
    assert_eq!(line(&L, &[0x41; 16_385]), "refused right 2 0");
    assert_eq!(line(&L, &[0x41; 16_384]), "refused right 4 0");
    assert_eq!(refusal(&[0; 16_385]), Some((2, 0)));
}

/// Where the fields of L begin.
const FIELDS: [usize; 25] =
    [0, 3, 5, 6, 7, 8, 9, 11, 12, 13, 15, 16, 18, 20, 22, 23, 24, 26, 27, 28, 29, 31, 32, 33, 34];

#[test]
fn number_3_at_every_cut_of_l() {
    for length in 0..L.len() {
        let field = *FIELDS.iter().rfind(|&&field| field <= length).unwrap();
        assert_eq!(refusal(&L[..length]), Some((3, field)), "cut to {length}");
    }
}

#[test]
fn number_3_in_fields_that_l_lacks() {
    let cut_behind = |text: &str, begin: &[u8], field: usize, length: usize| {
        let program = asm(text);
        let place = place_of(&program, begin) + field;
        assert_eq!(refusal(&program[..place + length]), Some((3, place)));
    };
    // A name of four bytes, all but the last there.
    cut_behind("array A out [1] A[0] = const 0xFFFFFFFF", &[0x13, 0xFF], 1, 3);
    // An arity, an operator number, the second extent, a second coefficient.
    cut_behind("op f/3 op g/4 array A out [7, 9]", &[2, 3, 4], 2, 0);
    cut_behind("op f/1 array A out [1] A[0] = f(1)", &[0x11], 1, 0);
    cut_behind("array A out [7, 9]", &[7, 0, 9], 2, 1);
    let loops = "array A out [9] for i = 0 to 1 { for j = 5*i to 1 { A[i + 3*j] = 7*i + 9*j } }";
    cut_behind(loops, &[1, 3], 1, 0);
    cut_behind(loops, &[7, 9], 1, 0);
    cut_behind(loops, &[7, 9], 0, 0);
    // A guard's form.
    cut_behind("array A out [1] if 777 >= 0 { }", &[3, 9, 3], 1, 1);
}

#[test]
fn number_4() {
    for at in 0..3 {
        assert_eq!(refusal(&l_with(&[(at, 0)])), Some((4, 0)));
    }
    assert_eq!(refusal(b"alp\x01"), Some((4, 0)));
    assert_eq!(refusal(b"AL"), Some((3, 0)));
    assert_eq!(refusal(b"XY"), Some((3, 0)));
}

#[test]
fn number_5() {
    assert_eq!(refusal(&l_with(&[(3, 0)])), Some((5, 3)));
    assert_eq!(refusal(&l_with(&[(4, 1)])), Some((5, 3)));
}

#[test]
fn number_6() {
    assert_eq!(refusal(&l_with(&[(5, 17)])), Some((6, 5)));
    assert_eq!(refusal(&l_with(&[(5, 255)])), Some((6, 5)));
    assert_eq!(refusal_of_text("op f/0 array A out [1]"), Some((6, 6)));
    assert_eq!(refusal_of_text("op f/4 op g/5 array A out [1]"), Some((6, 7)));
    // With one operator, byte 6 is its arity and byte 7 an array count of 0.
    assert_eq!(refusal(&l_with(&[(5, 1)])), Some((7, 7)));
}

#[test]
fn number_7() {
    assert_eq!(refusal(&l_with(&[(6, 0)])), Some((7, 6)));
    assert_eq!(refusal(&l_with(&[(6, 17)])), Some((7, 6)));
    assert_eq!(refusal(&l_with(&[(7, 4)])), Some((7, 7)));
    assert_eq!(refusal(&l_with(&[(11, 255)])), Some((7, 11)));
    assert_eq!(refusal(&l_with(&[(8, 0)])), Some((7, 8)));
    assert_eq!(refusal(&l_with(&[(8, 4)])), Some((7, 8)));
    assert_eq!(refusal(&l_with(&[(9, 0)])), Some((7, 9)));
    assert_eq!(refusal(&l_with(&[(9, 1), (10, 4)])), Some((7, 9)));
    assert_eq!(refusal(&l_with(&[(13, 0)])), Some((7, 13)));
    // Another role after a local; two locals are in order.
    assert_eq!(refusal(&l_with(&[(7, 3)])), Some((7, 11)));
    for role in ["in", "out", "inout"] {
        let text = format!("array A out [1] array B local [1] array C {role} [1]");
        assert_eq!(refusal_of_text(&text), Some((7, 15)));
    }
    assert_eq!(refusal_of_text("array A local [1] array B local [1]"), None);
}

#[test]
fn number_8() {
    let text = "array A in [1024] array B in [1023] array C in [2] array D in [1]";
    assert_eq!(refusal_of_text(text), Some((8, 15)));
    assert_eq!(refusal_of_text("array A in [1024, 1024, 1024]"), Some((8, 7)));
}

#[test]
fn number_9() {
    for code in [0x04, 0x0F, 0x10, 0x11, 0x12, 0x13, 0x14, 0xFF] {
        assert_eq!(refusal(&l_with(&[(15, code)])), Some((9, 15)));
        assert_eq!(refusal(&l_with(&[(22, code)])), Some((9, 22)));
        assert_eq!(refusal(&l_with(&[(32, code)])), Some((9, 32)));
    }
    for code in [0x00, 0x01, 0x02, 0x03, 0x0F, 0x14, 0xFF] {
        assert_eq!(refusal(&l_with(&[(27, code)])), Some((9, 27)));
    }
}

#[test]
fn number_10() {
    assert_eq!(refusal(&l_with(&[(23, 2)])), Some((10, 23)));
    assert_eq!(refusal(&l_with(&[(28, 2)])), Some((10, 28)));
    assert_eq!(refusal(&l_with(&[(28, 255)])), Some((10, 28)));
    // L declares no operator at all.
    assert_eq!(refusal(&l_with(&[(27, 0x11)])), Some((10, 28)));
    let mut program = asm("op f/1 op g/1 array A out [1] A[0] = g(const 5)");
    let number = place_of(&program, &[0x11, 1]) + 1;
    program[number] = 2;
    assert_eq!(refusal(&program), Some((10, number)));
}

#[test]
fn number_11() {
    assert_eq!(refusal(&l_with(&[(20, 0)])), Some((11, 20)));
    // 256 is a step.
    assert_eq!(refusal(&l_with(&[(20, 0), (21, 1)])), None);
}

#[test]
fn number_12() {
    let guards = "if 0 >= 0 {".repeat(9) + &"}".repeat(9);
    assert_eq!(refusal_of_text(&format!("array A in [1] {guards}")), Some((12, 11 + 8 * 3)));
    let unary = "f(".repeat(13) + "7" + &")".repeat(13);
    let text = format!("op f/1 array A out [1] A[0] = {unary}");
    assert_eq!(refusal_of_text(&text), Some((12, 12 + 4 + 12 * 2)));
}

#[test]
fn number_13() {
    assert_eq!(refusal(&l_with(&[(23, 0)])), Some((13, 23)));
    assert_eq!(refusal(&l_with(&[(11, 0)])), Some((13, 23)));
}

#[test]
fn number_14() {
    assert_eq!(refusal(&[&L[..], &[0]].concat()), Some((14, 34)));
    assert_eq!(refusal(&[&L[..], &[9, 9, 9]].concat()), Some((14, 34)));
    assert_eq!(refusal(&l_with(&[(15, 0)])), Some((14, 16)));
}

#[test]
fn number_15() {
    let text = "array A in [1] for i = 1 to 1 { for j = 0 to 32767 + i step -1 { } }";
    assert_eq!(refusal_of_text(text), Some((15, 18)));
    let text = "array A in [1] for i = 1 to 1 { for j = -32768 - i to 0 step -1 { } }";
    assert_eq!(refusal_of_text(text), Some((15, 18)));
    // Only on entry: the third outer round.
    let text = "array A inout [1] for i = 0 to 9 { for j = 32765 + i to 0 { } A[i] = 1 }";
    assert_eq!(refusal_of_text(text), Some((16, 28)));
    let text = "array A inout [9] for i = 0 to 9 { for j = 32765 + i to 0 { } A[i] = 1 }";
    assert_eq!(refusal_of_text(text), Some((15, 18)));
}

#[test]
fn number_16() {
    assert_eq!(refusal(&l_with(&[(24, 0xFF), (25, 0xFF)])), Some((16, 22)));
    assert_eq!(refusal(&l_with(&[(29, 1)])), Some((16, 22)));
    // Each subscript by itself, though the cell would be there.
    let text = "array A out [3, 3] array B in [1] A[0, 3] = B[0]";
    assert_eq!(refusal_of_text(text), Some((16, 17)));
    let text = "array A out [3, 3] array B in [1] A[1, -1] = B[0]";
    assert_eq!(refusal_of_text(text), Some((16, 17)));
    let text = "array A out [3] array B in [2, 2, 2] A[0] = B[0, 2, 0]";
    assert_eq!(refusal_of_text(text), Some((16, 19)));
}

#[test]
fn number_17() {
    assert_eq!(refusal(&l_with(&[(28, 1)])), Some((17, 22)));
    assert_eq!(refusal_of_text("array A out [2] A[0] = A[0]"), Some((17, 11)));
    assert_eq!(refusal_of_text("array A out [2] A[0] = 1 A[1] = A[0]"), None);
    assert_eq!(refusal_of_text("array A out [2] A[0] = 1 A[0] = A[1]"), Some((17, 18)));
    assert_eq!(refusal_of_text("array A out [2] array T local [1] A[0] = T[0]"), Some((17, 15)));
    assert_eq!(refusal_of_text("array A inout [2] A[0] = A[1]"), None);
}

#[test]
fn number_18() {
    let text = "array A in [1] for i = -32768 to 32767 { } for i = 3 to 3 { }";
    assert_eq!(refusal_of_text(text), Some((18, 19)));
    let text = "array A in [1] for i = 1 to 2 { for j = -32768 to 32767 { } }";
    assert_eq!(refusal_of_text(text), Some((18, 18)));
    let text = "array A in [1] for i = 1 to 256 { for j = 1 to 255 { } }";
    assert_eq!(refusal_of_text(text), None);
    let text = "array A in [1] for i = 1 to 257 { for j = 1 to 255 { } }";
    assert_eq!(refusal_of_text(text), Some((18, 11)));
}

#[test]
fn number_19() {
    let text = "array A out [1] for i = 1 to 2048 { A[0] = i } A[0] = 9";
    // Behind 11 bytes of tables, a loop of 7 + 1 and a statement of 9.
    assert_eq!(refusal_of_text(text), Some((19, 11 + 7 + 9 + 1)));
}

#[test]
fn number_20() {
    let text =
        "op f/3 array A out [1] for i = 1 to 2047 { A[0] = f(1, 2, 3) } A[0] = f(1, 2, f(4, 5, 6))";
    let program = asm(text);
    // Behind 12 bytes of tables, a loop of 7 + 1 and a statement of 17.
    assert_eq!(refusal(&program), Some((20, 12 + 7 + 4 + 1 + 2 + 3 * 4 + 1)));
}

#[test]
fn number_22() {
    let unlike = |left: &str, right: &str| line_all_of_texts(left, right);
    let base = "array A in [2] array B inout [3]";
    assert_eq!(unlike(base, "array A in [2] array B inout [4]"), "refused both 22 1");
    assert_eq!(unlike(base, "array A inout [2] array B inout [3]"), "refused both 22 0");
    assert_eq!(unlike(base, "array A in [2] array B inout [3, 1]"), "refused both 22 1");
    assert_eq!(unlike(base, "array A in [2]"), "refused both 22 1");
    assert_eq!(unlike("array A in [2]", base), "refused both 22 1");
    assert_eq!(
        unlike(base, "array A in [2] array B inout [3] array C in [1]"),
        "refused both 22 2"
    );
    // Locals are private.
    assert_eq!(unlike(base, "array A in [2] array B inout [3] array T local [5]"), "equal 3");
    assert_eq!(unlike("array T local [5]", "array T local [6] array U local [2]"), "equal 0");
    assert_eq!(unlike("array T local [5]", "array A in [1]"), "refused both 22 0");
    // The same number of cells is not the same extents.
    assert_eq!(unlike("array A out [2, 3]", "array A out [3, 2]"), "refused both 22 0");
}

#[test]
fn number_23() {
    let with = |operators: &str| format!("{operators} array A inout [1]");
    let unlike = |left, right| line_all_of_texts(&with(left), &with(right));
    assert_eq!(unlike("op f/1 op g/2", "op f/1 op g/3"), "refused both 23 1");
    assert_eq!(unlike("op f/1 op g/2", "op f/2 op g/2"), "refused both 23 0");
    assert_eq!(unlike("op f/1 op g/2", "op f/1"), "refused both 23 1");
    assert_eq!(unlike("", "op f/1"), "refused both 23 0");
    assert_eq!(unlike("op f/1", "op f/1"), "equal 1");
}

#[test]
fn number_24() {
    // 2,048 updates that each add a term and a literal, and one starting cell.
    let text = "op f/2 array A inout [1] for i = 1 to 2048 { A[0] = f(A[0], i) }";
    assert_eq!(line_all_of_texts(text, text), "refused both 24 0");
    let text = "op f/2 array A inout [1] for i = 1 to 2047 { A[0] = f(A[0], i) }";
    assert_eq!(line_all_of_texts(text, text), "equal 1");
}
